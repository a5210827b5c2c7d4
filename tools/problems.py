#!/usr/bin/env python3
"""Checks a source, and says of a refusal in one line what an editor reads, with what of the source breaks the rule.

    problems.py PDL SOURCE

PDL is the program, which is asked `check SOURCE`. Where it refuses the source the line is `SOURCE: refused L2 line 15: ..`,
with what tools/why.py says of it or, where that says nothing, what the rule says. Else it is what the program prints. It ends
with the program's status. `editors/` has what reads the line in Vim and in VS Code.
"""

import pathlib
import re
import subprocess

import explain
import usage


def problem(source, refusal, rule, line):
    """The line of a refusal."""
    text = pathlib.Path(source).read_bytes().decode("utf-8", "replace")
    more = explain.of_this_source(text, rule, line) or [explain.told(rule)[1]]
    return " ".join(f"{source}: {refusal}: {'; '.join(more)}".split("\n")).removesuffix(": ")


def main():
    program, source = usage.words(__doc__, 2, 2)
    ran = subprocess.run([program, "check", source], capture_output=True, text=True)
    found = re.search(r"^refused (\w+) line (\d+)$", ran.stderr, re.M)
    print(problem(source, found[0], found[1], int(found[2])) if found else (ran.stdout + ran.stderr).rstrip("\n"))
    return ran.returncode


if __name__ == "__main__":
    usage.runs(main)
