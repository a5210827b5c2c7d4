#!/usr/bin/env python3
"""Times the gate from nothing, crate by crate, and writes the table of docs/layers.md anew.

    gate.py [--sizes]

To be run at the top of a clone, on a machine with nothing else to do. It runs `rt ci` from nothing, looks once a second at
the provers that this starts, and no others, and adds up the processor seconds of each crate: of its proof, of that of its tests, and
of its edits with the checks that these begin and end with. With --sizes nothing is proved: the lines and edits are
counted anew, and the seconds stay as they stand in the table. docs/measured.md has the time of the whole.
"""

import os
import pathlib
import re
import subprocess
import sys
import time

ROOT = pathlib.Path(__file__).resolve().parent.parent
TABLE = ROOT / "docs" / "layers.md"
ROW = re.compile(r"^\| `(\w+)` \|(?: *\d+ *\|){4}([^|]*)\|([^|]*)\|([^|]*)\|$")
TICKS = os.sysconf("SC_CLK_TCK")


def processes():
    """Each process: its parent, its words, its processor seconds, and when it began."""
    found = {}
    for folder in pathlib.Path("/proc").iterdir():
        if folder.name.isdigit():
            try:
                stat = (folder / "stat").read_text().rpartition(")")[2].split()
                words = (folder / "cmdline").read_text(errors="replace").split("\0")
            except OSError:
                continue
            found[int(folder.name)] = int(stat[1]), words, (int(stat[11]) + int(stat[12])) / TICKS, stat[19]
    return found


def crate_and_kind(words):
    """The crate that a prover is at work on, and whether on its proof, its tests or its edits; or nothing."""
    if "--crate-name" not in words:
        return None
    crate = words[words.index("--crate-name") + 1]
    if "--test" in words or any(word.endswith("_tests.o") for word in words):
        return crate, "tests"
    # a program is checked before it is built; edits are checks too, and have no place for what they prove
    is_edit = "check" in words[:3] and "-o" not in words
    return crate, "edits" if is_edit else "proof"


def told_by_ancestors(process, found, gate):
    """What the nearest of a process and those that started it is at work on, where the gate started it."""
    told = None
    while process in found:
        if process == gate:
            return told
        told = told or crate_and_kind(found[process][1])
        process = found[process][0]
    return None


def anew():
    """The word by which the gate proves all anew, in a toolchain whose gate keeps what it proved before."""
    said = subprocess.run(["rt", "help"], capture_output=True, text=True)
    return ["--anew"] if "--anew" in said.stdout + said.stderr else []


def run_gate():
    """Runs the gate, and returns its status, its minutes, and the processor seconds by crate and kind."""
    seen = {}
    began = time.monotonic()
    gate = subprocess.Popen(["rt", "ci", *anew()], cwd=ROOT, stdin=subprocess.DEVNULL)
    while gate.poll() is None:
        found = processes()
        for process, (_, _, seconds, start) in found.items():
            told = told_by_ancestors(process, found, gate.pid)
            if told:
                seen[process, start] = told, seconds
        time.sleep(1)
    minutes = (time.monotonic() - began) / 60
    seconds = {}
    for told, spent in seen.values():
        seconds[told] = seconds.get(told, 0) + spent
    return gate.returncode, minutes, seconds


def lines_below(folder, ending):
    """How many lines the files of a folder have together."""
    return sum(len(file.read_text().splitlines()) for file in folder.rglob("*" + ending))


def row(crate, seconds, old):
    """The row of a crate, with the seconds that are told or, where none are, those of the old row."""
    folder = ROOT / "crates" / crate
    sizes = [
        lines_below(folder / "src", ".rt"),
        lines_below(folder / "specs", ".antt"),
        lines_below(folder / "proofs", ".antt"),
        len(list(folder.glob("must-fail/*.edit"))),
    ]
    kinds = ["proof", "tests", "edits"]
    spent = [f"{seconds[crate, kind]:.0f}" if (crate, kind) in seconds else "" for kind in kinds] if seconds else old
    return f"| `{crate}` | " + " | ".join(map(str, [*sizes, *spent])) + " |"


def write_table(seconds):
    """Writes the rows of the table anew, in the order in which they stand."""
    lines = TABLE.read_text().split("\n")
    for place, line in enumerate(lines):
        found = ROW.match(line)
        if found:
            lines[place] = row(found[1], seconds, [cell.strip() for cell in found.groups()[1:]])
    TABLE.write_text("\n".join(lines))


def main():
    if sys.argv[1:] == ["--sizes"]:
        write_table({})
        return 0
    if sys.argv[1:]:
        print(__doc__.strip())
        return 0 if sys.argv[1:] == ["--help"] else 1
    status, minutes, seconds = run_gate()
    if status == 0:
        write_table(seconds)
    parts = {kind: sum(spent for told, spent in seconds.items() if told[1] == kind) / 60 for kind in ("proof", "tests", "edits")}
    print(f"the gate took {minutes:.1f} minutes; of a processor: proofs {parts['proof']:.0f}, tests {parts['tests']:.0f}, edits {parts['edits']:.0f}")
    return status


if __name__ == "__main__":
    sys.exit(main())
