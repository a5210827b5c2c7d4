#!/usr/bin/env python3
"""Installs a program in a folder, and asks what stands there; runs the Makefile of docs/using.md, and the lines of editors/.

    test_install.py PDL

PDL is the program. It stands as the proved one in a tree of its own, where `make install` has to take it, and to refuse it
where it isn't there or a source is newer. What is installed has to answer: the program, its manual page, and its completions
for bash. Where zsh is installed, it has to read those for it. With Vim, `:make` has to go to a refused line, and the problem
matcher for VS Code has to read one.
"""

import json
import os
import pathlib
import re
import shutil
import subprocess
import tempfile
import time

import command_table
import usage

TOP = command_table.TOP
COUNTER = ["run", str(TOP / "examples" / "counter.pdl"), str(TOP / "examples" / "zeros.img"), "3"]
QUIET = {**os.environ, "PYTHONDONTWRITEBYTECODE": "1"}
# Where what is installed stands, below the prefix.
PLACES = ["bin/pdl", "share/man/man1/pdl.1", "share/bash-completion/completions/pdl", "share/zsh/site-functions/_pdl"]
# Words before the cursor, and what bash has to offer in a folder with a file of each kind.
OFFERED = [
    ("pdl r", ["run"]), ("pdl s", ["seq", "sim"]), ("pdl check ", ["a.pdl", "folder"]), ("pdl run a.pdl ", ["a.img", "folder"]),
    ("pdl run a.pdl a.img ", []), ("pdl run -", ["--delays"]), ("pdl run --delays ", ["a.delays", "folder"]),
    ("pdl run --delays = a.d", ["a.delays"]), ("pdl run --delays = a.delays a.pdl ", ["a.img", "folder"]),
    ("pdl run --delays a.delays -", []), ("pdl seq -", []), ("pdl sim ", ["a.v", "folder"]), ("pdl asm ", ["a.toml", "folder"]),
    ("pdl asm a.toml ", ["a.asm", "folder"]), ("pdl gen ", []), ("pdl none ", []),
]


def ran(words, folder, **more):
    return subprocess.run(words, cwd=folder, capture_output=True, text=True, **more)


def tree(folder):
    """What `make install` reads of the tree, with one crate, and without a program."""
    for name in ("Makefile", "pdl", "crates.txt"):
        shutil.copy(TOP / name, folder / name)
    shutil.copytree(TOP / "install", folder / "install")
    for name in ("src", "specs", "proofs", "out"):
        (folder / "crates" / "pdl" / name).mkdir(parents=True)
    source = folder / "crates" / "pdl" / "src" / "main.rt"
    source.write_text("")
    return source, folder / "crates" / "pdl" / "out" / "pdl"


def refusals(program, folder):
    """How `make install` doesn't refuse what it has to, and what stands there then."""
    source, proved = tree(folder)
    prefix = folder / "prefix"
    for says in ("there is no proved program; bash .ci/run", "a source has changed since the program was proved; bash .ci/run"):
        found = ran(["make", "install", f"PREFIX={prefix}"], folder)
        if not found.returncode or says not in found.stderr or prefix.exists():
            yield f"make install: status {found.returncode}, and not `{says}`: {found.stderr}"
        # The next time the program is there, and older than its sources.
        shutil.copy(program, proved)
        os.utime(proved, (time.time() - 60, time.time() - 60))


def installed(folder):
    """What is wrong with what `make install` installs of a fresh program, and with `make uninstall`."""
    proved = folder / "crates" / "pdl" / "out" / "pdl"
    os.utime(proved, (time.time() + 60, time.time() + 60))
    stage = folder / "stage of it"
    for words in (["PREFIX=/usr", f"DESTDIR={stage}"], [f"PREFIX={stage}/usr"]):
        found = ran(["make", "install", *words], folder)
        there = sorted(str(it.relative_to(stage / "usr")) for it in stage.glob("usr/**/*") if it.is_file())
        if found.returncode or there != sorted(PLACES):
            yield f"make install {words}: status {found.returncode}, and {there}: {found.stderr}"
        yield from wrong_program(proved, stage / "usr" / "bin" / "pdl")
        yield from wrong_manual(stage / "usr" / "share" / "man")
        yield from wrong_completions(stage / "usr" / "share", folder)
        ran(["make", "uninstall", *words], folder)
        if any(it.is_file() for it in stage.glob("**/*")):
            yield f"make uninstall {words} leaves a file"


def wrong_program(proved, program):
    """Whether the installed program is another one, or does other than it."""
    if program.read_bytes() != proved.read_bytes():
        yield "another program is installed"
    if [ran([program, *COUNTER], ".").stdout, ran([program], ".").stderr, ran([program], ".").returncode] != \
            [ran([proved, *COUNTER], ".").stdout, "usage\n", 1]:
        yield "the installed program does other than the one that was proved"


def wrong_manual(folder):
    """What the programs that show manual pages have against the installed one, and what it doesn't tell."""
    page = folder / "man1" / "pdl.1"
    if shutil.which("groff"):
        found = ran(["groff", "-man", "-ww", "-Tutf8", "-z", page], ".")
        if found.returncode or found.stderr:
            yield f"groff has something against pdl.1: {found.stderr}"
    if not shutil.which("man"):
        return
    shown = ran(["man", "-M", folder, "pdl"], ".", env={**os.environ, "MANPAGER": "cat", "MANWIDTH": "200"}).stdout
    shown = re.sub("\x1b\\[[0-9;]*m|.\b", "", shown)
    for it in command_table.listed():
        if f"pdl {it.name} {' '.join(it.words)}{' [--delays FILE]' if it.has_delays else ''}" not in shown:
            yield f"man pdl does not show the command {it.name}"


def wrong_completions(share, folder):
    """What bash offers otherwise than it should, and whether zsh reads what is for it."""
    inside = folder / "files"
    (inside / "folder").mkdir(parents=True, exist_ok=True)
    for ending in ("pdl", "img", "v", "toml", "asm", "delays", "txt"):
        (inside / f"a.{ending}").write_text("")
    for line, due in OFFERED:
        ask = 'source "$1"; COMP_WORDS=("${@:2}") COMP_CWORD=$(($# - 2)); _pdl; printf "%s\\n" "${COMPREPLY[@]}"'
        found = ran(["bash", "-c", ask, "bash", share / "bash-completion" / "completions" / "pdl", *line.split(" ")], inside)
        if found.stderr or sorted(found.stdout.split()) != due:
            yield f"bash offers {found.stdout.split()} after `{line}`, and not {due}: {found.stderr}"
    if shutil.which("zsh"):
        found = ran(["zsh", "-n", share / "zsh" / "site-functions" / "_pdl"], inside)
        if found.returncode or found.stderr:
            yield f"zsh does not read _pdl: {found.stderr}"


def wrong_example(program, folder):
    """What the Makefile of docs/using.md does otherwise than the page says."""
    page = (TOP / "docs" / "using.md").read_text()
    (folder / "Makefile").write_text(re.search(r"^```make\n(.*?)^```$", page, re.M | re.S)[1])
    for name, file in (("core.pdl", "loadstore_bypass.pdl"), ("isa.toml", "loadstore.toml"), ("program.asm", "array.asm")):
        shutil.copy(TOP / "examples" / file, folder / name)
    (folder / "wrong.pdl").write_text("pipe")
    (folder / "bin").mkdir()
    (folder / "bin" / "pdl").symlink_to(program)
    path = {**os.environ, "PATH": f"{folder / 'bin'}{os.pathsep}{os.environ['PATH']}"}
    made = ran(["make", "core.v", "program.img", "core.out", "core.vcd"], folder, env=path)
    if made.returncode:
        yield f"the Makefile of docs/using.md: {made.stderr}"
    elif (folder / "core.out").read_text() != (TOP / "examples" / "array_bypass.out").read_text():
        yield "the Makefile of docs/using.md makes another run than examples/array_bypass.out"
    if not ran(["make", "wrong.v"], folder, env=path).returncode or (folder / "wrong.v").exists():
        yield "the Makefile of docs/using.md leaves a file of what is refused"


def wrong_editors(program, folder):
    """What the lines of editors/README.md don't install, and what Vim's `:make` doesn't find."""
    lines = re.findall(r"^    (.*)$", (TOP / "editors" / "README.md").read_text(), re.M)
    home = {**QUIET, "HOME": str(folder)}
    for line in lines:
        found = ran(["bash", "-c", line], TOP, env=home)
        if found.returncode:
            yield f"editors/README.md: {line}: {found.stderr}"
    for place in (".vim/syntax/pdl.vim", ".config/nvim/syntax/pdl.vim", ".vscode/extensions/pevdorinc.pdl-1.0.0/package.json"):
        if not (folder / place).exists():
            yield f"the lines of editors/README.md don't install {place}"
    (folder / "wrong.pdl").write_text(pathlib.Path(COUNTER[1]).read_text().replace("4'd1", "8'd1"))
    if not shutil.which("vim"):
        return
    (folder / "bin").mkdir()
    (folder / "bin" / "pdl").symlink_to(program)
    ask = ["vim", "-es", "-c", "filetype plugin on", "-c", "edit wrong.pdl", "-c", "silent make", "-c",
           "call writefile([getline('.')] + map(getqflist(), 'v:val.text'), 'found')", "-c", "qa!"]
    for tools in ("", f"{os.pathsep}{TOP / 'tools'}"):
        path = f"{folder / 'bin'}{tools}{os.pathsep}{os.environ['PATH']}"
        ran(ask, folder, env={**home, "PATH": path, "TERM": "dumb"}, stdin=subprocess.DEVNULL)
        found = (folder / "found").read_text() if (folder / "found").exists() else ""
        if "call(n + 8'd1)" not in found.split("\n")[0] or (tools and "`n` has 4 bits" not in found):
            yield f"Vim's :make finds {found!r}{' with the tools on the path' if tools else ''}"


def wrong_matcher(program, folder):
    """What of a refusal the problem matcher of editors/vscode doesn't find in the line of problems.py."""
    package, tasks = (json.loads((TOP / "editors" / "vscode" / it).read_text()) for it in ("package.json", "tasks.json"))
    matcher, task = package["contributes"]["problemMatchers"][0], tasks["tasks"][0]
    if task["problemMatcher"] != f"${matcher['name']}" or not os.access(TOP / "tools" / task["command"], os.X_OK):
        yield "editors/vscode/tasks.json names another matcher, or no tool"
    words = [str(TOP / "tools" / task["command"]), program]
    pattern, file = matcher["pattern"], folder / "wrong.pdl"
    found = re.fullmatch(pattern["regexp"], ran([*words, file], folder, env=QUIET).stdout.strip())
    told = {it: found[pattern[it]] for it in ("file", "line", "code", "message")} if found else {}
    said = told.pop("message", "")
    if told != {"file": str(file), "line": "14", "code": "W1"} or "`n` has 4 bits" not in said:
        yield f"the problem matcher finds {told} and {said!r}"
    if re.search(pattern["regexp"], ran([*words, COUNTER[1]], folder, env=QUIET).stdout):
        yield "the problem matcher finds something in what is accepted"


def main():
    program = usage.program(usage.words(__doc__, 1, 1)[0])
    if not shutil.which("make"):
        print("make is not installed")
        return 0
    found = []
    with tempfile.TemporaryDirectory() as name:
        folders = [pathlib.Path(name) / it for it in ("tree", "example", "home")]
        for it in folders:
            it.mkdir()
        found += [*refusals(program, folders[0]), *installed(folders[0])]
        found += [*wrong_example(program, folders[1]), *wrong_editors(program, folders[2]), *wrong_matcher(program, folders[2])]
    print("".join(f"{it}\n" for it in found), end="")
    return 1 if found else 0


if __name__ == "__main__":
    usage.runs(main)
