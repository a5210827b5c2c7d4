#!/usr/bin/env python3
"""Asks a built program `pdl` at the edge of the system: outputs that fail, files that can't be read or that change, words that
are no text, little memory, and little stack. docs/edge.md has what is asked, and what was found.

    edge.py PDL

Each answer has to be a status that is right there, one of the six, with its text on the right output and nothing on the other,
and no signal may end the program. Each case is a line, `known` where docs/edge.md says what the system does instead; then comes
a summary. The status is 1 where anything else is wrong. For files of another user it has to be run by root.
"""

import bisect
import os
import pathlib
import re
import resource
import shutil
import signal
import subprocess
import tempfile
import threading

import usage

HEAD = ("pipe p(n: uint<4>)[m: uint<8>[4] comb lock queue(1)] { a = n[1:0]; v = zext(n, 8); reserve(m[a], W); block(m[a]); "
        "m[a] <- v; release(m[a]); ")
CALL = "call(n + 4'd1); } start p(4'd0);"
# 64 open brackets, ten guards in one another, and statements of 256 operators that are grouped in each way.
DEEP = (f"{HEAD}g = n == 4'd0; if (g) {{ {' '.join(f'if (n == 4{chr(39)}d{it}) {{' for it in range(9))} "
        f"b = {'(' * 53}{'~' * 256}n{')' * 53}; c = n{' + n' * 256}; d = {'g ? n : ' * 256}n; e = {'~(' * 53}n{')' * 53}; "
        f"f = {'g ? ' * 256}n{' : n' * 256}; h = {'zext(' * 53}n{', 4)' * 53}; {'} ' * 10}{CALL}")
TABLE = 'word = 8\nmem = "im"\n[[insn]]\nname = "b"\nargs = ["t:rel"]\nbits = "100 ttttt"\n'
SAID = {0: rb"", 1: rb"usage\n", 2: rb"refused [A-Z][0-9] (line|insn) [0-9]+\n", 3: rb"read fault\n", 4: rb"", 5: rb"no memory\n"}
DEEPER = {  # what is refused, by its command
    "brackets": ("check", HEAD + "x = " + "(" * 500000), "branches": ("check", HEAD + "if (n) { " * 100000),
    "operators": ("check", HEAD + "x = " + "~" * 500000), "dots": ("asm", "a." * 300000 + "a = 1"),
    "lists": ("asm", "word = " + "[" * 500000 + "]" * 500000), "tables": ("asm", "word = " + "{a=" * 300000)}
PIPE, CYCLES, MEBIBYTE = subprocess.PIPE, 20000, 1 << 20


def limit(what, size):
    return lambda: resource.setrlimit(what, (size, size))


def feed(path, pieces):
    """Writes the pieces into a pipe with a name."""
    with open(path, "wb", buffering=0) as pipe:
        [pipe.write(piece) for piece in pieces]


def change(path, text, done, grows):
    """Makes a file longer, or shorter and longer, until told."""
    with open(path, "r+b", buffering=0) as file:
        while not done.is_set() and os.path.getsize(path) < 64 * MEBIBYTE:
            (file.seek(0, 2), file.write(b" " * 65536)) if grows else (file.truncate(90), file.seek(0), file.write(text))


class Edge:
    def __init__(self, program, folder):
        self.program, self.folder, self.counts = shutil.copy(program, folder), folder, {"right": 0, "WRONG": 0, "known": 0}
        os.chmod(folder, 0o755), os.chmod(self.program, 0o755)
        self.counter, self.image, deep = self.put("a.pdl", HEAD + CALL), self.put("e.img", "image 1\n"), self.put("deep.pdl", DEEP)
        broad = self.put("broad.pdl", HEAD + "".join(f"x{it} = n; " for it in range(505)) + CALL)
        self.netlist = self.start(["build", self.counter]).communicate()[0]
        self.short, self.run = (["run", self.counter, self.image, str(it)] for it in (3, CYCLES))
        self.commands = {"run": self.run, "view": ["view", *self.run[1:]], "seq": ["seq", *self.run[1:]], "gen": ["gen", "5"],
                         "check": ["check", broad], "build": ["build", broad],
                         "check of the deepest": ["check", deep], "build of the deepest": ["build", deep],
                         "run of the deepest": ["run", deep, self.image, "3"],
                         "view of the deepest": ["view", deep, self.image, "3"],
                         "sim": ["sim", self.put("a.v", self.netlist), self.image, "300"],
                         "asm": ["asm", self.put("t.toml", TABLE), self.put("t.asm", ".word 1\n" * 5000)]}
        self.texts = {name: self.start(words).communicate()[0] for name, words in self.commands.items()}

    def put(self, name, text):
        (self.folder / name).write_bytes(text if isinstance(text, bytes) else text.encode())
        return str(self.folder / name)

    def start(self, words, *steps, out=PIPE, err=PIPE, **how):
        """The program, after the steps in its process."""
        return subprocess.Popen([self.program, *words], stdin=subprocess.DEVNULL, stdout=out, stderr=err, bufsize=0,
                                preexec_fn=lambda: [step() for step in steps], **how)

    def tell(self, name, status, seen, said, wanted, text=None, known=None):
        """Judges an answer; an output that isn't seen is None, and so is a text, on either, that isn't known."""
        complaint = ""
        if status < 0:
            complaint = f"ended by {signal.Signals(-status).name}"
        elif status not in wanted:
            complaint = f"status {status} with {(said or b'')[:200]}, where {sorted(wanted)} would be right"
        elif said is not None and not re.fullmatch(text if text and status == 2 else SAID[status], said):
            complaint = f"status {status} with {said[:200]} on the error output"
        elif seen and (status not in (0, 4) or text is not None and seen != text[:len(seen) if status else None]):
            complaint = f"status {status} with another text on the output: {seen[:200]}"
        verdict = "right" if not complaint else "known" if -status == known else "WRONG"
        self.counts[verdict] += 1
        print(f"{verdict}: {name}: {complaint or f'status {status}'}", flush=True)

    def case(self, name, words, wanted, *steps, text=None, known=None, **how):
        ran = self.start(words, *steps, **how)
        seen, said = ran.communicate(timeout=900)
        self.tell(name, ran.returncode, seen, said, wanted, text, known)

    def outputs(self):
        """Outputs that are closed, full, limited, or whose reader goes away."""
        full = os.open("/dev/full", os.O_WRONLY)
        others = {"usage": ([], 1), "a fault": (["check", str(self.folder / "none")], 3), "a refusal": (["check", os.devnull], 2)}
        self.case("a closed output", self.short, {4}, lambda: os.close(1), out=None)
        self.case("a full output", self.run, {4}, out=full)
        self.case("an output that can only be read", self.run, {4}, out=os.open(os.devnull, os.O_RDONLY))
        self.case("all three closed", self.short, {4}, lambda: os.closerange(0, 3), out=None, err=None)
        for name, (words, status) in others.items():
            self.case(f"{name}, a closed error output", words, {status}, lambda: os.close(2), err=None)
            self.case(f"{name}, a full error output", words, {status}, err=full)
        for kept, how in ((True, "by default"), (False, "ignored")):
            for size in [0, 1, 12, 13, 4095, 4096, 4097, 65536, 65537, 150000]:
                ran = self.start(self.run, restore_signals=kept)
                seen = b"".join(ran.stdout.read(1) for _ in range(size))
                ran.stdout.close()
                name = f"a reader that goes away after {size} bytes, SIGPIPE {how}"
                self.tell(name, ran.wait(), seen, ran.stderr.read(), {4}, self.texts["run"])
            gone, writer = os.pipe()
            os.close(gone)
            self.case(f"no reader of three lines, SIGPIPE {how}", self.short, {4}, out=writer, restore_signals=kept)
            for name, (words, status) in others.items():
                self.case(f"{name}, no reader of it, SIGPIPE {how}", words, {status}, err=writer, restore_signals=kept)
            self.case(f"at most 8192 bytes in a file, SIGXFSZ {how}", self.run, {4}, limit(resource.RLIMIT_FSIZE, 8192),
                      out=open(self.folder / "file", "wb"), restore_signals=kept, known=signal.SIGXFSZ if kept else None)
        reader, writer = os.pipe()
        os.set_blocking(writer, False)
        self.case("a full pipe that doesn't wait", self.run, {4}, out=writer)

    def sources(self):
        """Files that can't be read, or whose bytes come in another way, and odd words."""
        os.chmod(self.put("closed", "x"), 0)
        os.symlink("loop", self.folder / "loop")
        nobody = {"user": "nobody", "extra_groups": []} if os.geteuid() == 0 else {}
        for name, path in {"a folder": "", "a file of another user": "closed", "a link to itself": "loop", "a long name": "a" * 300,
                           "a long path": "a/" * 2499, "a file in a file": "a.pdl/a", "memory that isn't there": "/proc/self/mem"}.items():
            for words in (["check", path := str(self.folder / path)], ["run", self.counter, path, "3"], ["asm", path, path], ["sim", path, path, "3"]):
                self.case(f"{words[0]} of {name}", words, {3}, **nobody)
        whole, pipe = (HEAD + CALL).encode(), str(self.folder / "pipe")
        os.mkfifo(pipe)
        for name, pieces, status in [("whole", [whole], 0), ("byte by byte", [bytes([it]) for it in whole], 0), ("cut", [whole[:90]], 2),
                                     ("closed at once", [], 2), ("with two mebibytes after it", [whole, b"\n" * 2 * MEBIBYTE], 2)]:
            threading.Thread(target=feed, args=(pipe, pieces), daemon=True).start()
            self.case(f"a source by a pipe with a name, {name}", ["check", pipe], {status})
        self.case("a source that is empty", ["check", os.devnull], {2})
        self.case("a source without end", ["check", "/dev/zero"], {3})
        for size, status in [(1 << 28, 2), ((1 << 28) + 1, 3)]:
            os.truncate(path := self.put("zeros", ""), size)
            self.case(f"a source of {size} bytes", ["check", path], {status})
        for turn in range(20):
            path, done, grows = self.put("changing", whole), threading.Event(), turn % 2 == 0
            writer = threading.Thread(target=change, args=(path, whole, done, grows))
            writer.start()
            self.case(f"a source that {'grows' if grows else 'shrinks and grows'} while it is read", ["check", path], {0, 2})
            done.set()
            writer.join()
        for words in ([b"\xff"], ["check", b"\xff"], [*self.short[:2], b"\xc3\x28", "3"], [*self.short[:3], b"3\x80"],
                      ["check"] * 99999, ["a" * 131000], ["check", *[""] * 9], ["\n"]):
            self.case(f"{len(words)} words, {str(words)[:40]} ..", words, {1})
        for size in range(len(self.netlist) - 1):
            refused = b"refused V1 line %d\n" % (self.netlist[:size].count(b"\n") + 1)
            words = ["sim", self.put("cut", self.netlist[:size]), self.image, "1"]
            self.case(f"a netlist that ends after {size} bytes", words, {2}, text=refused)

    def stack(self):
        """Little stack: the deepest texts that are right, and deeper ones."""
        for size in (256, 512, 8192):
            small, place = limit(resource.RLIMIT_STACK, size * 1024), f"in {size} KiB of stack"
            [self.case(f"{name} {place}", words, {0}, small, text=self.texts[name]) for name, words in self.commands.items()]
            for name, (command, text) in DEEPER.items():
                words = [command, self.put("deeper", text), *[self.image] * (command == "asm")]
                self.case(f"too many {name} {place}", words, {2}, small)

    def memory(self):
        """Little memory: twenty sizes from where the program begins to where the command is done, and plenty."""
        def status(words, size):
            return self.start(words, limit(resource.RLIMIT_AS, size), out=subprocess.DEVNULL, err=subprocess.DEVNULL).wait()

        sizes, plenty = range(0, 1 << 31, 4096), 1 << 31
        if status([], plenty) != 1:
            return print("not asked: little memory, since the program doesn't begin in two gibibytes, as with an address checker")
        begins = sizes[bisect.bisect_left(sizes, True, key=lambda size: status([], size) in SAID)]
        print(f"in less than {begins} bytes the program doesn't begin: {sorted({status([], begins * it // 100) for it in range(100)})}")
        for name, words in self.commands.items():
            enough = sizes[bisect.bisect_left(sizes, True, key=lambda size, words=words: status(words, size) == 0)]
            for size in [begins + (enough - begins) * it // 19 for it in range(20)] + [plenty]:
                self.case(f"{name} in {size} bytes", words, {0, 5}, limit(resource.RLIMIT_AS, size), text=self.texts[name])


def main():
    program = usage.program(usage.words(__doc__, 1, 1)[0])
    # ignored here, so that a program that is started without a change of its signals begins with it ignored
    signal.signal(signal.SIGPIPE, signal.SIG_IGN)
    with tempfile.TemporaryDirectory() as folder:
        edge = Edge(program, pathlib.Path(folder))
        edge.outputs(), edge.stack(), edge.memory(), edge.sources()
    print(f"{sum(edge.counts.values())} cases: " + ", ".join(f"{count} {verdict}" for verdict, count in edge.counts.items()))
    return 1 if edge.counts["WRONG"] else 0


if __name__ == "__main__":
    usage.runs(main)
