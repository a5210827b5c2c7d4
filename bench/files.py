#!/usr/bin/env python3
"""Times and weighs a program `pdl` on long files of each kind: files.py PDL [MEBIBYTES [KIND ..]]

Each file has 256 MiB, or so many as are given, but the sources of 1 MiB and the image that sets all words. A line has the
file, its bytes, the CPU seconds, the greatest memory in MB, how many bytes of it stand for a byte of the file, and
the answer, of which only the end is shown. Memory is bounded at 10 GiB, so that `no memory` can be an answer. A KIND is the
first word of a file's name. docs/measured.md has the figures.
"""
import os
import pathlib
import resource
import subprocess
import sys
import tempfile

sys.path.append(str(pathlib.Path(__file__).resolve().parent.parent / "tools"))
import usage

BOUND = 10 << 30
HEAD = ("pipe p(n: uint<4>)[m: uint<8>[4] comb lock queue(1)] { a = n[1:0]; v = zext(n, 8); reserve(m[a], W); block(m[a]); "
        "m[a] <- v; release(m[a]); ")
CALL = "call(n + 4'd1); } start p(4'd0);"
WIDE = "pipe p(n: uint<16>)[" + ", ".join(f"m{it}: uint<64>[65536] comb" for it in range(16)) + "] { call(n + 16'd1); } start p(16'd0);"
FETCH = "pipe p(n: uint<2>)[d: uint<8>[4] delayed] { x <- d[n]; call(n + 2'd1); --- y = x; } start p(2'd0);"
MODULE = ("module pdl_p(input wire clk, input wire [0:0] rst, output wire [0:0] v_0, output wire [0:0] g_0, "
          "output wire [0:0] ended, output wire [0:0] squash);\n")
WIRE = "wire [0:0] n0;\nassign n0 = 1'h1;\n"
ENDS = "assign v_0 = n0;\nassign g_0 = n0;\nassign ended = n0;\nassign squash = n0;\n"
INSN = '[[insn]]\nname = "a{0}"\nargs = []\nbits = "00000000"\n'
TABLE = 'word = 8\nmem = "im"\n[[insn]]\nname = "b"\nargs = ["t:rel"]\nbits = "100 ttttt"\n'
COMMENT = "// a comment of sixty-four bytes, its line feed among these ones\n"


def letters(number):
    """A name for a number, of letters."""
    name = ""
    while number or not name:
        number, digit = divmod(number, 26)
        name += chr(97 + digit)
    return name


def same(line, head="", tail=""):
    """A file of this length of one line again and again."""
    return lambda size: [head, line * ((size - len(head) - len(tail)) // len(line)), tail]


def counted(line, head="", tail=lambda count: "", share=1.0):
    """A file of this length, or a share of it before the tail, of lines with a number each."""
    def pieces(size):
        left, number = int(size * share) - len(head) - 4096, 0
        yield head
        while len(some := "".join(line(it) for it in range(number, number + 1000))) <= left:
            yield some
            left, number = left - len(some), number + 1000
        yield tail(number)
    return pieces


def all_words(size):
    """An image that sets each word of sixteen memories."""
    yield "image 1\n"
    for mem in range(16):
        yield "".join(f"m{mem} {address} ffffffffffffffff\n" for address in range(65536))


FILES = {  # the words, in which _ is the file, and what it is made of
    "source of bindings": ("check _", same("x=n+n;\n", "pipe p(n: uint<1>)[m: uint<8>[2] comb] {\n", CALL)),
    "source of blanks": ("check _", same(" ", HEAD + CALL)),
    "source of comments": ("check _", same(COMMENT, HEAD + CALL)),
    "source of one name": ("check _", same("a", HEAD)),
    "source of brackets": ("check _", same("(", HEAD + "x = ")),
    "source of 1 MiB: arguments": ("check _", lambda _: ["pipe p(n: uint<1>)[m: uint<8>[2] comb] {", "".join(
        f"x{it} = n;" for it in range(510)), "call(n", ",n" * 515000, "); } start p(1'd0);"]),
    "source of 1 MiB: operands": ("check _", lambda _: ["pipe p(n: uint<1>)[m: uint<1>[2] comb lock queue(1)] {", (
        "m[n]<-n" + "+n" * 256 + ";") * 1000, "call(n); } start p(1'd0);"]),
    "source of 1 MiB: slices": ("check _", lambda _: ["pipe p(n: uint<1>)[m: uint<1>[2] comb lock queue(1)] {", (
        "m[n]<-n[0:0]" + "+n[0:0]" * 146 + ";") * 1000, "call(n); } start p(1'd0);"]),
    "image of empty lines": ("run a.pdl _ 1", same("\n", "image 1\n")),
    "image of comments": ("run a.pdl _ 1", same(COMMENT, "image 1\n")),
    "image of one line": ("run a.pdl _ 1", same("m", "image 1\n")),
    "image of all words": ("run wide.pdl _ 1", all_words),
    "delays of rows": ("run fetch.pdl e.img 1 --delays _", same("1\n")),
    "delays of one row": ("run fetch.pdl e.img 1 --delays _", same("1")),
    "netlist of wires": ("sim _ e.img 1", counted(lambda it: f"wire [0:0] n{it};\nassign n{it} = 1'h1;\n", MODULE,
                                                  lambda _: ENDS + "endmodule\n")),
    "netlist of registers": ("sim _ e.img 1", counted(
        lambda it: f"reg [0:0] r{it};\n", MODULE, lambda count: WIRE + ENDS + "".join(
            f"always @(posedge clk) r{it} <= rst ? 1'h0 : n0;\n" for it in range(count)) + "endmodule\n", 15 / 67)),
    "netlist of dense wires": ("sim _ e.img 1", counted(
        lambda it: f"wire[0:0]n{it};assign n{it}=~r0;", MODULE + "reg [0:0] r0;\n", lambda _: ENDS + "always @(posedge clk) r0 <= rst ? 1'h0 : n0;\nendmodule\n")),
    "netlist of outputs": ("sim _ e.img 1", counted(lambda it: f",output wire [0:0] a{it}\n", "module pdl_p(input wire clk", lambda _: ");")),
    "netlist of blanks": ("sim _ e.img 1", same(" ", MODULE + WIRE + ENDS, "endmodule\n")),
    "netlist of comments": ("sim _ e.img 1", same(COMMENT, MODULE + WIRE + ENDS, "endmodule\n")),
    "table of comments": ("asm _ t.asm", same("# a comment\n", TABLE)),
    "table of registers": ("asm _ t.asm", counted(lambda it: f"{letters(it)}=0\n", 'word = 8\nmem = "im"\n[regs]\n',
                                                 lambda _: INSN.format("x"))),
    "table of instructions": ("asm _ t.asm", counted(INSN.format, 'word = 8\nmem = "im"\n')),
    "table of one text": ("asm _ t.asm", same("a", 'mem = "', '"\n')),
    "table of numbers": ("asm _ t.asm", same("0,", "word = [", "0]\n")),
    "assembly of empty lines": ("asm t.toml _", same("\n")),
    "assembly of comments": ("asm t.toml _", same(COMMENT)),
    "assembly of blanks": ("asm t.toml _", same(" ")),
    "assembly of labels": ("asm t.toml _", counted(lambda it: letters(it) + ":\n")),
    "assembly of words": ("asm t.toml _", same(".word 1\n")),
    "assembly of places": ("asm t.toml _", same(".at 0\n")),
    "assembly of operands": ("asm t.toml _", same("a,", "b ", "a\n")),
}


def put(path, pieces):
    with open(path, "wb") as file:
        for piece in pieces:
            file.write(piece.encode())


def ask(program, words, folder):
    """The end of what is answered, with the seconds and the bytes of memory that it took."""
    with open(folder / "said", "wb") as said:
        ran = subprocess.Popen([program, *words], cwd=folder, stdout=said, stderr=said,
                               preexec_fn=lambda: resource.setrlimit(resource.RLIMIT_AS, (BOUND, BOUND)))
        _, status, used = os.wait4(ran.pid, 0)
        ran.returncode = os.waitstatus_to_exitcode(status)
    answer = (folder / "said").read_bytes().decode().splitlines()[-1:]
    return " ".join(answer) or f"status {ran.returncode}", used.ru_utime + used.ru_stime, used.ru_maxrss * 1024


def main():
    given = usage.words(__doc__, 1)
    program, mebibytes, kinds = usage.program(given[0]), usage.number(*given[1:2] or ["256"], least=1), given[2:]
    for kind in set(kinds) - {file.split()[0] for file in FILES}:
        usage.ends(f"no file's name begins with `{kind}`")
    with tempfile.TemporaryDirectory() as name:
        folder = pathlib.Path(name)
        for path, text in {"a.pdl": HEAD + CALL, "wide.pdl": WIDE, "fetch.pdl": FETCH, "e.img": "image 1\n", "t.toml": TABLE, "t.asm": ".word 1\n"}.items():
            (folder / path).write_text(text)
        print("| file | bytes | s | MB | bytes a byte | answer |\n|---|---|---|---|---|---|")
        for file, (words, pieces) in FILES.items():
            if kinds and file.split()[0] not in kinds:
                continue
            put(folder / "long", pieces(mebibytes << 20))
            size = (folder / "long").stat().st_size
            answer, seconds, memory = ask(program, words.replace("_", "long").split(), folder)
            print(f"| {file} | {size} | {seconds:.1f} | {memory / 1e6:.0f} | {memory / size:.1f} | `{answer}` |", flush=True)


if __name__ == "__main__":
    usage.runs(main)
