#!/usr/bin/env python3
"""Compares every operator at each width from 1 to 128 bits with the model in tools/pdl_model.

    random_operators.py PDL [PAIRS [SEED [TOOLS]]]

For each width a pipe reads PAIRS pairs of words and writes what each operator makes of them, with slices, extensions and
words side by side of random widths. Up to 64 bits a second one has no wider word, as the program runs such netlists by
words of that size. PAIRS is a power of two, 64 where none is given. The first pairs are of corners: 0, 1, the greatest
word, the middle of the range, and amounts of shifts about the width, about 64, and just above 2^8, 2^32 and 2^64. Further
pipes have one constant in place of the first word of all pairs, of the second one, and of each. What the program PDL prints
by `run`, and by `sim` of what it builds, has to be what the model makes of each pair.
Where TOOLS is 1, which is 0 where it isn't given, those of Icarus Verilog, Verilator and Yosys that are installed are asked
too, of the pipes without constants: the first two run the text that is built, and Icarus what Yosys makes of it.
"""

import functools
import itertools
import pathlib
import random
import shutil
import tempfile

import usage
from pdl_model import words
from pdl_model.words import Word
from real_tools import Module, bench, loads, said, write_words

# What of two words x and y is a word of their width: a memory that receives it, its expression, and what it is.
OF_ONE_WIDTH = {
    "sum": ("x + y", words.BINARY["+"]),
    "less": ("x - y", words.BINARY["-"]),
    "product": ("x * y", words.BINARY["*"]),
    "both": ("x & y", words.BINARY["&"]),
    "either": ("x | y", words.BINARY["|"]),
    "one": ("x ^ y", words.BINARY["^"]),
    "up": ("x << y", words.BINARY["<<"]),
    "down": ("x >> y", words.BINARY[">>"]),
    "other": ("~x", lambda x, y: words.inverted(x)),
    "lower": ("x < y ? x : y", min),
}
TESTS = ["==", "!=", "<", "lts"]


def joined(*parts):
    """Words side by side, the first one highest."""
    found = parts[0]
    for it in parts[1:]:
        found = words.BINARY["cat"](found, it)
    return found


class Row:
    """What a memory receives: its name, its width, the expression, and the value by the model."""

    def __init__(self, name, width, text, value):
        self.name, self.width, self.text, self.value = name, width, text, value


def rows(chance, width, most):
    """What is made of the pairs of a width, with so many bits at most."""
    found = [Row(name, width, text, value) for name, (text, value) in OF_ONE_WIDTH.items()]
    tests = "cat(cat(x == y, x != y), cat(x < y, lts(x, y)))"
    found.append(Row("tests", 4, tests, lambda x, y: joined(*(words.BINARY[it](x, y) for it in TESTS))))
    high, low = sorted((chance.randrange(width), chance.randrange(width)), reverse=True)
    found.append(Row("part", high - low + 1, f"x[{high}:{low}]", lambda x, y: words.part(x, high, low)))
    left = chance.randint(1, min(width, most - 1))
    right = chance.randint(1, min(width, most - left))
    found.append(Row("beside", left + right, f"cat(x[{left - 1}:0], y[{width - 1}:{width - right}])",
                     lambda x, y: joined(words.part(x, left - 1, 0), words.part(y, width - 1, width - right))))
    wide = chance.choice([width, most, chance.randint(width, most)])
    found.append(Row("wider", wide, f"sext(x, {wide}) ^ zext(y, {wide})",
                     lambda x, y: words.BINARY["^"](words.extended(x, wide, True), words.extended(y, wide, False))))
    return found


def source(name, width, bits, made, constants):
    """The pipe of a name, whose n-th thread is of the n-th pair; a constant that isn't None stands for the first or the second words."""
    inputs = [f"{name}: uint<{width}>[{1 << bits}] comb" for name in ("a", "b")]
    outputs = [f"{it.name}: uint<{it.width}>[{1 << bits}] comb lock queue(1)" for it in made]
    lines = [f"acquire({it.name}[n], W); {it.name}[n] <- {it.text}; release({it.name}[n]);" for it in made]
    bound = [f"{name} = {f'{memory}[n]' if it is None else f'{width}{chr(39)}h{it:x}'};" for name, memory, it in zip("xy", "ab", constants)]
    body = "\n".join([" ".join(bound), *lines, f"call(n + {bits}'d1);"])
    return f"pipe {name}(n: uint<{bits}>)\n[{', '.join(inputs + outputs)}] {{\n{body}\n}} start {name}({bits}'d0);\n"


def corners_of(width):
    """Words at the ends and in the middle of the range."""
    most = (1 << width) - 1
    return sorted({it & most for it in (0, 1, most, most - 1, most >> 1, (most >> 1) + 1)})


def amounts_of(width):
    """Amounts of shifts, those among them that are small once they are cut to 8, 32 or 64 bits."""
    past = [(1 << it) + 1 for it in (8, 32, 64)]
    return sorted({it for it in (width - 1, width, width + 1, 63, 64, 65, 127, *past) if it < 1 << width})


def constants_of(chance, width):
    """Pairs of words of which the first, the second or both are constants, and that are None where they aren't."""
    some = [chance.choice(corners_of(width)), chance.choice(amounts_of(width)), chance.getrandbits(width)]
    return [*((it, None) for it in some), *((None, it) for it in some), *itertools.product(some[:2], some[1:])]


def pairs(chance, width, count):
    """Pairs of words, those of corners first in any order."""
    most, corners, amounts = (1 << width) - 1, corners_of(width), amounts_of(width)
    found = [*itertools.product(corners, corners), *((chance.getrandbits(width), it) for it in amounts)]
    chance.shuffle(found)
    while len(found) < count:
        found.append((chance.getrandbits(width), chance.choice([chance.getrandbits(width), chance.randrange(width + 2) & most])))
    return [(Word(x, width), Word(y, width)) for x, y in found[:count]]


def lines_of(made, found):
    """What `run` prints of the pairs, by the model."""
    lines = [f"{at + 1} {it.name} {at} {it.value(x, y).value:0{(it.width + 3) // 4}x}"
             for at, (x, y) in enumerate(found) for it in made]
    return [*lines, f"end cycles {len(found)} ended {len(found)} waits 0 squashes 0"]


def by_ports(module, text, made):
    """The lines of the commits that a test bench shows, without the end line, or what it says where it shows no ports."""
    names = [name for name, _ in module.outputs]
    found = []
    for cycle, row in enumerate((line.split() for line in text.splitlines() if not line.startswith(("bench.v:", "- "))), 1):
        if len(row) != len(names):
            return text.splitlines()[:5]
        ports = dict(zip(names, row))
        for it in made:
            if int(ports[f"c_{it.name}"], 16):
                value = int(ports[f"cd_{it.name}"], 16)
                found.append(f"{cycle} {it.name} {int(ports[f'ca_{it.name}'], 16)} {value:0{(it.width + 3) // 4}x}")
    return found


def others(module):
    """The calls of Icarus and Yosys where they are installed, each with its name; the last call of each shows the ports."""
    icarus = lambda file: [["iverilog", "-g2005", "-o", "bench.vvp", "bench.v", file], ["vvp", "-n", "bench.vvp"]]
    if shutil.which("iverilog"):
        yield "Icarus Verilog", icarus(module.file)
    if shutil.which("yosys") and shutil.which("iverilog"):
        passes = f"read_verilog {module.file}; proc; opt -full; wreduce; peepopt; opt -full; write_verilog -noattr yosys.v"
        yield "Yosys", [["yosys", "-q", "-p", passes], *icarus("yosys.v")]


class Benches:
    """Test benches of which Verilator makes one program, since most of its time goes into headers of C++.

    `asked` has of each its module, its folder, what is made of the pairs, and the lines that it has to show.
    """

    MOST = 8

    def __init__(self, folder):
        self.folder, self.asked = folder, []

    def text(self):
        """The benches beside each other, each in a module of its own. Their lines begin with the names of their folders."""
        found = ["module bench;", *(f"  bench_{folder.name} of_{folder.name}();" for _, folder, _, _ in self.asked), "endmodule"]
        for _, folder, _, _ in self.asked:
            its = [("module bench;", f"module bench_{folder.name};"), *((f'{call}("', f'{call}("{folder.name}{after}')
                   for call, after in (("$readmemh", "/"), ("$display", " ")))]
            found.append(functools.reduce(lambda text, pair: text.replace(*pair), its, (folder / "bench.v").read_text()))
        return "\n".join(found)

    def answers(self):
        """What Verilator and its program say. What is compiled of Verilator's own files is kept for the next benches."""
        (self.folder / "bench.v").write_text(self.text())
        of_make = [f"OPT_{it}=-O0" for it in ("FAST", "SLOW", "GLOBAL")]
        of_make += [f"-o{it.name}" for it in (self.folder / "obj_dir").glob("verilated*.o")]
        words_of_call = ["--binary", "--no-skip-identical", "-Wno-fatal", "-Wno-lint", "-Wno-style", "--top-module", "bench"]
        words_of_call += [it for word in of_make for it in ("-MAKEFLAGS", word)]
        texts = [f"{folder.name}/{module.file}" for module, folder, _, _ in self.asked]
        made = said(["verilator", *words_of_call, "bench.v", *texts], self.folder)
        return made[1], said([str(self.folder / "obj_dir" / "Vbench")], self.folder)[1]

    def wrong(self):
        """All that Verilator shows otherwise of these benches, which are done then."""
        found, complaint, shown = [], "", ""
        if self.asked and shutil.which("verilator"):
            complaint, shown = self.answers()
        lines = [line.partition(" ") for line in shown.splitlines()]
        for module, folder, made, wanted in self.asked:
            its = by_ports(module, "\n".join(rest for name, _, rest in lines if name == folder.name), made)
            if shutil.which("verilator") and its != wanted:
                found.append(f"{folder.name}: Verilator: {differing(its, wanted)} {complaint[:300]}")
            shutil.rmtree(folder)
        self.asked = []
        return found


def judged(program, made, found, constants, benches, folder):
    """All that is wrong of what a pipe of the folder's name makes of these pairs, and how many words were compared.

    With benches the tools are asked too.
    """
    width, count = found[0][0].width, len(found)
    found = [tuple(it if k is None else Word(k, width) for it, k in zip(pair, constants)) for pair in found]
    text = source(folder.name, width, (count - 1).bit_length(), made, constants)
    image = "\n".join(["image 1", *(f"{name} {at} {it[k].value:x}" for at, it in enumerate(found) for k, name in enumerate("ab"))])
    wanted = lines_of(made, found)
    folder.mkdir(exist_ok=True)
    for name, content in (("source.pdl", text), ("image.img", image + "\n")):
        (folder / name).write_text(content)
    wrong = []
    status, built = said([program, "build", "source.pdl"], folder)
    if status:
        return [f"width {width}: {built.strip()}"], 0
    module = Module(built)
    (folder / module.file).write_text(built)
    for words_of_call in (["run", "source.pdl"], ["sim", module.file]):
        status, said_of_it = said([program, *words_of_call, "image.img", str(count)], folder)
        if status or said_of_it.splitlines() != wanted:
            wrong.append(f"width {width}: {words_of_call[0]}: {differing(said_of_it.splitlines(), wanted)}")
    if benches:
        write_words(module, image, folder)
        wrong += asked_of_tools(module, made, wanted[:-1], folder)
        benches.asked.append((module, folder, made, wanted[:-1]))
    return wrong, len(found) * len(made)


def asked_of_tools(module, made, wanted, folder):
    """What Icarus and Yosys show otherwise of a module, for which a bench is written."""
    # What is put into an array is seen by Verilator from the next edge of the clock on, so the words stand there before the reset too.
    early = "\n".join(["  initial begin", *loads(module)])
    text = bench(module, lambda cycle: [], len(wanted) // len(made))
    (folder / "bench.v").write_text(text.replace("  initial begin", early, 1))
    wrong = []
    for name, calls in others(module):
        answers = [said(it, folder) for it in calls]
        shown = by_ports(module, answers[-1][1], made)
        if shown != wanted:
            wrong.append(f"{folder.name}: {name}: {differing(shown, wanted)} {answers[0][1][:300]}")
    return wrong


def differing(lines, wanted):
    """The first lines that differ."""
    return next(((a, b) for a, b in itertools.zip_longest(lines, wanted) if a != b), "")


def of_width(program, width, count, seed, benches, top):
    """All that is wrong of so many pairs of a width, and how many words were compared."""
    chance = random.Random(f"{seed} {width}")
    given = pairs(chance, width, count)
    widest = [it for it in (64, words.WIDEST) if width <= it]
    calls = [(most, given, (None, None), benches, f"p{width}_{most}") for most in widest]
    calls += [(chance.choice(widest), given[:8], it, None, "p") for it in constants_of(chance, width)]
    judgements = [judged(program, rows(chance, width, most), some, constants, asked, top / name)
                  for most, some, constants, asked, name in calls]
    return [it for found, _ in judgements for it in found], sum(compared for _, compared in judgements)


def main():
    given = usage.words(__doc__, 1, 4)
    program = usage.program(given[0])
    count, seed, with_tools = map(usage.number, given[1:] + ["64", "1", "0"][len(given) - 1 :])
    if count < 2 or count & (count - 1):
        usage.ends(f"{count} is no power of two from 2 on")
    asked = wrong = 0
    with tempfile.TemporaryDirectory() as name:
        top = pathlib.Path(name)
        benches = Benches(top)
        for width in range(1, words.WIDEST + 1):
            found, compared = of_width(program, width, count, seed, benches if with_tools else None, top)
            if len(benches.asked) >= Benches.MOST or width == words.WIDEST:
                found += benches.wrong()
            asked += compared
            wrong += len(found)
            for it in found:
                print(it, flush=True)
    print(f"words {asked} wrong {wrong}")
    return 1 if wrong else 0


if __name__ == "__main__":
    usage.runs(main)
