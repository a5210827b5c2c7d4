#!/usr/bin/env python3
"""Writes random pipes, and what the model says of them, as rows for the definitions of crates/pdl_semantics.

    definition_rows.py PIPES [SEED [CYCLES]]

What it prints is a file of lemmas: of each pipe of the whole base language that the definitions of the machine, of the
sequential run and of the stages compute the lines of the model, and the addresses that its delayed memories are asked.
Put it into the proofs/ of a crate of its own, which uses pdl_semantics and pdl_word and is no part of the repository; then
`rt check` there says whether they do. 20 pipes of 50 cycles are a file of fair size. SEED is 1 and CYCLES 50 where they
aren't given.
"""

import random

import random_whole
import usage
from pdl_model import files, rules, tree
from pdl_model.syntax import Refused

HEAD = """-- Random pipes, each with what the machine does in it.
use Prim.Native.String.{String}
use Rattle.std.proofs.Common.{◌≡◌, refl, ℕ, Bool, true, false, List, [], ◌∷◌, ◌++◌, codes, Option, Some, None}
use Rattle.std.specs.Fmt.{digits}
use Rattle.pdl_word.specs.Words.{add, sub, mul, complement, and, or, xor, equal, differ, less, lts, shl, shr, slice, cat, zext, sext, mux}
use Rattle.pdl_semantics.specs.Cycle.{Turn, turns}
use Rattle.pdl_semantics.specs.Flat.{arrays_of}
use Rattle.pdl_semantics.specs.Flatten.{flat}
use Rattle.pdl_semantics.specs.Lines.{run_lines, seq_lines, view_lines, accepted_line}
use Rattle.pdl_semantics.specs.Tree.{Expr, Slice, Not, Add, Sub, Mul, And, Or, Xor, Equal, Differ, Less, ShiftLeft, ShiftRight, Binary, Cat, LessSigned, ZeroExtend, SignExtend, Choose, R, W, Queue, Bypass, Rename, Call, SpecCall, Verify, Pipe, stmts_of}
use Rattle.pdl_semantics.proofs.Texts.{nowhere, ident, number, literal, constant, variable, separator, bind, comb_read, delayed_read, write, reserve, block, release, spec_check, spec_barrier, if_else, lock}

abbrev asked : List Turn → List (List (Option ℕ))
asked [] = []
asked (t ∷ ts) = t.ports.requests ∷ asked ts

abbrev slice_of : String → ℕ → ℕ → Expr
slice_of x high low = Slice (ident x) (number high) (number low)
"""
UNFOLDING = "unfolding digits add sub mul complement and or xor equal differ less lts shl shr slice cat zext sext mux"
OPERATORS = {"+": "Add", "-": "Sub", "*": "Mul", "&": "And", "|": "Or", "^": "Xor", "==": "Equal", "!=": "Differ",
             "<": "Less", "<<": "ShiftLeft", ">>": "ShiftRight"}
THREADS = 6


def listed(texts):
    return "(" + " ∷ ".join([*texts, "[]"]) + ")"


def expression(it):
    match it:
        case tree.Literal(value, bits):
            return f"(constant {bits} {value})"
        case tree.Variable(name):
            return f'(variable "{name}")'
        case tree.Slice(name, high, low):
            return f'(slice_of "{name}" {high} {low})'
        case tree.Inverse(operand):
            return f"(Not {expression(operand)})"
        case tree.Binary("cat" | "lts" as name, left, right):
            return f"({'Cat' if name == 'cat' else 'LessSigned'} {expression(left)} {expression(right)})"
        case tree.Binary(operator, left, right):
            return f"(Binary {OPERATORS[operator]} {expression(left)} {expression(right)})"
        case tree.Extension(operand, bits, keeps_sign):
            return f"({'SignExtend' if keeps_sign else 'ZeroExtend'} {expression(operand)} (number {bits}))"
        case tree.Choice(condition, first, second):
            return f"(Choose {expression(condition)} {expression(first)} {expression(second)})"


def statement(it):
    match it:
        case tree.Bind(_, name, value):
            return f'bind "{name}" {expression(value)}'
        case tree.Read(_, name, memory, address):
            return f'comb_read "{name}" "{memory}" "{address}"'
        case tree.Ask(_, name, memory, address):
            return f'delayed_read "{name}" "{memory}" "{address}"'
        case tree.Write(_, memory, address, value):
            return f'write "{memory}" "{address}" {expression(value)}'
        case tree.Reserve(_, memory, address, kind):
            return f'reserve "{memory}" "{address}" {kind}'
        case tree.Block(_, memory, address):
            return f'block "{memory}" "{address}"'
        case tree.Release(_, memory, address):
            return f'release "{memory}" "{address}"'
        case tree.If(_, condition, first, second):
            branches = listed(map(statement, first)), listed(map(statement, second))
            return f"if_else {expression(condition)} {branches[0]} {branches[1]}"
        case tree.Call(_, arguments):
            return f"Call nowhere {listed(map(expression, arguments))}"
        case tree.SpecCall(_, name, arguments):
            return f'SpecCall nowhere (ident "{name}") {listed(map(expression, arguments))}'
        case tree.Verify(_, guess, arguments):
            return f'Verify nowhere (ident "{guess}") {listed(map(expression, arguments))}'
    return {tree.Separator: "separator", tree.SpecCheck: "spec_check", tree.SpecBarrier: "spec_barrier"}[type(it)]


def memory(it):
    lock = f"(lock {it.lock.capitalize()} {it.size})" if it.lock else "None"
    delayed = "true" if it.delayed else "false"
    return (f'record {{ name = ident "{it.name}"; width = number {it.width}; depth = number {it.depth}; '
            f"delayed = {delayed}; lock = {lock} }}")


def definition(name, pipe):
    """The tree of a pipe."""
    parameters = listed(f'record {{ name = ident "{it.name}"; width = number {it.width} }}' for it in pipe.parameters)
    start = listed(f"literal {it.bits} {it.number}" for it in pipe.start)
    return f"""
abbrev pub {name} : Pipe
{name} =
    record {{
      name = ident "p";
      params = {parameters};
      mems = {listed(map(memory, pipe.memories))};
      body = stmts_of {listed(map(statement, pipe.body))};
      end = nowhere;
      start = record {{ span = nowhere; name = ident "p"; args = {start} }};
    }}
"""


def row(name, what, computed, due):
    return f"\n{name}_{what} : {computed} ≡\n    {due}\n{UNFOLDING}\n{name}_{what} = refl\n"


def lines(texts):
    """Lines as bytes, some of them in each piece."""
    pieces = [texts[at : at + 8] for at in range(0, len(texts), 8)]
    return "\n    ++ ".join('codes "' + "".join(f"{line}\\n" for line in piece) + '"' for piece in pieces)


def rows(name, layout, image, delays, cycles):
    """The rows of a pipe: run, view, addresses asked, stages and threads."""
    pipe = layout.pipe
    words = listed(listed(map(str, image[it.name])) for it in pipe.memories)
    replies = listed(
        listed("true" if it.name in files.replies_of(pipe, delays, cycle) else "false" for it in pipe.delayed())
        for cycle in range(1, cycles + 1))
    given = f"{words} {replies}"
    asked = listed(
        listed("None" if ports.requests.get(it.name) is None else f"Some {ports.requests[it.name]}" for it in pipe.memories)
        for ports in files.turns(layout, image, cycles, delays))
    yield row(name, "commits", f"run_lines {name} {given}", lines(files.run_lines(layout, image, cycles, delays)))
    yield row(name, "view", f"view_lines {name} {given}", lines(files.view_lines(layout, image, cycles, delays)))
    if pipe.delayed():
        yield row(name, "asked", f"asked (turns (flat {name}) (arrays_of {words}) {replies})", asked)
    yield row(name, "stages", f"accepted_line {name}",
              lines([f"accepted stages {layout.count} depth {layout.depth()}"]))
    yield row(name, "threads", f"seq_lines {name} {words} {THREADS}", lines(files.seq_lines(layout, image, THREADS)))


def pipes(chance, count):
    """So many random pipes that keep all rules, each with its layout."""
    while count > 0:
        pipe = random_whole.RandomPipe(chance, random_whole.random_features(chance))
        try:
            yield pipe, rules.checked(pipe.source())
            count -= 1
        except Refused:
            pass


def main():
    words = usage.words(__doc__, 1, 3)
    count, seed, cycles = [*map(usage.number, words), *[1, 50][len(words) - 1 :]]
    print(HEAD, end="")
    for number, (pipe, layout) in enumerate(pipes(random.Random(seed), count)):
        image = files.read_image(layout.pipe, pipe.image())
        delays = files.read_delays(layout.pipe, pipe.delay_rows(cycles))
        name = f"pipe_{number}"
        print(definition(name, layout.pipe), *rows(name, layout, image, delays, cycles), sep="", end="")


if __name__ == "__main__":
    usage.runs(main)
