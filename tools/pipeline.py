#!/usr/bin/env python3
"""Draws the run of a pipe as books on processors do: a row for each thread, a column for each cycle.

    pipeline.py PDL SOURCE IMAGE CYCLES [--delays FILE] [--show NAME ..] [--table TABLE] [--why]
                [--html FILE] [--svg FILE] [--konata FILE]

PDL is the program. Which stages hold a thread in each cycle, and which of these threads move, are what `pdl view` prints;
in which cycles younger threads are squashed is the port `squash` of `pdl wave`. A cell has the number of the stage in which
the thread stands, with `*` where it doesn't move and `x` where it is squashed in that cycle.

With --show each row begins with the values of these variables of its thread, `pc` and `word` for one. They are those of the
model in tools/pdl_model, which has to stand where the program says, cycle by cycle. With --table a word of the table's
memory is shown as the instruction that it is with the table of `pdl asm`. With --why a letter stands in the place of `*`, by
the model likewise: the first of the conditions of docs/machine.md that keeps the thread where it is. Below the drawing stands
how often each did so in each stage, and how often threads were squashed there.

With --html the drawing goes into FILE instead, as a page for a browser, which needs nothing else. There it can be searched
and enlarged, and tells of each cell why the thread stands there, and what memories receive. With --svg it goes into FILE as
a picture, for short runs. Both have the letters of --why. With --konata the run goes into a file that the viewer Konata opens.
"""

import collections
import pathlib
import subprocess
import sys

import listing
import pipeline_page
import usage
from pdl_model import files, rules
from pdl_model.dump import Wave
from pipeline_model import REASONS, Told, modelled


class Thread:
    """A thread: its number from 1 in the order in which threads begin, and its stage in each cycle."""

    def __init__(self, number, begun):
        self.number = number
        self.begun = begun
        self.stages = []
        self.moves = []
        self.is_squashed = False
        self.label = ""
        self.told = Told()

    def stands(self, stage, moves):
        self.stages.append(stage)
        self.moves.append(moves)

    def cells(self, has_reasons):
        """What is shown of each cycle in which it is there: its stage, with why it doesn't move."""
        reasons = self.told.reasons if has_reasons else {}
        shown = [f"{stage}{'' if moves else reasons.get(self.begun + k, '*')}"
                 for k, (stage, moves) in enumerate(zip(self.stages, self.moves))]
        if self.is_squashed:
            shown[-1] = f"{self.stages[-1]}x"
        return shown


def ways_on(layout, stage):
    """The stages to which threads go from a stage; none from the last one."""
    if stage == layout.count - 1:
        return []
    fork = layout.fork_of(stage)
    if fork is None:
        return [layout.next_stage(stage, {})]
    return [(fork.stages_of(taken) or [fork.merge])[0] for taken in (True, False)]


def after(layout, row, squashes, next_row):
    """Where each stage's thread of a cycle stands in the next one: its stage, or None where it has ended or is squashed."""
    verify = layout.verify_stage()
    found, taken = {}, set()
    forks = []
    for stage, letter in enumerate(row):
        if letter == ".":
            continue
        ways = ways_on(layout, stage) if letter == "M" else [stage]
        if squashes and stage < verify or not ways:
            found[stage] = None
        elif len(set(ways)) == 1:
            found[stage] = ways[0]
            taken.add(ways[0])
        else:
            forks.append((stage, ways))
    for stage, ways in forks:
        found[stage] = next(it for it in ways if next_row[it] != "." and it not in taken)
        taken.add(found[stage])
    return found


def followed(layout, rows, squashes):
    """The threads of a run, from what stands in its stages in each cycle and whether that squashes."""
    threads, standing = [], {}
    for cycle, row in enumerate(rows, 1):
        if row[0] != "." and 0 not in standing:
            standing[0] = Thread(len(threads) + 1, cycle)
            threads.append(standing[0])
        if set(standing) != {stage for stage, letter in enumerate(row) if letter != "."}:
            raise ValueError(f"the stages of cycle {cycle} are not those that the threads before it lead to")
        for stage, thread in standing.items():
            thread.stands(stage, row[stage] == "M")
        for stage, thread in standing.items():
            thread.is_squashed = squashes[cycle - 1] and stage < layout.verify_stage()
        if cycle < len(rows):
            places = after(layout, row, squashes[cycle - 1], rows[cycle])
            standing = {place: standing[stage] for stage, place in places.items() if place is not None}
    return threads


def chart(threads, cycles, has_reasons):
    """The lines of the drawing."""
    rows = [it.cells(has_reasons) for it in threads]
    width = max([len(str(cycles)), *(len(cell) for row in rows for cell in row)]) + 1
    names = [f"{it.number} {it.label}".rstrip() for it in threads]
    first = max(len("thread"), *(len(it) for it in names)) if names else len("thread")
    lines = [f"{'thread':<{first}}" + "".join(f"{cycle:>{width}}" for cycle in range(1, cycles + 1))]
    for it, name, row in zip(threads, names, rows):
        lines.append(f"{name:<{first}}" + " " * width * (it.begun - 1) + "".join(f"{cell:>{width}}" for cell in row))
    return lines


def konata(threads, cycles):
    """The lines of a file for the viewer Konata: threads with their stages, ends and squashes."""
    at = {cycle: [] for cycle in range(1, cycles + 2)}
    retired = 0
    for it in threads:
        name = it.number - 1
        at[it.begun] += [f"I\t{name}\t{name}\t0", f"L\t{name}\t0\t{it.label or f'thread {it.number}'}"]
        last = it.begun + len(it.stages)
        for cycle, stage in enumerate(it.stages, it.begun):
            before = it.stages[cycle - it.begun - 1] if cycle > it.begun else None
            if stage != before:
                at[cycle].append(f"S\t{name}\t0\t{stage}")
        if last <= cycles:
            at[last].append(f"R\t{name}\t{retired}\t{1 if it.is_squashed else 0}")
            retired += 0 if it.is_squashed else 1
    lines = ["Kanata\t0004", "C=\t1"]
    for cycle in range(1, cycles + 2):
        lines += at[cycle]
        lines.append("C\t1")
    return lines


def counted(threads):
    """How often threads stood in each stage, by the reason, the most first."""
    found = collections.Counter(
        (it.told.reasons[it.begun + k], stage) for it in threads for k, (stage, moves) in enumerate(zip(it.stages, it.moves))
        if not moves)
    return [f"{letter}  stage {stage}: {count} times, {REASONS[letter]}" for (letter, stage), count in found.most_common()]


def said(words):
    """What a command prints; where it fails, its error output and status are this program's own."""
    ran = subprocess.run(words, capture_output=True, text=True)
    if ran.returncode:
        sys.stderr.write(ran.stderr)
        sys.exit(ran.returncode)
    return ran.stdout


def squashes_of(program, layout, words, cycles):
    """Whether younger threads are squashed, cycle by cycle."""
    if layout.verify_stage() is None:
        return [False] * cycles
    wave = Wave(said([program, "wave", *words]))
    port = [name for name, _ in wave.ports].index("squash")
    return [wave.value(port, cycle) == 1 for cycle in range(1, cycles + 1)]


def tell(threads, layout, rows, asked, replies):
    """Adds to the threads what the model tells of them, and gives the cycles that are waits."""
    image = files.read_image(layout.pipe, pathlib.Path(asked.image).read_text())
    found, waits = modelled(layout, image, rows, replies)
    table = listing.read(asked.table) if asked.table else None
    for name in asked.show:
        if not any(name in it.values for it in found):
            usage.ends(f"no thread has a variable `{name}`")
    for thread, told in zip(threads, found):
        thread.told = told
        thread.label = listing.label(asked.show, told.values, table)
    return waits


def written(threads, layout, waits, asked, words):
    """Writes the files that are asked for, and says whether one of them is in the place of the drawing."""
    if asked.html or asked.svg:
        title = f"{pathlib.Path(asked.source).name} on {pathlib.Path(asked.image).name}"
        text = pathlib.Path(asked.source).read_bytes().decode("utf-8", "replace")
        run = pipeline_page.Run(title, layout, text, threads, waits, said([asked.program, "run", *words]).splitlines())
        if asked.html:
            pathlib.Path(asked.html).write_text(run.page())
        if asked.svg:
            pathlib.Path(asked.svg).write_text(run.picture())
    if asked.konata:
        pathlib.Path(asked.konata).write_text("\n".join(konata(threads, asked.cycles)) + "\n")
    return bool(asked.html or asked.svg)


def asked_for():
    """The words of the call."""
    usage.helps(__doc__)
    asked = usage.Words()
    asked.add_argument("program")
    asked.add_argument("source")
    asked.add_argument("image")
    asked.add_argument("cycles", type=usage.number)
    asked.add_argument("--delays")
    asked.add_argument("--html")
    asked.add_argument("--svg")
    asked.add_argument("--konata")
    asked.add_argument("--show", nargs="+", default=[])
    asked.add_argument("--table")
    asked.add_argument("--why", action="store_true")
    return asked.parse_args()


def main():
    asked = asked_for()
    words = [asked.source, asked.image, str(asked.cycles), *(["--delays", asked.delays] if asked.delays else [])]
    rows = [line.split(" ")[1] for line in said([asked.program, "view", *words]).splitlines()]
    layout = rules.checked(pathlib.Path(asked.source).read_bytes().decode("latin-1"))
    threads = followed(layout, rows, squashes_of(asked.program, layout, words, asked.cycles))
    waits = []
    if asked.show or asked.why or asked.html or asked.svg:
        replies = files.read_delays(layout.pipe, pathlib.Path(asked.delays).read_text()) if asked.delays else []
        waits = tell(threads, layout, rows, asked, replies)
    if not written(threads, layout, waits, asked, words):
        print("\n".join(chart(threads, asked.cycles, asked.why)))
        if asked.why:
            print("\n".join(["", *counted(threads)]))


if __name__ == "__main__":
    usage.runs(main)
