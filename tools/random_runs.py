#!/usr/bin/env python3
"""Runs random pipes by the model in tools/pdl_model.

    random_runs.py promises [PIPES [SEED]] [--forms FORMS]
    random_runs.py program PDL [PIPES [SEED]] [--forms FORMS]
    random_runs.py whole PDL [PIPES [SEED]] [--forms FORMS]

`promises` takes random pipes of the whole base language, with random images and replies, and asks of each cycle and of
each whole run what has to hold (pdl_model/sound.py and promises.py). A pipe that fails is made smaller and printed.

`program` takes the runs of examples/ and random pipes of the forms that the program PDL compiles. What `pdl check`, `run`,
`view` and `seq` print has to be what the model says, of a pipe that is refused the rule and the line; so each pipe is asked
once more with a line left out, said twice, moved or changed. `whole` does the same with pipes of the whole base language and
with delay files, and what `pdl wave` says of each port in each cycle has to be what the model says too. Of each pipe the
writes that a memory receives by `run` have to be the first ones that it receives by `seq`, and what `build` writes of it
has to print by `sim` what it prints by `run`. A pipe with advisory memories is asked again from an image with other words
in them, and of the two runs one writes each memory as the other begins.

FORMS are the forms that the language has beside those that `pdl` takes, with commas between: two-writes, nested-forks,
update, advisory; `all` is all of them, `none` none. The pipes have some of them. A pipe with updates or advice is held
against its run without them, or with other advice, too. Pipes with forms that aren't taken have to be refused as the
model says; `whole` asks that as well.

PIPES is 200 and SEED is 1 where they aren't given. A pipe runs for 100 cycles.
"""

import pathlib
import random
import re
import subprocess
import tempfile
from collections import Counter

import random_pipes
import random_whole
import usage
from pdl_model import files, promises, rules
from pdl_model.dump import NoDump, Wave
from pdl_model.forms import ALL, TAKEN, Forms, out_of, word_of
from pdl_model.syntax import Refused

CYCLES = 100
THREADS = 40
EXAMPLES = pathlib.Path(__file__).resolve().parent.parent / "examples"


# Promises


def complaints(source, image, delays, forms):
    """What a run doesn't keep, an error of the model among it; and the run.

    It is held against the run of the pipe without its updates, and against that with other words in advisory memories.
    """
    layout = rules.checked(source, forms)
    words, rows = files.read_image(layout.pipe, image), files.read_delays(layout.pipe, delays)
    found, run = watched(layout, words, rows)
    chance = random.Random(source)
    if not found and layout.update_stage() is not None:
        found = beside(run, promises.without_updates(layout), words, other_rows(rows, chance), "without updates")
    if not found and any(memory.advisory for memory in layout.pipe.memories):
        others = promises.with_other_advice(layout, words, chance)
        found = beside(run, layout, others, other_rows(rows, chance), "with other advice")
    return found, run


def watched(layout, image, rows):
    """What a run doesn't keep, and the run."""
    run = promises.Run(layout, image, rows)
    try:
        return run.go(CYCLES), run
    except (AssertionError, AttributeError, IndexError, KeyError, StopIteration, TypeError) as error:
        return [f"cycle {run.cycles}: {error!r}"], run


def beside(run, layout, image, rows, how):
    """What a second run doesn't keep, that its pipe is refused, or that it writes something else than the first one."""
    try:
        rules.kept(layout)
    except Refused as refusal:
        return [f"{how}: {refusal}"]
    found, second = watched(layout, image, rows)
    if not found and not promises.write_the_same(run, second):
        found = ["the writes are others"]
    return [f"{how}: {it}" for it in found]


def other_rows(rows, chance):
    """Other replies: as they are, none for a while, or the same mixed."""
    return chance.choice([rows, [], [set()] * 5 + rows, chance.sample(rows, len(rows))])


def still_fails(source, image, delays, forms):
    try:
        return complaints(source, image, delays, forms)[0] != []
    except Refused:
        return False


def left_out(lines):
    """Sets of lines that may be left out together: neighbours, all that use one address, and an `if` with its end."""
    for size in (8, 4, 2, 1):
        yield from (set(range(at, at + size)) for at in range(len(lines)))
    for name in sorted(set(re.findall(r"\[(\w+)\]", "".join(lines)))):
        yield {number for number, line in enumerate(lines) if f"[{name}]" in line}
    opened = []
    for number, line in enumerate(lines):
        if line.startswith("}") and opened:
            yield {opened.pop(), number}
        if line.endswith("{\n"):
            opened.append(number)


def smaller(source, image, delays, forms):
    """The same failure with as many lines left out as can be."""
    lines = source.splitlines(keepends=True)
    for out in left_out(lines):
        left = "".join(line for number, line in enumerate(lines) if number not in out)
        if len(left) < len(source) and still_fails(left, image, delays, forms):
            return smaller(left, image, delays, forms)
    return source


def watch(seed, forms):
    """One random pipe: counts of what was seen, and its failure or None."""
    source, image, delays = whole_pipe(random.Random(seed), forms)
    try:
        found, run = complaints(source, image, delays, forms)
    except Refused as refusal:
        return Counter({str(refusal).split()[1]: 1, "refused": 1}), None
    seen = Counter(pipes=1, cycles=run.cycles, ended=run.ended, waits=run.waits, squashes=run.squashes,
                   commits=sum(map(len, run.commits.values())))
    seen += Counter({f"pipes with {it}": 1 for it in forms_in(run.layout)})
    return seen, (source, image, delays) if found else None


def forms_in(layout):
    """The forms that a pipe has."""
    there = {Forms.TWO_WRITES: layout.written_twice, Forms.NESTED_FORKS: any(fork.inside for fork in layout.forks),
             Forms.UPDATE: layout.update_stage() is not None,
             Forms.ADVISORY: any(memory.advisory for memory in layout.pipe.memories)}
    return [word_of(form) for form, is_there in there.items() if is_there]


def watch_all(forms, count, seed):
    """Random pipes up to the first that fails."""
    seen = Counter()
    for number in range(count):
        counts, failure = watch(f"{seed} {number}", forms)
        seen += counts
        if failure:
            source, image, delays = failure
            source = smaller(source, image, delays, forms)
            print(f"pipe {number}:\n{source}\nimage:\n{image}\ndelays:\n{delays}")
            print("\n".join(complaints(source, image, delays, forms)[0]))
            return 1
    print(", ".join(f"{name} {count}" for name, count in seen.items()))
    return 0


# The program


def answer(program, words, folder):
    """What the program prints, or the refusal."""
    ran = subprocess.run([program, *words], cwd=folder, capture_output=True, text=True)
    return (ran.stdout or ran.stderr).splitlines()


def due(layout, image, delays, cycles, threads):
    """What the program has to print for each command on the files pipe.pdl, pipe.img and pipe.delays."""
    words, rows = files.read_image(layout.pipe, image), files.read_delays(layout.pipe, delays)
    option = ["--delays", "pipe.delays"] if delays else []
    return [
        (["check", "pipe.pdl"], [f"accepted stages {layout.count} depth {layout.depth()}"]),
        (["run", "pipe.pdl", "pipe.img", str(cycles), *option], files.run_lines(layout, words, cycles, rows)),
        (["view", "pipe.pdl", "pipe.img", str(cycles), *option], files.view_lines(layout, words, cycles, rows)),
        (["seq", "pipe.pdl", "pipe.img", str(threads)], files.seq_lines(layout, words, threads)),
    ]


def port_lines(program, cycles, delays, folder):
    """All ports of each cycle as a dump says them, or what is wrong with the dump."""
    option = ["--delays", "pipe.delays"] if delays else []
    ran = subprocess.run([program, "wave", "pipe.pdl", "pipe.img", str(cycles), *option], cwd=folder,
                         capture_output=True, text=True)
    try:
        wave = Wave(ran.stdout)
    except NoDump as reason:
        return [f"no dump: {reason}"]
    return [" ".join(f"{name}={value:x}" for (name, _), value in zip(wave.ports, row)) for row in wave.rows()]


def writes_of(lines):
    """The writes of each memory that `run` or `seq` prints, in order."""
    found = {}
    for line in lines[:-1]:
        _, memory, address, value = line.split()
        found.setdefault(memory, []).append((address, value))
    return found


def is_in_order(program, layout, cycles, delays, folder):
    """Whether each memory receives of the run the first writes that it receives of threads one after another."""
    option = ["--delays", "pipe.delays"] if delays else []
    ran = answer(program, ["run", "pipe.pdl", "pipe.img", str(cycles), *option], folder)
    ended = int(ran[-1].split()[4])
    apart = writes_of(answer(program, ["seq", "pipe.pdl", "pipe.img", str(ended + layout.count)], folder))
    return all(apart.get(memory, [])[: len(writes)] == writes for memory, writes in writes_of(ran).items())


def other_image(layout, image, chance):
    """The image with other words in the advisory memories."""
    advisory = {memory.name: memory for memory in layout.pipe.memories if memory.advisory}
    lines = [line for line in image.splitlines() if line.split(" ")[0] not in advisory]
    lines += [f"{memory.name} {address} {chance.getrandbits(memory.width):x}"
              for memory in advisory.values() for address in range(memory.depth)]
    return "".join(f"{line}\n" for line in lines)


def begin_alike(one, other):
    """Whether of the writes of each memory in two runs one list begins with the other."""
    return all(it == its for memory in one.keys() & other.keys() for it, its in zip(one[memory], other[memory]))


def runs_as_built(program, cycles, delays, folder):
    """Whether what `build` writes of the pipe prints by `sim` what the pipe prints by `run`."""
    more = [str(cycles), *(["--delays", "pipe.delays"] if delays else [])]
    (folder / "pipe.v").write_text("".join(f"{line}\n" for line in answer(program, ["build", "pipe.pdl"], folder)))
    run, sim = (answer(program, [command, name, "pipe.img", *more], folder) for command, name in (("run", "pipe.pdl"), ("sim", "pipe.v")))
    return run == sim


def different(program, layout, texts, cycles, threads, folder):
    """The commands and the ports whose answers differ, of a source that is accepted, an image and delays."""
    _, image, delays = texts
    (folder / "pipe.img").write_text(image)
    found = [" ".join(command) for command, lines in due(layout, image, delays, cycles, threads)
             if answer(program, command, folder) != lines]
    if found:
        return found
    words, rows = files.read_image(layout.pipe, image), files.read_delays(layout.pipe, delays)
    ports = [files.port_line(layout, it) for it in files.turns(layout, words, cycles, rows)]
    found = ["wave pipe.pdl"] if port_lines(program, cycles, delays, folder) != ports else []
    found += [] if runs_as_built(program, cycles, delays, folder) else ["build and sim"]
    return found + ([] if is_in_order(program, layout, cycles, delays, folder) else ["run and seq"])


def differences(program, forms, texts, cycles, threads, folder):
    """The commands whose answers differ, of a source, an image and delays; None where the source is refused, and rightly.

    Where the pipe has advisory memories it is asked from an image with other words in them too.
    """
    source, image, delays = texts
    (folder / "pipe.pdl").write_text(source)
    (folder / "pipe.delays").write_text(delays)
    try:
        layout = rules.checked(source, forms)
    except Refused as refusal:
        return None if answer(program, ["check", "pipe.pdl"], folder) == [str(refusal)] else ["check pipe.pdl"]
    found = different(program, layout, texts, cycles, threads, folder)
    if found or not any(memory.advisory for memory in layout.pipe.memories):
        return found
    option = ["--delays", "pipe.delays"] if delays else []
    run = ["run", "pipe.pdl", "pipe.img", str(cycles), *option]
    first = writes_of(answer(program, run, folder))
    other = other_image(layout, image, random.Random(source))
    found = different(program, layout, (source, other, delays), cycles, threads, folder)
    if not found and not begin_alike(first, writes_of(answer(program, run, folder))):
        found = ["other writes"]
    return [f"{it} from other advice" for it in found]


def spoiled(chance, source):
    """The source with a line left out, said twice or moved, or with another number: it breaks a rule mostly."""
    lines = source.splitlines(keepends=True)
    at, to = chance.randrange(len(lines)), chance.randrange(len(lines))
    kind = chance.choice(["out", "twice", "moved", "number"])
    if kind == "number":
        lines[at] = re.sub(r"[0-9]+", lambda _: str(chance.randint(0, 20)), lines[at], count=1)
        return "".join(lines)
    line = lines[at] if kind == "twice" else lines.pop(at)
    if kind != "out":
        lines.insert(to, line)
    return "".join(lines)


def example_runs():
    """The runs of examples/: source, image, delays and count of each."""
    for line in (EXAMPLES / "runs").read_text().splitlines():
        command, *words = line.split(": ")[1].split()
        if command in ("run", "view", "seq"):
            source, image, count, *option = words
            delays = (EXAMPLES / option[1]).read_text() if option else ""
            yield (EXAMPLES / source).read_text(), (EXAMPLES / image).read_text(), delays, int(count)


def plain_pipe(chance, forms):
    """A random pipe without delayed memories, guesses and forks: source, image and delays."""
    return *random_pipes.source_and_image(chance, forms), ""


def whole_pipe(chance, forms):
    """A random pipe of the whole language, with some of these forms."""
    chosen = random_whole.random_forms(chance, forms) if forms else forms
    pipe = random_whole.RandomPipe(chance, random_whole.random_features(chance, chosen), chosen)
    return pipe.source(), pipe.image(), pipe.delay_rows(CYCLES)


class Comparison:
    """The program beside the model with some forms, in a folder for the files; `done` counts what was asked."""

    def __init__(self, program, forms, folder):
        self.program, self.forms = str(pathlib.Path(program).resolve()), forms
        self.folder, self.done = pathlib.Path(folder), Counter()

    def differs(self, kind, source, image, delays="", cycles=CYCLES, threads=THREADS, forms=None):
        """Whether an answer differs, from the model with these forms or else with those of all; then it is told."""
        found = differences(self.program, self.forms if forms is None else forms, (source, image, delays), cycles, threads, self.folder)
        self.done[f"{kind} refused" if found is None else kind] += 1
        self.done.update(f"{kind} with {it}" for it in ([] if found is None else forms_in(rules.checked(source, ALL))))
        if found:
            print(f"{', '.join(found)}:\n{source}\nimage:\n{image}\ndelays:\n{delays}")
        return bool(found)


def compare_all(program, make_pipe, forms, count, seed):
    """The examples, random pipes and spoiled ones, until so many are accepted and run; ends at the first difference."""
    chance, other_chance = random.Random(seed), random.Random(f"{seed} others")
    with tempfile.TemporaryDirectory() as folder:
        beside = Comparison(program, forms, folder)
        wrong = any(beside.differs("examples", source, image, delays, number, number)
                    for source, image, delays, number in example_runs())
        while beside.done["pipes"] < count and not wrong:
            source, image, delays = make_pipe(chance, forms)
            wrong = (beside.differs("pipes", source, image, delays)
                     or beside.differs("spoiled pipes", spoiled(chance, source), "image 1\n")
                     or make_pipe is whole_pipe and beside.differs("pipes of all forms", *whole_pipe(other_chance, ALL), forms=TAKEN))
    print(", ".join(f"{name} {count}" for name, count in beside.done.items()))
    return 1 if wrong else 0


def main():
    words, forms = out_of(usage.words(__doc__, 1, 6))
    if forms is None:
        usage.ends("--forms names a form that there isn't")
    match words:
        case ["promises", *more] if len(more) <= 2:
            return watch_all(forms, *numbers(more))
        case ["program", program, *more] if len(more) <= 2:
            return compare_all(program, plain_pipe, forms, *numbers(more))
        case ["whole", program, *more] if len(more) <= 2:
            return compare_all(program, whole_pipe, forms, *numbers(more))
    usage.ends(f"`{' '.join(words)}` is no call of it")


def numbers(words):
    """How many pipes, and the seed."""
    return [*map(usage.number, words), *[200, 1][len(words) :]]


if __name__ == "__main__":
    usage.runs(main)
