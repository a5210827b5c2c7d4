"""The versions of the RISC-V core of examples/riscv, their runs, and the tables of docs/riscv.md that these make."""

import hashlib
import os
import pathlib
import re
import subprocess
from concurrent.futures import ThreadPoolExecutor
from dataclasses import dataclass, replace

TOP = pathlib.Path(__file__).resolve().parent.parent
CORES = TOP / "examples" / "riscv"
PAGE = TOP / "docs" / "riscv.md"

# In which cycles `code` and `data` answer where they are slow: in three of four, and in every third.
SLOW = [f"{int(cycle % 4 > 0)}{int(cycle % 3 == 0)}" for cycle in range(1, 1000001)]

LOCKS = [f"{kind}({size})" for kind in ("queue", "bypass", "rename") for size in (1, 2, 4, 8, 16)]
LOCK_OF_X = r"(x: uint<32>\[32\] comb lock )\w+\(\d+\)"


@dataclass(frozen=True)
class Version:
    """A way to run a program: what the page calls it, a source, whether its memories are slow, and a change.

    `cycles` are enough for an instruction, over a whole program. A change is a regular expression, which the source
    matches once, and what stands there instead.
    """

    name: str
    source: str
    cycles: int
    slow: bool = False
    change: tuple | None = None

    def text(self):
        """The text of the source, with the change."""
        text = (CORES / self.source).read_text()
        if not self.change:
            return text
        changed, count = re.subn(*self.change, text)
        if count != 1:
            raise SystemExit(f"{self.source} has {count} places of {self.change[0]}")
        return changed

    def with_change(self, old, new):
        return replace(self, change=(old, new))


VERSIONS = (
    Version("one stage", "rv32i_single.pdl", 1),
    Version("five stages", "rv32i.pdl", 3),
    Version("with a guess", "rv32i_guess.pdl", 3),
    Version("with a table of counters", "rv32i_counters.pdl", 3),
    Version("with delayed memories", "rv32i_delayed.pdl", 3),
    Version("the same, slow", "rv32i_delayed.pdl", 5, slow=True),
    Version("with a second guess", "rv32i_update.pdl", 3),
    Version("the same, slow", "rv32i_update.pdl", 5, slow=True),
    Version("with a branch target buffer", "rv32i_btb.pdl", 3),
    Version("the same, slow", "rv32i_btb.pdl", 5, slow=True),
    Version("with a multiplier in an inner branch", "rv32im.pdl", 4),
)
SINGLE, FIVE, GUESS, COUNTERS, DELAYED, LATE, UPDATED, LATER, BUFFER, BUFFERED_LATE, MULTIPLIES = VERSIONS
# It begins at another address, and an ECALL is no end there: it runs programs of its own.
TRAPS = Version("with traps", "rv32i_traps.pdl", 6)

# The memories that are written, in the order in which a digest has them, and where the cause of a trap stands in `csr`.
WRITTEN = ("x", "data", "csr")
MCAUSE = 10

# What can be guessed, and the line that guesses it.
GUESS_LINE = r"(?m)^    next = spec_call\(.*\);$"
GUESSES = (
    ("the instruction behind", "next = spec_call(pc + 32'd4);"),
    ("and where a JAL goes", "next = spec_call(is_jal ? pc + imm_j : pc + 32'd4);"),
    ("and that a branch backward is taken",
     "next = spec_call(is_jal ? pc + imm_j : is_branch & word[31:31] ? pc + imm_b : pc + 32'd4);"),
)

# The line of `verify` moved from execute into memory, and that of `spec_check` in decode turned into a barrier.
VERIFY_LATER = (r"(?s)(    verify\([^\n]*\n)(.*?\n    // memory [^\n]*\n)", r"\2\1")
BARRIER = (r"spec_check\(\);( +// who)", r"spec_barrier();\1")

# A stage for the operands.
OPERANDS = (r"(?m)^    xt = x\[t\];$", r"\g<0>\n    ---")


@dataclass(frozen=True)
class Expected:
    """A line of `expected`: a program at a level, its instructions, its result in a word of `data`, and its writes."""

    name: str
    instructions: int
    place: int
    result: int
    digest: str

    def image(self):
        return (CORES / "images" / f"{self.name}.img").read_text()


def expected(table="expected"):
    """The prebuilt programs of a table."""
    lines = [it.split() for it in (CORES / table).read_text().splitlines() if not it.startswith("#")]
    return [Expected(name, int(count), int(place), int(word, 16), digest) for name, count, place, word, digest in lines]


class Run:
    """What a run printed: its lines without the last one."""

    def __init__(self, text):
        self.lines = text.splitlines()[:-1]

    def last(self):
        """The cycle of the last write."""
        return int(self.lines[-1].split(" ")[0]) if self.lines else 0

    def writes(self, memory):
        """The writes of a memory in order, a pair of address and word each."""
        found = [line.split(" ") for line in self.lines if f" {memory} " in line]
        return [(int(address), int(value, 16)) for _, _, address, value in found]

    def digest(self):
        """SHA-256 of the lines `x ADDRESS VALUE` of all writes to x, and then those of data and of csr."""
        parts = [[line.split(" ", 1)[1] for line in self.lines if f" {memory} " in line] for memory in WRITTEN]
        return hashlib.sha256("".join(line + "\n" for part in parts for line in part).encode()).hexdigest()


def text_of_run(pdl, version, image, cycles, folder):
    """What `pdl run` prints of a version and an image; the files stand in a new folder."""
    folder = pathlib.Path(folder)
    folder.mkdir()
    (folder / "core.pdl").write_text(version.text())
    (folder / "now.img").write_text(image)
    words = [pdl, "run", "core.pdl", "now.img", str(min(cycles, 1000000))]
    if version.slow:
        (folder / "slow.delays").write_text("\n".join(SLOW[:cycles]) + "\n")
        words += ["--delays", "slow.delays"]
    return subprocess.run(words, cwd=folder, check=True, capture_output=True, text=True).stdout


def run_core(pdl, version, image, cycles, folder):
    """The run of a version from an image."""
    return Run(text_of_run(pdl, version, image, cycles, folder))


class Figures:
    """What the tables say: how many instructions a cycle each source ends over all prebuilt programs together."""

    def __init__(self, pdl, folder):
        self.pdl, self.folder, self.count = pdl, pathlib.Path(folder), 0
        self.programs = [(it, it.image()) for it in expected()]

    def per_cycle(self, version):
        """Instructions a cycle, of a version all of whose writes are the expected ones."""
        lasts = self.cycles(version, self.programs)
        return f"{sum(program.instructions for program, _ in self.programs) / sum(lasts):.2f}"

    def cycles(self, version, programs):
        """The cycle of the last write of each program, of a version all of whose writes are the expected ones."""
        return [run.last() for run in self.runs(version, programs)]

    def runs(self, version, programs):
        """The run of each program, on a version all of whose writes are the expected ones."""
        self.count += 1
        stem = self.folder / f"figure{self.count}"
        stem.mkdir()

        def right(pair):
            program, image = pair
            for times in (2, 4, 10):
                folder = stem / f"{program.name}_{times}"
                run = run_core(self.pdl, version, image, times * program.instructions, folder)
                if run.digest() == program.digest:
                    return run
            raise SystemExit(f"{program.name}: other writes than the model's, of {version}")

        with ThreadPoolExecutor(os.cpu_count()) as workers:
            return list(workers.map(right, programs))

    def versions(self):
        """The table of the versions as they stand."""
        rows = ["| version | source | instructions a cycle |", "|---|---|---|"]
        rows += [f"| {it.name} | `{it.source}` | {self.per_cycle(it)} |" for it in VERSIONS]
        six = self.per_cycle(FIVE.with_change(*OPERANDS))
        return [*rows, f"| five stages, and one for the operands | `{FIVE.source}` with one `---` more | {six} |"]

    def locks(self):
        """The table of each lock and size of the registers' memory."""
        shown = (FIVE, GUESS, DELAYED, LATE)
        rows = ["| lock of `x` | " + " | ".join(it.name for it in shown) + " |", "|---" * (len(shown) + 1) + "|"]
        for lock in LOCKS:
            figures = (self.per_cycle(it.with_change(LOCK_OF_X, r"\g<1>" + lock)) for it in shown)
            rows.append(f"| `{lock}` | " + " | ".join(figures) + " |")
        return rows

    def products(self):
        """The table of the programs that multiply, by the core that does and by the one that guesses and doesn't."""
        rows = ["| program | with software multiplication, on `rv32i_guess.pdl` | on `rv32im.pdl` |", "|---|---|---|"]
        software = {it.name: it for it in expected()}
        for program in expected("expected_rv32im"):
            cells = []
            for version, it in ((GUESS, software.get(program.name.replace("_m_", "_"))), (MULTIPLIES, program)):
                cells.append(self.told(version, it) if it else "")
            rows.append(f"| `{program.name}` | " + " | ".join(cells) + " |")
        return rows

    def second_guesses(self):
        """The table of each program by the cores that guess: where fetch knows the instruction, where it doesn't, and there once more."""
        shown = (GUESS, DELAYED, UPDATED)
        rows = ["| program | " + " | ".join(f"`{it.source}`" for it in shown) + " |", "|---" * (len(shown) + 1) + "|"]
        lasts = [self.cycles(it, self.programs) for it in shown]
        for (program, _), *cycles in zip(self.programs, *lasts):
            rows.append(f"| `{program.name}` | " + " | ".join(f"{program.instructions / it:.2f}" for it in cycles) + " |")
        return rows

    def loops(self):
        """The table of the loops in the manner of benchmarks, by each version; those that multiply by the one that does."""
        programs = expected("expected_loops")
        plain = [it for it in programs if "_m_" not in it.name]
        heads = plain + [it for it in programs if it not in plain]
        rows = ["| version | source | " + " | ".join(f"`{it.name}`" for it in heads) + " |", "|---" * (len(heads) + 2) + "|"]
        for version in VERSIONS:
            shown = heads if version is MULTIPLIES else plain
            cells = [self.told(version, it) for it in shown] + [""] * (len(heads) - len(shown))
            rows.append(f"| {version.name} | `{version.source}` | " + " | ".join(cells) + " |")
        return rows

    def traps(self):
        """The table of the programs that take traps, beside the core that multiplies."""
        rows = ["| program | on `rv32i_traps.pdl` | traps | compiled for `rv32im.pdl` |", "|---|---|---|---|"]
        others = {it.name: it for it in expected("expected_rv32im")}
        for program in expected("expected_traps"):
            run, = self.runs(TRAPS, [(program, program.image())])
            traps = sum(address == MCAUSE for address, _ in run.writes("csr"))
            other = others.get(program.name.replace("_t_", "_m_"))
            on_it = told_of(program, run.last())
            rows.append(f"| `{program.name}` | {on_it} | {traps:,} | {self.told(MULTIPLIES, other) if other else ''} |")
        return rows

    def told(self, version, program):
        """The instructions of a program, its cycles by a version, and the one over the other."""
        return told_of(program, *self.cycles(version, [(program, program.image())]))

    def guesses(self):
        """The table of what can be guessed, and of what else a line can change there."""
        rows = ["| what is guessed | the line | instructions a cycle |", "|---|---|---|"]
        for what, line in GUESSES:
            rows.append(f"| {what} | `{line}` | {self.per_cycle(GUESS.with_change(GUESS_LINE, '    ' + line))} |")
        rows.append(f"| what the branch did before, by a table of counters | `{COUNTERS.source}` | {self.per_cycle(COUNTERS)} |")
        for what, line, change in (
            ("a branch backward is taken, verified a stage later", "`verify(next, ..);` in memory", VERIFY_LATER),
            ("a branch backward is taken, and none reserves before it is right", "`spec_barrier();` in decode", BARRIER),
        ):
            rows.append(f"| {what} | {line} | {self.per_cycle(GUESS.with_change(*change))} |")
        return rows


def told_of(program, last):
    """The instructions of a program, its cycles, and the one over the other."""
    return f"{program.instructions:,} in {last:,} cycles: {program.instructions / last:.2f}"


def put_table(rows):
    """Puts a table into the page, in place of the one that has its first line."""
    lines = PAGE.read_text().split("\n")
    begin = lines.index(rows[0])
    end = lines.index("", begin)
    PAGE.write_text("\n".join(lines[:begin] + rows + lines[end:]))
