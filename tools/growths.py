#!/usr/bin/env python3
"""Refuses a built program `pdl` memory: growths.py PDL. docs/edge.md has what was found.

Each case is run with its N-th call for memory refused, and again with that and each later one refused, with N = 1, 2, .. up
to the first number that the run doesn't come to. Right are status 5 with `no memory` and its line feed on the error output
and nothing on the output, or the whole answer of the run with all its memory, where it did with less. A line for each case
says how many calls it made, and how many were answered otherwise than by `no memory`, once and from there on; the status is
1 where an answer is wrong. A small library in C stands before the system's calls for memory, so it needs `cc`.
"""
import concurrent.futures
import os
import pathlib
import subprocess
import sys
import tempfile

import usage

# Counts the calls, and refuses the one whose number stands in REFUSED, and with LATER those after it; that it did so it tells
# by a byte to the descriptor in TOLD.
LIBRARY = r"""
#define _GNU_SOURCE
#include <dlfcn.h>
#include <errno.h>
#include <stdatomic.h>
#include <stddef.h>
#include <stdlib.h>
#include <unistd.h>

static atomic_long made;

static int is_refused(void) {
    const char *refused = getenv("REFUSED"), *told = getenv("TOLD");
    long number = atomic_fetch_add(&made, 1) + 1;
    if (!refused || !told || number < atol(refused) || (number > atol(refused) && !getenv("LATER"))) return 0;
    errno = ENOMEM;
    return write(atoi(told), "r", 1) == 1;
}

extern void *__libc_malloc(size_t), *__libc_calloc(size_t, size_t), *__libc_realloc(void *, size_t);
extern void *__libc_memalign(size_t, size_t);

void *malloc(size_t size) { return is_refused() ? NULL : __libc_malloc(size); }
void *calloc(size_t count, size_t size) { return is_refused() ? NULL : __libc_calloc(count, size); }
void *realloc(void *old, size_t size) { return is_refused() ? NULL : __libc_realloc(old, size); }
void *memalign(size_t align, size_t size) { return is_refused() ? NULL : __libc_memalign(align, size); }
void *aligned_alloc(size_t align, size_t size) { return is_refused() ? NULL : __libc_memalign(align, size); }
int posix_memalign(void **place, size_t align, size_t size) {
    *place = is_refused() ? NULL : __libc_memalign(align, size);
    return *place ? 0 : ENOMEM;
}
"""

COUNTER = ("pipe p(n: uint<4>)[m: uint<8>[4] comb lock queue(1)] { a = n[1:0]; v = zext(n, 8); reserve(m[a], W); block(m[a]); "
           "m[a] <- v; release(m[a]); call(n + 4'd1); } start p(4'd0);")
CHAIN = ("pipe p(n: uint<2>)[m: uint<8>[4] comb lock bypass(4)] { a = 2'd0; b = 2'd0; reserve(m[a], R); reserve(m[b], W); "
         "call(n + 2'd1); --- block(m[a]); x = m[a]; --- block(m[b]); m[b] <- x + 8'd1; --- release(m[a]); release(m[b]); } "
         "start p(2'd0);")
GUESS = ("pipe p(n: uint<8>)[m: uint<8>[4] comb lock queue(1)] { spec_check(); s = spec_call(n + 8'd1); --- t = n + 8'd2; --- "
         "verify(s, t); a = n[1:0]; reserve(m[a], W); block(m[a]); m[a] <- n; release(m[a]); } start p(8'd0);")
FETCH = ("pipe p(n: uint<2>)[d: uint<8>[4] delayed, m: uint<8>[4] comb lock queue(1)] { spec_check(); x <- d[n]; "
         "s = spec_call(n + 2'd1); --- t = n + 2'd2; y = x; --- verify(s, t); reserve(m[n], W); block(m[n]); m[n] <- y; "
         "release(m[n]); } start p(2'd0);")
TABLE = ('word = 8\nmem = "im"\n[regs]\nr0 = 0\nr1 = 1\n[[insn]]\nname = "add"\nargs = ["d:reg", "i:sint"]\nbits = "01 d iiiii"\n'
         '[[insn]]\nname = "b"\nargs = ["t:rel"]\nbits = "100 ttttt"\n')
FILES = {"a.pdl": COUNTER, "chain.pdl": CHAIN, "guess.pdl": GUESS, "fetch.pdl": FETCH, "wrong.pdl": COUNTER.replace("4'd1", "8'd1"),
         "e.img": "image 1\n", "d.img": "image 1\nd 0 0a\nd 1 0b\nd 2 0c\n", "wrong.img": "image 1\nm 4 00\n",
         "d.rows": "1\n1\n0\n0\n1\n", "t.toml": TABLE, "t.asm": "top: add r1, -2\nb top\n", "wrong.asm": "add r2, 0\n"}
CASES = ["run a.pdl e.img 3", "run chain.pdl e.img 8", "run fetch.pdl d.img 7 --delays d.rows", "seq a.pdl e.img 2",
         "seq guess.pdl e.img 3", "asm t.toml t.asm", "build a.pdl", "sim a.v e.img 3", "check chain.pdl", "gen 0", "gen 1",
         "wave a.pdl e.img 2", "view a.pdl e.img 3", "view fetch.pdl d.img 7 --delays d.rows", "run wrong.pdl e.img 3",
         "run a.pdl wrong.img 3", "seq a.pdl wrong.img 2", "asm t.toml wrong.asm", "asm wrong.asm t.asm", "build wrong.pdl",
         "sim a.pdl e.img 3", "sim a.v wrong.img 3", "check wrong.pdl", "wave wrong.pdl e.img 2", "view a.pdl wrong.img 3",
         "run none.pdl e.img 3", "run a.pdl", "gen x", ""]
NO_MEMORY = (5, b"", b"no memory\n")


class Growths:
    def __init__(self, program, folder):
        self.program, self.folder, self.library = os.path.abspath(program), folder, folder / "refuse.so"
        (folder / "refuse.c").write_text(LIBRARY)
        subprocess.run(["cc", "-shared", "-fPIC", "-O1", "-o", self.library, folder / "refuse.c", "-ldl"], check=True)
        for name, text in FILES.items():
            (folder / name).write_text(text)
        built = subprocess.run([self.program, "build", "a.pdl"], cwd=folder, capture_output=True, check=True)
        (folder / "a.v").write_bytes(built.stdout)

    def answer(self, words, number, more):
        """The status and both outputs of a run whose call with this number is refused, or None if it made fewer."""
        told, tell = os.pipe()
        more = {"LD_PRELOAD": str(self.library), "REFUSED": str(number), "TOLD": str(tell), **more}
        ran = subprocess.run([self.program, *words], cwd=self.folder, env=more, capture_output=True, pass_fds=[tell], timeout=600)
        os.close(tell)
        was_refused = os.read(told, 1) == b"r"
        os.close(told)
        return (ran.returncode, ran.stdout, ran.stderr) if was_refused else None

    def case(self, words, pool, more):
        """The answers of a case whose calls are refused one by one."""
        answers, step = [], 64
        while True:
            numbers = range(len(answers) + 1, len(answers) + 1 + step)
            some = list(pool.map(lambda it: self.answer(words, it, more), numbers))
            answers += some[:some.index(None)] if None in some else some
            if None in some:
                return answers


def main():
    program = usage.program(usage.words(__doc__, 1, 1)[0])
    with tempfile.TemporaryDirectory() as name, concurrent.futures.ThreadPoolExecutor(os.cpu_count()) as pool:
        growths, calls, others, wrong = Growths(program, pathlib.Path(name)), 0, [0, 0], 0
        for case in CASES:
            words, counts = case.split(), []
            ran = subprocess.run([growths.program, *words], cwd=name, capture_output=True)
            right = (ran.returncode, ran.stdout, ran.stderr)
            for k, more in enumerate(({}, {"LATER": "1"})):
                answers = growths.case(words, pool, more)
                counts.append(sum(it == right for it in answers))
                others[k] += counts[k]
                for number, answer in enumerate(answers, 1):
                    if answer not in (right, NO_MEMORY):
                        wrong += 1
                        print(f"WRONG: {answer} where call {number} of {case} {'and the later ones are' if more else 'is'} refused")
            calls += len(answers)
            told = f"{counts[0]} and {counts[1]} done with less, status {ran.returncode}: {case or 'no words'}"
            print(f"{len(answers):6} calls, {told}", flush=True)
    print(f"{calls} calls, {others[0]} done with less where one was refused, {others[1]} where all later ones were, {wrong} wrong")
    sys.exit(wrong > 0)


if __name__ == "__main__":
    usage.runs(main)
