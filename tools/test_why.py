#!/usr/bin/env python3
"""Worked rows for tools/why.py: of each source the rule and the line that refuse it, and what is said of them."""

import usage
import why

COUNTER = """pipe p(n: uint<4>)
    [m: uint<8>[4] comb lock queue(1)]
{
    a = n[1:0];
    v = zext(n, 8);
    reserve(m[a], W);
    block(m[a]);
    m[a] <- v;
    release(m[a]);
    call(n + 4'd1);
}
start p(4'd0);
"""
# What stands in the counter, what stands there instead, the refusal, and words of what is said.
ROWS = [
    ("n + 4'd1", "n + 1", "G1", 10, "as `8'd1`"),
    ("n + 4'd1)", "n + 4'd1))", "G1", 10, "`)` is out of place; in its place may stand `;`"),
    ("v = zext(n, 8);", "v = zext(n, 8)", "G1", 6, "a `;` may be missing in line 5"),
    ("a = n[1:0]", "a = n[1]", "G1", 4, "one bit is a slice of two numbers"),
    ("a = n[1:0]", "a = (n)[1:0]", "G1", 4, "bind the expression to one first"),
    ("m[a] <- v", "m[0] <- v", "G1", 8, "an address is a name"),
    ("zext(n, 8)", "zext(n, 8'd8)", "G1", 5, "a number"),
    ("[4] comb", "[1] comb", "Z7", 2, "1 words: a power of two from 2 to 65536"),
    ("m[a] <- v", "m[a] <- w", "N1", 8, "`w` is no name of that kind"),
    ("v = zext(n, 8)", "n = zext(n, 8)", "N2", 5, "`n` was defined in line 1"),
    ("v = zext(n, 8);", "if (n == 4'd0) { v = zext(n, 8); }", "N3", 8, "not where `n == 4'd0` is 0"),
    ("n + 4'd1", "n + 8'd1", "W1", 10, "`n` has 4 bits, `8'd1` 8 bits"),
    ("a = n[1:0]", "a = n", "W4", 6, "`a` has 4 bits, an address of `m`, which has 4 words, 2 bits"),
    ("m[a] <- v", "m[a] <- n", "W6", 8, "`n` has 4 bits, a word of `m` 8 bits"),
    ("    block(m[a]);\n", "", "L1", 7, "`m[a]` was reserved for W in line 6; a write needs it blocked for W"),
    ("reserve(m[a], W)", "if (n == 4'd0) { reserve(m[a], W); } spec_check()", "L1", 7, "on the path where `n == 4'd0` is 0: line 6"),
    ("reserve(m[a], W)", "reserve(m[a], W); reserve(m[a], R)", "L1", 8, "one variable is one location"),
    ("    release(m[a]);\n", "", "L7", 10, "`m[a]`, reserved in line 6, is not released"),
    ("    call(n + 4'd1);\n", "", "S1", 10, "no `call` and no `spec_call`"),
]


def main():
    usage.words(__doc__, 0, 0)
    wrong = 0
    for old, new, rule, line, words in ROWS:
        text = COUNTER.replace(old, new)
        said = why.details(text, rule, line)
        if text == COUNTER or not any(words in it for it in said):
            print(f"{new!r}: {rule} line {line}: {said} is said, and not {words!r}")
            wrong += 1
    print(f"{len(ROWS) - wrong} of {len(ROWS)} rows are as written")
    return 1 if wrong else 0


if __name__ == "__main__":
    usage.runs(main)
