#!/usr/bin/env python3
"""Worked rows for the model in tools/pdl_model: `test_model.py` runs them all and names those that fail."""

import usage
from pdl_model import dump, files, rules
from pdl_model.forms import ALL, TAKEN, Forms
from pdl_model.syntax import Refused

A = """pipe p(n: uint<4>)[m: uint<8>[4] comb lock queue(1)] { a = n[1:0]; v = zext(n, 8); reserve(m[a], W); block(m[a]);
m[a] <- v; release(m[a]); call(n + 4'd1); } start p(4'd0);"""
B = """pipe p(n: uint<2>)[m: uint<8>[4] comb lock KIND(4)] { a = 2'd0; b = 2'd0; reserve(m[a], R); reserve(m[b], W);
call(n + 2'd1); --- block(m[a]); x = m[a]; --- block(m[b]); m[b] <- x + 8'd1; --- release(m[a]); release(m[b]); }
start p(2'd0);"""
C = """pipe p(n: uint<8>)[m: uint<8>[4] comb lock queue(1)] { spec_check(); s = spec_call(n + 8'd1); --- t = n + 8'dK; ---
verify(s, t); a = n[1:0]; reserve(m[a], W); block(m[a]); m[a] <- n; release(m[a]); } start p(8'd0);"""
C_EARLY = """pipe p(n: uint<8>)[m: uint<8>[4] comb lock queue(2)] { spec_check(); a = n[1:0]; reserve(m[a], W);
s = spec_call(n + 8'd1); --- t = n + 8'd2; --- verify(s, t); block(m[a]); m[a] <- n; release(m[a]); } start p(8'd0);"""
E = """pipe p(n: uint<2>)[d: uint<8>[4] delayed, m: uint<8>[4] comb lock queue(1)] { x <- d[n]; call(n + 2'd1); ---
reserve(m[n], W); block(m[n]); m[n] <- x; release(m[n]); } start p(2'd0);"""
F = """pipe p(n: uint<2>)[d: uint<8>[4] delayed, m: uint<8>[4] comb lock queue(1)] { spec_check(); x <- d[n];
s = spec_call(n + 2'd1); --- t = n + 2'd2; y = x; --- verify(s, t); reserve(m[n], W); block(m[n]); m[n] <- y;
release(m[n]); } start p(2'd0);"""
G = """pipe p(n: uint<2>)[m: uint<8>[4] comb lock bypass(4)] { g = n[0:0]; z = zext(n, 8); reserve(m[n], W);
call(n + 2'd1); if (g) { --- } else { --- --- --- } --- block(m[n]); m[n] <- z; release(m[n]); } start p(2'd0);"""
H = G.replace("if (g) { --- }", "if (g) { }")
BARRIER = """pipe p(n: uint<2>)[m: uint<8>[4] comb lock queue(2)] {
spec_check(); reserve(m[n], W); s = spec_call(n + 2'd1);
block(m[n]); m[n] <- 8'd7;
release(m[n]);
---
verify(s, n + 2'd1);
} start p(2'd0);"""
GUARDS = """pipe p(n: uint<2>)[m: uint<8>[4] comb lock queue(1)] {
g = n[0:0]; h = n[1:1];
if (g) { reserve(m[n], W); block(m[n]); m[n] <- 8'd1; }
if (h) { release(m[n]); }
call(n + 2'd1);
} start p(2'd0);"""
DELAYED_LOCK = """pipe p(n: uint<1>)[m: uint<8>[2] delayed lock queue(2)] { a = 1'd0; b = 1'd0; reserve(m[a], R);
reserve(m[b], W); call(n + 1'd1); --- block(m[a]); x <- m[a]; --- y = x + 8'd1; block(m[b]); m[b] <- y; release(m[a]);
release(m[b]); } start p(1'd0);"""
YOUNGEST = """pipe p(n: uint<2>)[m: uint<8>[4] comb lock bypass(4)] { a = 2'd0; b = 2'd0; reserve(m[a], R); reserve(m[b], W);
call(n + 2'd1); --- block(m[a]); x = m[a]; block(m[b]); m[b] <- x + 8'd1; --- --- release(m[a]); release(m[b]); }
start p(2'd0);"""
GUARDED = """pipe p(n: uint<2>)[m: uint<8>[4] comb lock queue(1)] { g = n[0:0]; if (g) { reserve(m[n], W); block(m[n]);
m[n] <- 8'd5; release(m[n]); } call(n + 2'd1); } start p(2'd0);"""

EMPTY = "image 1\n"
D = "image 1\nd 0 0a\nd 1 0b\nd 2 0c\n"


def kind(name, size="4"):
    return B.replace("KIND(4)", f"{name}({size})")


def guess(step):
    return C.replace("K;", f"{step};")


# Source, image, cycles, delay rows, the lines of `run` without the words of its last one, and that one's four numbers.
RUNS = [
    (A, EMPTY, 3, "", "1 m 0 00, 2 m 1 01, 3 m 2 02", "3 3 0 0"),
    (A, EMPTY, 0, "", "", "0 0 0 0"),
    (A.replace("call", "--- call"), EMPTY, 3, "", "1 m 0 00, 3 m 1 01", "3 1 0 0"),
    (kind("queue"), EMPTY, 10, "", "4 m 0 01, 7 m 0 02, 10 m 0 03", "10 3 0 0"),
    (kind("queue", "1"), EMPTY, 8, "", "4 m 0 01, 8 m 0 02", "8 2 0 0"),
    (kind("bypass"), EMPTY, 8, "", "4 m 0 01, 6 m 0 02, 8 m 0 03", "8 3 0 0"),
    (kind("rename"), EMPTY, 8, "", "4 m 0 01, 6 m 0 02, 8 m 0 03", "8 3 0 0"),
    (guess(1), EMPTY, 5, "", "3 m 0 00, 4 m 1 01, 5 m 2 02", "5 3 0 0"),
    (guess(2), EMPTY, 9, "", "3 m 0 00, 6 m 2 02, 9 m 0 04", "9 3 0 3"),
    (C_EARLY, EMPTY, 9, "", "3 m 0 00, 6 m 2 02, 9 m 0 04", "9 3 0 3"),
    (E, D, 6, "0 0 0 1", "4 m 0 0a, 5 m 1 0b, 6 m 2 0c", "6 3 2 0"),
    (E, D, 4, "", "2 m 0 0a, 3 m 1 0b, 4 m 2 0c", "4 3 0 0"),
    (E, D, 6, "0 0 0 0 0 0", "", "6 0 5 0"),
    (F, D, 7, "1 1 0 0 1", "3 m 0 0a, 7 m 2 0c", "7 2 2 2"),
    (F, D, 6, "1 1 0 1", "3 m 0 0a, 6 m 2 0c", "6 2 1 2"),
    (F, D, 6, "", "3 m 0 0a, 6 m 2 0c", "6 2 0 2"),
    (G, EMPTY, 8, "", "5 m 0 00, 6 m 1 01, 7 m 2 02, 8 m 3 03", "8 4 0 0"),
    (H, EMPTY, 11, "", "5 m 0 00, 6 m 1 01, 10 m 2 02, 11 m 3 03", "11 4 0 0"),
    (DELAYED_LOCK, EMPTY, 6, "", "3 m 0 01, 5 m 0 02", "6 2 0 0"),
    (BARRIER.replace("spec_check", "spec_barrier"), EMPTY, 3, "", "1 m 0 07, 3 m 1 07", "3 1 0 0"),
    (YOUNGEST, EMPTY + "m 0 3\n", 8, "", "4 m 0 04, 5 m 0 05, 6 m 0 06, 7 m 0 07, 8 m 0 08", "8 5 0 0"),
    (GUARDED, EMPTY, 4, "", "2 m 1 05, 4 m 3 05", "4 4 0 0"),
]

# Source, cycles, delay rows, the lines of `view`.
VIEWS = [
    (guess(2), 4, "", "1 M.., 2 MM., 3 SSM, 4 M.."),
    # A write through a queue waits until no older write of its address is pending.
    ("""pipe p(n: uint<2>)[m: uint<8>[4] comb lock queue(2)] { a = 2'd1; z = zext(n, 8); reserve(m[a], W); call(n +
     2'd1); --- block(m[a]); m[a] <- z; --- release(m[a]); } start p(2'd0);""", 9, "",
     "1 M.., 2 MM., 3 SSM, 4 MM., 5 SSM, 6 MM., 7 SSM, 8 MM., 9 SSM"),
    # A block or release is of the kind for which its path reserved the location.
    ("""pipe p(n: uint<2>)[m: uint<8>[4] comb lock bypass(4)] { g = n[0:0]; if (g) { reserve(m[n], W); } else {
     reserve(m[n], R); } call(n + 2'd1); --- block(m[n]); if (g) { m[n] <- 8'd5; } --- release(m[n]); } start
     p(2'd0);""", 9, "",
     "1 M.., 2 MM., 3 MMM, 4 MMM, 5 MMM, 6 MMM, 7 MMM, 8 MMM, 9 MMM"),
    # A port isn't free while the owner of its answered request stands.
    ("""pipe p(n: uint<2>)[d: uint<8>[4] delayed, m: uint<8>[4] comb lock queue(4)] { a = 2'd0; x <- d[n]; reserve(m[a],
     W); call(n + 2'd1); --- block(m[a]); m[a] <- x; --- release(m[a]); } start p(2'd0);""", 9, "0 1 0 0 1 1 0 1 1",
     "1 M.., 2 MM., 3 SSM, 4 SS., 5 MM., 6 SSM, 7 MM., 8 SSM, 9 MM."),
    # An answer that comes while its owner stands is kept.
    ("""pipe p(n: uint<2>)[d: uint<8>[4] delayed, m: uint<8>[4] comb lock queue(4)] { a = 2'd0; reserve(m[a], W); x <-
     d[n]; call(n + 2'd1); --- block(m[a]); y = x; m[a] <- y; --- --- release(m[a]); } start p(2'd0);""", 9, "0 1 0 0 1 1 0 1 1",
     "1 M..., 2 MM.., 3 SSM., 4 SS.M, 5 MM.., 6 SSM., 7 SS.M, 8 MM.., 9 SSM."),
    # A port is free where its owner moves in a later stage.
    ("""pipe p(n: uint<2>)[d: uint<8>[4] delayed, m: uint<8>[4] comb lock queue(4)] { g = n[0:0]; a = 2'd0;
     reserve(m[a], W); x <- d[n]; call(n + 2'd1); if (g) { --- } else { --- block(m[a]); } --- if (g) {
     block(m[a]); } m[a] <- x; --- --- release(m[a]); } start p(2'd0);""", 9, "0 1 0 0 1 1 0 1 1",
     "1 M....., 2 M.M..., 3 SS.M.., 4 SS..M., 5 MM...M, 6 S.SM.., 7 M.S.M., 8 SSS..M, 9 MSM..."),
    # Two forks on one variable go the same way.
    ("""pipe p(n: uint<2>)[m: uint<8>[4] comb lock bypass(4)] { g = n[0:0]; z = zext(n, 8); reserve(m[n], W); call(n +
     2'd1); if (g) { --- --- } --- if (g) { } else { --- --- --- } --- block(m[n]); m[n] <- z; release(m[n]); }
     start p(2'd0);""", 9, "",
     "1 M......., 2 M..M...., 3 SM..M..., 4 S.M..M.., 5 S..S..M., 6 M..M...M, 7 M..M...M, 8 SM..M..., 9 S.M..M.."),
    # A squash empties the list of a fork that merges no later than V.
    ("""pipe p(n: uint<2>)[m: uint<8>[4] comb lock queue(4)] { spec_check(); g = n[0:0]; s = spec_call(n + 2'd1); if (g)
     { --- --- } else { --- } --- verify(s, n + 2'd2); reserve(m[n], W); block(m[n]); m[n] <- 8'd9;
     release(m[n]); } start p(2'd0);""", 9, "",
     "1 M...., 2 M..M., 3 SS..M, 4 M...., 5 M..M., 6 SS..M, 7 M...., 8 M..M., 9 SS..M"),
    # And it keeps the list of a fork after V.
    ("""pipe p(n: uint<2>)[m: uint<8>[4] comb lock queue(4)] { spec_check(); g = n[0:0]; s = spec_call(n + 2'd1); ---
     verify(s, n + 2'd3); if (g) { --- --- --- --- } else { --- --- --- } --- reserve(m[n], W); block(m[n]);
     m[n] <- zext(n, 8); release(m[n]); } start p(2'd0);""", 9, "",
     "1 M........., 2 SM........, 3 M.....M..., 4 SM.....M.., 5 M.M.....M., 6 SM.M.....M, 7 M...M.M..., 8 SM...M.M.., 9 M.M.....MM"),
    # A barrier looks as far as V, and no further.
    ("""pipe p(n: uint<2>)[m: uint<8>[4] comb lock queue(4)] { spec_barrier(); reserve(m[n], W); s = spec_call(n +
     2'd1); --- verify(s, n + 2'd1); --- --- block(m[n]); m[n] <- 8'd3; release(m[n]); } start p(2'd0);""", 9, "",
     "1 M..., 2 SM.., 3 M.M., 4 SM.M, 5 M.M., 6 SM.M, 7 M.M., 8 SM.M, 9 M.M."),
    # In a pipe without verify it holds nobody up.
    ("""pipe p(n: uint<2>)[m: uint<8>[4] comb lock queue(4)] { spec_barrier(); reserve(m[n], W); call(n + 2'd1); --- ---
     block(m[n]); m[n] <- 8'd3; release(m[n]); } start p(2'd0);""", 9, "",
     "1 M.., 2 MM., 3 MMM, 4 MMM, 5 MMM, 6 MMM, 7 MMM, 8 MMM, 9 MMM"),
]

# Source, threads, the lines of `seq` without the last one.
SEQUENTIAL = [
    (A, 2, "1 m 0 00, 2 m 1 01"),
    (guess(2), 3, "1 m 0 00, 2 m 2 02, 3 m 0 04"),
]

# Source, what `check` says of it.
CHECKS = [
    (A, "accepted stages 1 depth 1"),
    (A.replace("call", "--- call"), "accepted stages 2 depth 2"),
    (A.replace("4'd1", "8'd1"), "refused W1 line 2"),
    (A.replace("call(n + 4'd1)", "call(k)"), "refused N1 line 2"),
    (A.replace("uint<4>", "uint<129>"), "refused Z7 line 1"),
    (A.replace("uint<4>", "uint<65>"), "refused W1 line 2"),
    (A.replace("[4] comb lock queue(1)", "[2] comb lock rename(4)"), "refused Z7 line 1"),
    ("", "refused G1 line 1"),
    (G, "accepted stages 6 depth 5"),
    (G.replace("} ---", "}"), "refused F2 line 2"),
    (BARRIER, "refused S4 line 4"),
    (BARRIER.replace("spec_check", "spec_barrier"), "accepted stages 2 depth 2"),
    (GUARDS, "refused L1 line 4"),
    (GUARDS.replace("(h)", "(g)"), "accepted stages 1 depth 1"),
    (GUARDS.replace("(h)", "(g)").replace("call(n + 2'd1)", "call(n + 8'd1)"), "refused W1 line 5"),
]

# Forms that a program may take or not: two writes of one memory, forks inside branches, updates of guesses, advice.

J = """pipe p(n: uint<2>)[m: uint<8>[4] comb lock queue(2)] { b = n + 2'd1; z = zext(n, 8);
reserve(m[n], W); reserve(m[b], W); block(m[n]); block(m[b]);
m[n] <- z;
m[b] <- z + 8'd4;
release(m[n]);
release(m[b]);
call(n + 2'd2); } start p(2'd0);"""
# It releases in the other order than it reserves, and guesses wrong.
J_GUESSED = """pipe p(n: uint<8>)[m: uint<8>[4] comb lock bypass(4)] { spec_check(); a = n[1:0]; b = a + 2'd1;
reserve(m[a], W); reserve(m[b], W); s = spec_call(n + 8'd1); --- block(m[a]); block(m[b]); m[a] <- n; --- verify(s, n + 8'd2);
m[b] <- n + 8'd16; release(m[b]); release(m[a]); } start p(8'd0);"""
J_ONE_WORD = """pipe p(n: uint<2>)[m: uint<8>[4] comb lock bypass(4)] { a = 2'd0; b = 2'd0; c = 2'd0; reserve(m[a], R);
reserve(m[b], W); reserve(m[c], W); call(n + 2'd1); --- block(m[a]); x = m[a]; block(m[b]); block(m[c]); m[b] <- x + 8'd1;
m[c] <- x + 8'd2; --- --- release(m[a]); release(m[b]); release(m[c]); } start p(2'd0);"""
K = """pipe p(n: uint<8>)[
t: uint<8>[4] advisory,
m: uint<8>[4] comb lock queue(1)] { spec_check(); a = n[1:0]; g = t[a]; k = g[1:0];
s = spec_call(n + g); --- u = n + 8'd2; ---
verify(s, u);
t[a] <- 8'd2;
reserve(m[a], W); block(m[a]); m[a] <- n; release(m[a]); } start p(8'd0);"""
# The write of advice stands in a stage that awaits an answer.
K_AWAITS = """pipe p(n: uint<4>)[t: uint<4>[2] advisory, d: uint<8>[2] delayed, m: uint<8>[4] comb lock queue(1)] { spec_check();
i = 1'd0; x <- d[i]; g = t[i]; s = spec_call(n + g); --- t[i] <- 4'd2; --- verify(s, n + 4'd1); a = n[1:0]; reserve(m[a], W);
block(m[a]); m[a] <- zext(n, 8); release(m[a]); } start p(4'd0);"""
# Three writes of one word in a cycle: the last one of the youngest thread holds.
K_THRICE = """pipe p(n: uint<4>)[t: uint<4>[2] advisory, m: uint<8>[4] comb lock queue(1)] { spec_check(); i = 1'd0; t[i] <- 4'd3;
g = t[i]; s = spec_call(n + g); t[i] <- 4'd1; --- verify(s, n + 4'd1); t[i] <- 4'd2; a = n[1:0]; reserve(m[a], W); block(m[a]);
m[a] <- zext(n, 8); release(m[a]); } start p(4'd0);"""
L = """pipe p(n: uint<8>)[m: uint<8>[4] comb lock queue(1)] { g = n[0:0]; spec_check(); s = spec_call(n + 8'd1);
---
u = n + 8'd2; update(s, n + 8'dJ);
---
---
verify(s, u);
a = n[1:0]; reserve(m[a], W); block(m[a]); m[a] <- n; release(m[a]); } start p(8'd0);"""
# An update that squashes threads in a fork, whose list becomes empty.
L_FORK = """pipe p(n: uint<2>)[m: uint<8>[4] comb lock queue(4)] { spec_check(); g = n[0:0]; s = spec_call(n + 2'd1); if (g) { --- ---
} else { --- } --- update(s, n + 2'd2); --- verify(s, n + 2'd2); reserve(m[n], W); block(m[n]); m[n] <- 8'd9; release(m[n]); }
start p(2'd0);"""
M = """pipe p(n: uint<2>)[m: uint<8>[4] comb lock bypass(8)] { g = n[0:0]; h = n[1:1]; z = zext(n, 8); BEGIN
if (g) { --- } else {
---
if (h) { --- } else { --- --- }
---
}
---
END block(m[n]); m[n] <- z; release(m[n]); } start p(2'd0);"""
M_GUESSED = M.replace("BEGIN", "spec_check(); s = spec_call(n + 2'd1); --- update(s, n + 2'd2);").replace(
    "END", "verify(s, n + 2'd2); reserve(m[n], W);")
M = M.replace("BEGIN", "reserve(m[n], W); call(n + 2'd1);").replace("END", "")
M_STRAIGHT = M.replace("if (h) { --- }", "if (h) { }")


def updated(step):
    return L.replace("dJ", f"d{step}")


def nested(levels):
    """Forks inside one another, each in a line of its own."""
    forks, ends = (f"if (n[{k}:{k}]) {{ ---\n" for k in range(levels)), "} ---\n" * levels
    return f"pipe p(n: uint<8>)[m: uint<8>[4] comb] {{ call(n);\n{''.join(forks)}{ends}}} start p(8'd0);"


FORM_RUNS = [
    (J, EMPTY, 2, "", "1 m 0 00, 1 m 1 04, 2 m 2 02, 2 m 3 06", "2 2 0 0"),
    (J.replace("n + 2'd1;", "n;"), EMPTY, 2, "", "1 m 0 00, 1 m 0 04, 2 m 2 02, 2 m 2 06", "2 2 0 0"),
    (J_GUESSED, EMPTY, 9, "", "3 m 0 00, 3 m 1 10, 6 m 2 02, 6 m 3 12, 9 m 0 04, 9 m 1 14", "9 3 0 3"),
    (J_ONE_WORD, EMPTY, 9, "", "4 m 0 01, 4 m 0 02, 5 m 0 03, 5 m 0 04, 8 m 0 05, 8 m 0 06, 9 m 0 07, 9 m 0 08", "9 4 0 0"),
    (K, EMPTY, 10, "", "3 m 0 00, 6 m 2 02, 9 m 0 04, 10 m 2 06", "10 4 0 2"),
    (K, EMPTY + "t 0 2\nt 2 2\n", 6, "", "3 m 0 00, 4 m 2 02, 5 m 0 04, 6 m 2 06", "6 4 0 0"),
    (K_AWAITS, EMPTY + "t 0 1\n", 6, "0 0 1", "4 m 0 00, 5 m 1 01, 6 m 2 02", "6 3 1 1"),
    (K_THRICE, EMPTY + "t 0 1\n", 4, "", "2 m 0 00, 3 m 1 01, 4 m 2 02", "4 3 0 0"),
    (updated(2), EMPTY, 8, "", "4 m 0 00, 6 m 2 02, 8 m 0 04", "8 3 0 4"),
    (updated(3), EMPTY, 8, "", "4 m 0 00, 8 m 2 02", "8 2 0 4"),
    (updated(1), EMPTY, 8, "", "4 m 0 00, 8 m 2 02", "8 2 0 2"),
    (L.replace("update(s, n + 8'dJ);", ""), EMPTY, 8, "", "4 m 0 00, 8 m 2 02", "8 2 0 2"),
    (M, EMPTY, 9, "", "6 m 0 00, 7 m 1 01, 8 m 2 02, 9 m 3 03", "9 4 0 0"),
    (M_GUESSED, EMPTY, 12, "", "7 m 0 00, 8 m 2 02, 11 m 0 00, 12 m 2 02", "12 4 0 6"),
]

FORM_VIEWS = [
    # Two reservations need room together.
    (J_GUESSED.replace("bypass(4)", "bypass(2)"), 4, "", "1 M.., 2 SM., 3 S.M, 4 M.."),
    # Who is in the inner fork is in the outer one's list.
    (M, 9, "", "1 M......., 2 M.M....., 3 MS..M..., 4 SSM..M.., 5 SS.M..M., 6 MM....SM, 7 MS....MM, 8 MMM....M, 9 MS..M..M"),
    # Who goes straight through the inner fork finds its list empty.
    (M_STRAIGHT, 5, "", "1 M......, 2 M.M...., 3 MS.M..., 4 SSS.M.., 5 SSM..M."),
    (L_FORK, 7, "", "1 M....., 2 M..M.., 3 SS..M., 4 M....M, 5 M..M.., 6 SS..M., 7 M....M"),
]

FORM_SEQUENTIAL = [
    (J, 2, "1 m 0 00, 1 m 1 04, 2 m 2 02, 2 m 3 06"),
    (K, 3, "1 m 0 00, 2 m 2 02, 3 m 0 04"),
    (updated(3), 3, "1 m 0 00, 2 m 2 02, 3 m 0 04"),
]

# Source, cycles, all ports of the last one.
FORM_PORTS = [
    (J, 1, "v_0=1 g_0=1 c_m=1 ca_m=0 cd_m=0 c2_m=1 ca2_m=1 cd2_m=4 ended=1 squash=0"),
    (J_GUESSED, 2, "v_0=1 g_0=1 v_1=1 g_1=1 v_2=0 g_2=0 c_m=0 ca_m=0 cd_m=0 c2_m=0 ca2_m=0 cd2_m=0 ended=0 squash=0"),
    (updated(2), 2, "v_0=1 g_0=0 v_1=1 g_1=1 v_2=0 g_2=0 v_3=0 g_3=0 c_m=0 ca_m=0 cd_m=0 ended=0 squash=1"),
]

# Source, what stands there, what stands there instead, what is said of it with all forms, and without any where that differs.
FORM_CHECKS = [
    (J, "", "", "accepted stages 1 depth 1", "refused L4 line 2"),
    (J, "(2)", "(1)", "refused L4 line 2"),
    (J, "block(m[n]);", "c = n; reserve(m[c], W); block(m[n]);", "refused L4 line 2"),
    (J, "m[n] <- z;\nm[b] <- z + 8'd4;", "m[b] <- z + 8'd4;\nm[n] <- z;", "refused L6 line 3", "refused L4 line 2"),
    (J, "m[n] <- z;", "", "refused L6 line 4", "refused L4 line 2"),
    (J, "m[b] <- z + 8'd4;", "", "refused L6 line 6", "refused L4 line 2"),
    (J, "m[n] <- z;", "m[n] <- z; m[n] <- z;", "refused L6 line 5", "refused L4 line 2"),
    (K, "", "", "accepted stages 3 depth 3", "refused G1 line 2"),
    (K, "t[a] <- 8'd2;", "x = t[k]; y = x + g; t[k] <- y; z = t[a];", "accepted stages 3 depth 3", "refused G1 line 2"),
    (K, "advisory", "advisory lock queue(1)", "refused G1 line 2"),
    (K, "[4] advisory", "[3] advisory", "refused Z7 line 2", "refused G1 line 2"),
    (K, "t[a] <- 8'd2", "t[a] <- a", "refused W6 line 6", "refused G1 line 2"),
    (K, "g = t[a];", "g = t[a]; x <- t[a];", "refused F4 line 3", "refused G1 line 2"),
    (K, "t[a] <- 8'd2;", "reserve(t[a], W);", "refused F5 line 6", "refused G1 line 2"),
    (K, "verify(s, u)", "verify(s, u + g)", "refused P1 line 5", "refused G1 line 2"),
    (K, "m[a] <- n", "m[a] <- g + n", "refused P1 line 7", "refused G1 line 2"),
    (K, "t[a] <- 8'd2;", "if (k[0:0]) { }", "refused P1 line 6", "refused G1 line 2"),
    (K, "a = n[1:0]; g = t[a]; k = g[1:0]", "b = n[1:0]; g = t[b]; a = g[1:0]", "refused P1 line 7", "refused G1 line 2"),
    (K, "u = n + 8'd2; ---", "u = n + 8'd2; update(s, u + g); ---", "accepted stages 3 depth 3", "refused G1 line 2"),
    (updated(2), "", "", "accepted stages 4 depth 4", "refused G1 line 3"),
    (updated(2), "update(s, n + 8'd2)", "update = n", "refused G1 line 3", "accepted stages 4 depth 4"),
    (updated(2), "update(s", "update(u", "refused N1 line 3", "refused G1 line 3"),
    (updated(2), "g = n[0:0];", "update(s, n);", "refused N3 line 1", "refused G1 line 1"),
    (updated(2), "update(s, n + 8'd2)", "update(s, g)", "refused W5 line 3", "refused G1 line 3"),
    (updated(2), "update(s, n + 8'd2);\n", "if (g) { update(s, n); --- }\n", "refused F1 line 3", "refused G1 line 3"),
    (updated(2), "spec_call(n + 8'd1);", "spec_call(n + 8'd1); update(s, n);", "refused S6 line 1", "refused G1 line 1"),
    (updated(2), "update(s, n + 8'd2);", "update(s, u);\nupdate(s, u);", "refused S6 line 4", "refused G1 line 3"),
    (updated(2), "verify(s, u);", "verify(s, u); update(s, u);", "refused S6 line 6", "refused G1 line 3"),
    (updated(2), "update(s, n + 8'd2);", "if (g) { update(s, u); } else { update(s, n); }", "accepted stages 4 depth 4",
     "refused G1 line 3"),
    (updated(2), "update(s, n + 8'd2);\n---", "if (g) { update(s, u); }\n---\nif (g) { } else { update(s, n); }",
     "refused S7 line 5", "refused G1 line 3"),
    (M, "", "", "accepted stages 8 depth 6", "refused F2 line 4"),
    (M_GUESSED, "", "", "accepted stages 9 depth 7", "refused G1 line 1"),
    (M, "---\nif", "if", "refused F2 line 3"),
    (M, "---\n}", "}", "refused F2 line 4"),
    (nested(4), "", "", "accepted stages 9 depth 9", "refused F2 line 3"),
    (nested(5), "", "", "refused F2 line 6", "refused F2 line 3"),
]

# A dump of two cycles, what it says, and texts that say nothing.
DUMP = """$timescale 1 ns $end
$scope module pdl_p $end
$var wire 1 ! v_0 $end
$var wire 2 " ca_m $end
$upscope $end
$enddefinitions $end
#1
b1 !
b00 "
#3
b01 "
#5
"""
SAID = "p: v_0 1, ca_m 2: 1 0, 1 0, 1 1, 1 1"
NO_DUMPS = [
    DUMP[:-1],
    DUMP.replace("#5\n", ""),
    DUMP.replace("#5", "#3"),
    DUMP.replace("#5", "#05"),
    DUMP.replace("#5\n", "#5\nb0 !\n"),
    DUMP.replace('b01 "\n', ""),
    DUMP.replace('b01 "', 'b00 "'),
    DUMP.replace('b01 "', 'b1 "'),
    DUMP.replace('b01 "', 'b01 !'),
    DUMP.replace('b01 "', 'b01 #'),
    DUMP.replace('b1 !\nb00 "', 'b00 "\nb1 !'),
    DUMP.replace('b1 !\n', ""),
    DUMP.replace("#1", "#2"),
    DUMP.replace('2 " ca_m', '2 # ca_m'),
    DUMP.replace('2 " ca_m', '129 " ca_m'),
    DUMP.replace("$upscope", "$scope"),
    DUMP.replace(" ns", "  ns"),
]


def says(text):
    """What a dump says: its name, its ports, and their values in each cycle."""
    try:
        wave = dump.Wave(text)
    except dump.NoDump:
        return "nothing"
    ports = ", ".join(f"{name} {width}" for name, width in wave.ports)
    return f"{wave.name}: {ports}: " + ", ".join(" ".join(map(str, row)) for row in wave.rows())


def shown(make, *given):
    """What a command prints, or its refusal, as lines joined by commas."""
    try:
        return ", ".join(make(*given))
    except Refused as refusal:
        return str(refusal)


def delay_rows(layout, delays):
    return files.read_delays(layout.pipe, delays.replace(" ", "\n"))


def run(source, image, cycles, delays, forms=TAKEN):
    layout = rules.checked(source, forms)
    return files.run_lines(layout, files.read_image(layout.pipe, image), cycles, delay_rows(layout, delays))


def view(source, cycles, delays, forms=TAKEN):
    layout = rules.checked(source, forms)
    return files.view_lines(layout, files.read_image(layout.pipe, EMPTY), cycles, delay_rows(layout, delays))


def sequential(source, threads, forms=TAKEN):
    layout = rules.checked(source, forms)
    return files.seq_lines(layout, files.read_image(layout.pipe, EMPTY), threads)


def ports(source, cycles, forms):
    layout = rules.checked(source, forms)
    return [[files.port_line(layout, it) for it in files.turns(layout, files.read_image(layout.pipe, EMPTY), cycles)][-1]]


def check(source, forms=TAKEN):
    layout = rules.checked(source, forms)
    return [f"accepted stages {layout.count} depth {layout.depth()}"]


def rows():
    """Each row's name, what came and what had to come."""
    yield from runs("", TAKEN, RUNS, VIEWS, SEQUENTIAL)
    yield from runs("forms: ", ALL, FORM_RUNS, FORM_VIEWS, FORM_SEQUENTIAL)
    for number, (source, answer) in enumerate(CHECKS, 1):
        yield f"check {number}", shown(check, source), answer
        yield f"check {number} with all forms", shown(check, source, ALL), answer
    for number, (source, cycles, line) in enumerate(FORM_PORTS, 1):
        yield f"ports {number}", shown(ports, source, cycles, ALL), line
    for number, (source, old, new, answer, *without) in enumerate(FORM_CHECKS, 1):
        changed = source.replace(old, new, 1) if old else source
        yield f"check of forms {number}", old in source and shown(check, changed, ALL), answer
        yield f"check without forms {number}", shown(check, changed, Forms(0)), (without or [answer])[0]
    yield "dump", says(DUMP), SAID
    for number, text in enumerate(NO_DUMPS, 1):
        yield f"no dump {number}", says(text), "nothing"
    yield "codes", " ".join(map(dump.code, [0, 93, 94, 95, 187, 188, 8929])), "! ~ !! !\" !~ \"! ~~"
    wrapped = shown(run, A, EMPTY, 17, "").split(", ")
    yield "arguments wrap", ", ".join(wrapped[15:17]), "16 m 3 0f, 17 m 0 00"


def runs(which, forms, run_rows, view_rows, sequential_rows):
    """The rows of runs of a language with some forms."""
    for number, (source, image, cycles, delays, lines, counts) in enumerate(run_rows, 1):
        last = "end cycles {} ended {} waits {} squashes {}".format(*counts.split())
        yield f"{which}run {number}", shown(run, source, image, cycles, delays, forms), ", ".join(filter(None, [lines, last]))
    for number, (source, cycles, delays, lines) in enumerate(view_rows, 1):
        yield f"{which}view {number}", shown(view, source, cycles, delays, forms), lines
    for number, (source, threads, lines) in enumerate(sequential_rows, 1):
        yield f"{which}seq {number}", shown(sequential, source, threads, forms), f"{lines}, end threads {threads}"


def main():
    usage.words(__doc__, 0, 0)
    failed = [(name, came, due) for name, came, due in rows() if came != due]
    for name, came, due in failed:
        print(f"{name}: came {came}; due {due}")
    print(f"{sum(1 for _ in rows())} rows, {len(failed)} failed")
    return 1 if failed else 0


if __name__ == "__main__":
    usage.runs(main)
