#!/usr/bin/env bash
# Times `check` of a program `pdl`, which is given, on sources that ask most of it; prints each answer with its seconds.
# The last source has 256 MiB; its memory is measured too where GNU time is there. docs/measured.md has the figures.
set -u
if [ "$*" = --help ]; then
    sed -n '2,/^set/ { s/^# //p }' "${BASH_SOURCE[0]}"
    exit 0
fi
[ $# -eq 1 ] && [ -x "$1" ] || { echo "check.sh: it takes one word, a program; --help tells how it is called" >&2; exit 1; }
program=$(realpath "$1") || exit 1
folder=$(mktemp -d) || exit 1
trap 'rm -rf "$folder"' EXIT
cd "$folder" || exit 1

# 510 bindings, and a call with as many arguments of the last one as fit into 1 MiB
awk 'BEGIN {
    print "pipe p(n: uint<1>)[m: uint<8>[2] comb] {"
    for (k = 0; k < 510; k++) printf "x%d = n;\n", k
    printf "call(x509"
    for (k = 0; k < 200000; k++) printf ",x509"
    print "); } start p(1'"'"'d0);"
}' > arguments.pdl

# writes of 256 operands
awk 'BEGIN {
    print "pipe p(n: uint<1>)[m: uint<1>[2] comb lock queue(1)] {"
    for (k = 0; k < 1000; k++) { printf "m[n]<-n"; for (j = 0; j < 255; j++) printf " + n"; print ";" }
    print "call(n); } start p(1'"'"'d0);"
}' > operands.pdl

# extensions in one another, as deep as brackets may be
awk 'BEGIN {
    print "pipe p(n: uint<1>)[m: uint<8>[2] comb] {"
    for (k = 0; k < 510; k++) {
        printf "x%d = ", k
        for (j = 0; j < 62; j++) printf "zext("
        printf "n"
        for (j = 0; j < 62; j++) printf ", %d)", j + 2
        print ";"
    }
    print "call(n); } start p(1'"'"'d0);"
}' > extensions.pdl

# 1,024 statements under 10 guards, with 16 memories
awk 'BEGIN {
    printf "pipe p(n: uint<4>)["
    for (k = 0; k < 16; k++) printf "%sm%d: uint<4>[16] comb lock bypass(4)", (k ? ", " : ""), k
    print "] {"
    for (k = 0; k < 10; k++) printf "g%d = n[%d:%d];\n", k, k % 4, k % 4
    for (k = 0; k < 16; k++) printf "if (g%d) { acquire(m%d[n], W); m%d[n] <- n; release(m%d[n]); }\n", k % 10, k, k, k
    print "call(n);"
    left = 1024 - 10 - 16 * 5 - 1
    for (k = 0; k + 2 <= left; k += 2) printf "if (g%d) { y%d = n; }\n", k % 10, k
    print "} start p(4'"'"'d0);"
}' > guards.pdl

# 2 MiB, of which only the last word is out of place
{ echo "pipe p(n: uint<1>)[m: uint<8>[2] comb] { call(n);"
  awk 'BEGIN { for (k = 0; k < 32768; k++) print "// a comment of sixty-four bytes, its line feed among these ones" }'
  echo "} start p(1'd0) }"; } > late.pdl

# 256 MiB of the same
{ echo "pipe p(n: uint<1>)[m: uint<8>[2] comb] {"
  awk 'BEGIN { for (k = 0; k < 33000000; k++) print "x=n+n;" }'
  echo "call(n); } start p(1'd0);"; } > longest.pdl

for name in arguments operands extensions guards late longest; do
    before=$(date +%s%N)
    "$program" check "$name.pdl" > out 2>&1
    after=$(date +%s%N)
    printf '%-12s %9d bytes  %6d ms  %s\n' "$name" "$(stat -c %s "$name.pdl")" $(((after - before) / 1000000)) "$(cat out)"
done
if [ -x /usr/bin/time ]; then
    /usr/bin/time -f 'longest      %M kB of memory' "$program" check longest.pdl > out 2> memory
    tail -1 memory
fi
