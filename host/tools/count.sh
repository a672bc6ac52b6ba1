#!/bin/sh
# count.sh BENCH PROBLEM WHAT L [MORE]: x86-64 instructions for each entry of one call of a benchmark, ours or the original's (oracle/bench):
# those of 1 + MORE calls less those of 1, over MORE and the entries (MORE is 10 where nothing is said). By valgrind's callgrind where it is
# there, else by count-insns.sh beside this file.
set -eu
here=$(cd "$(dirname "$0")" && pwd)
bench=$1 problem=$2 what=$3 l=$4 more=${5:-10}
case $problem in hall) entries=72000 ;; medium) entries=1000000 ;; *) entries=16777216 ;; esac
export RAYON_NUM_THREADS=1
counted() {
    if command -v valgrind >/dev/null; then
        valgrind --tool=callgrind --callgrind-out-file=/dev/null "$bench" count "$problem" "$what" "$l" "$1" 2>&1 | sed -n 's/.*Collected : //p'
    else
        # each step of "rep stosb" counts as an instruction there, and long fills take it: keep them from it
        GLIBC_TUNABLES=glibc.cpu.x86_rep_stosb_threshold=1073741824:glibc.cpu.x86_rep_movsb_threshold=1073741824 \
            "$here/count-insns.sh" "" "$bench" count "$problem" "$what" "$l" "$1" 2>&1 >/dev/null | sed -n 's/^insns *\([0-9]*\) *(all).*/\1/p'
    fi
}
one=$(counted 1)
all=$(counted $((1 + more)))
awk -v a="$one" -v b="$all" -v m="$more" -v n="$entries" -v p="$problem" -v w="$what" -v l="$l" \
    'BEGIN { printf "%-7s %-9s L=%-6s %14.0f a call %8.2f an entry\n", p, w, l, (b - a) / m, (b - a) / m / n }'
