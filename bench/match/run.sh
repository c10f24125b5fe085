#!/bin/sh
# What an allocation costs, beside a plain C++ deferred acceptance with heaps on the same markets: bench/match/run.sh
#
# Both programs allot the same markets in the same run, and must give the same. It prints the microseconds of each,
# their ratio, and how the time grows with the list entries. The times are the least of five runs; the proved program's
# are those of `Problem::new` and of `offers`.
set -eu
here=$(cd "$(dirname "$0")" && pwd)
root=$(cd "$here/../.." && pwd)
work=$(mktemp -d)
trap 'rm -rf "$work"' EXIT
(cd "$root/crates/match_runs" && rt run > "$work/build.log" 2>&1) || { cat "$work/build.log"; exit 1; }
program=$root/crates/match_runs/out/match_runs
"${CXX:-clang++}" -O2 -std=c++17 -o "$work/baseline" "$here/baseline.cpp"

# the smallest value of a field over five runs
least() {
    field=$1
    shift
    for _ in 1 2 3 4 5; do "$@"; done | sed -n "s/.*$field \([0-9]*\).*/\1/p" | sort -n | head -1
}

market() {
    ours=$("$program" "$@" | sed -n 1p)
    theirs=$("$work/baseline" "$@" | sed -n 1p)
    if [ "$ours" != "$theirs" ]; then
        echo "different: $ours / $theirs"
        exit 1
    fi
    posed=$(least posed "$program" "$@")
    allotted=$(least allotted "$program" "$@")
    plain=$(least allotted "$work/baseline" "$@")
    awk -v e="$1" -v w="$2" -v s="$3" -v n="$posed" -v a="$allotted" -v b="$plain" 'BEGIN {
        printf "%6d entrants, %2d wishes, %3d schools: Problem::new %7d us, offers %7d us, C++ %6d us, ratio %.1f, %.3f us an entry\n", e, w, s, n, a, b, a / b, a / (e * w)
    }'
}

market 2000 6 200
market 5000 8 200
market 10000 10 400
market 20000 10 400
