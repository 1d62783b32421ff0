#!/bin/sh
# Counts the instructions of the proved readers and of the plain C readers on
# the same lines, in one run under callgrind, and prints them side by side.
#
# Builds the proved library first, unless PROVED_LIB names an archive to use.
# Needs cc and valgrind.
set -eu

bench=$(cd "$(dirname "$0")" && pwd)
root=$(dirname "$bench")

if [ -n "${PROVED_LIB:-}" ]; then
    library=$PROVED_LIB
else
    "$root/tools/staticlib" linebench >&2
    library=$root/target/staticlib/liblinebench.a
fi

work=$(mktemp -d)
trap 'rm -rf "$work"' EXIT
trap 'exit 1' HUP INT TERM

# Functions of shared libraries are looked up at start (-z now), so that no
# case pays for it.
cc -std=c11 -O2 -Wall -Wextra -Wl,-z,now -o "$work/bench" \
    "$bench/main.c" "$bench/plain.c" "$library"

if ! valgrind --tool=callgrind --callgrind-out-file="$work/out" \
    "$work/bench" >"$work/results" 2>"$work/log"; then
    cat "$work/results" "$work/log" >&2
    exit 1
fi
cat "$work/results"
echo

callgrind_annotate --inclusive=yes --threshold=100 "$work/out" >"$work/costs"

# A line of costs is: 1,234 (5.6%)  file:function [object]
LC_ALL=C awk '
    match($0, /:run_(proved|plain)_[a-z_]+/) {
        name = substr($0, RSTART + 1, RLENGTH - 1)
        count = $1
        gsub(/,/, "", count)
        cost[name] = count
    }
    END {
        split("order_short order_long order_spaced hierarchy order_refused", cases, " ")
        printf "%-14s %12s %12s %6s\n", "case", "proved", "plain", "ratio"
        for (i = 1; i in cases; i++) {
            proved = cost["run_proved_" cases[i]]
            plain = cost["run_plain_" cases[i]]
            if (!proved || !plain) {
                print "no count for " cases[i] > "/dev/stderr"
                exit 1
            }
            printf "%-14s %12d %12d %6.2f\n", cases[i], proved, plain, proved / plain
        }
    }
' "$work/costs"
