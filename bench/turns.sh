#!/bin/sh
# Turns a second of the turn lock, beside a plain mutex of the standard library on the same work, in one run. Each
# turn adds one entry to a list. Usage: bench/turns.sh [TURNS], the turns of all workers together; a million by
# default. Each figure is the median of five runs; a ratio above 1 says that the turn lock is faster.
set -eu
top=$(CDPATH='' cd -- "$(dirname -- "$0")/.." && pwd)
all=${1:-1000000}
program=$top/crates/turn_bench/out/turn_bench
(cd "$top/crates/turn_bench" && rt run >/dev/null 2>&1)

# The median of five runs, in turns a second.
speed() {
    for _ in 1 2 3 4 5; do
        "$program" "$1" "$2" $((all / $2))
    done | sort -n | sed -n 3p | awk '{ printf "%d", $2 * 1000000000 / $1 }'
}

printf '%7s %12s %12s %6s\n' workers 'turn lock/s' 'mutex/s' ratio
for workers in 1 2 4; do
    lock=$(speed turns "$workers")
    mutex=$(speed mutex "$workers")
    awk -v w="$workers" -v l="$lock" -v m="$mutex" 'BEGIN { printf "%7d %12d %12d %6.2f\n", w, l, m, l / m }'
done
