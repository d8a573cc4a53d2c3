#!/bin/sh
# Megabytes a second of the lexer, beside clang's lexer and preprocessor on the same text, in one run. The text is
# statements that both languages have. Usage: bench/lex.sh [MB], 20 by default. Each figure is the median of five
# runs; clang's has the start of its process and its preprocessing, ours the lexing alone. A ratio above 1 says that
# ours is faster.
set -eu
top=$(CDPATH='' cd -- "$(dirname -- "$0")/.." && pwd)
mb=${1:-20}
program=$top/crates/lexer_bench/out/lexer_bench
folder=$(mktemp -d)
trap 'rm -rf "$folder"' EXIT
(cd "$top/crates/lexer_bench" && rt run >/dev/null 2>&1)
awk -v bytes=$((mb * 1000000)) 'BEGIN {
    for (n = 0; size < bytes; n++) {
        line = sprintf("    total_%d = first * (second + %d) - rows[%d].Amount; // the sum so far\n    if (total_%d >= 10 && name != '"'"'x'"'"') { total_%d++; } /* or not */\n", n % 1000, n, n % 50, n % 1000, n % 1000)
        size += length(line)
        printf "%s", line
    }
}' >"$folder/text.c"

median() {
    sort -n | sed -n 3p
}

ours=$(for _ in 1 2 3 4 5; do "$program" time <"$folder/text.c" | cut -d' ' -f1; done | median)
peer=$(for _ in 1 2 3 4 5; do
    start=$(date +%s%N)
    clang -cc1 -Eonly -w "$folder/text.c"
    echo $(($(date +%s%N) - start))
done | median)
awk -v mb="$mb" -v o="$ours" -v p="$peer" 'BEGIN {
    printf "lex   %7.1f MB/s\nclang %7.1f MB/s\nratio %7.2f\n", mb * 1e9 / o, mb * 1e9 / p, p / o
}'
