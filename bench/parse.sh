#!/bin/sh
# Megabytes a second of the lexer and the parser of classes, beside javac's on the same text, in one run. The text is a
# class that both languages have. Usage: bench/parse.sh [MB], 10 by default. Each figure is the median of five runs;
# javac's has the start of its process in it, and it stops behind its parser; ours has the lexing and the parsing alone.
# A ratio above 1 says that ours is faster.
set -eu
top=$(CDPATH='' cd -- "$(dirname -- "$0")/.." && pwd)
mb=${1:-10}
program=$top/crates/parser_bench/out/parser_bench
folder=$(mktemp -d)
trap 'rm -rf "$folder"' EXIT
(cd "$top/crates/parser_bench" && rt run >/dev/null 2>&1 </dev/null) || true
awk -v bytes=$((mb * 1000000)) 'BEGIN {
    printf "public class Big {\n"
    for (n = 0; size < bytes; n++) {
        method = sprintf("    public static Integer total_%d(Integer first, List<Integer> rows) {\n        Integer sum = first * (rows.get(%d) + %d) - 7;\n        if (sum >= 10 && first != sum) { sum++; } else { sum = sum - 1; }\n        for (Integer i = 0; i < sum; i++) { sum = sum / 2; } // halves\n        return sum;\n    }\n", n, n % 50, n % 1000)
        size += length(method)
        printf "%s", method
    }
    printf "}\n"
}' >"$folder/Big.java"

median() {
    sort -n | sed -n 3p
}

ours=$(for _ in 1 2 3 4 5; do "$program" time <"$folder/Big.java" | cut -d' ' -f1; done | median)
peer=$(for _ in 1 2 3 4 5; do
    start=$(date +%s%N)
    javac -proc:none -XDshould-stop.ifError=PARSE -XDshould-stop.ifNoError=PARSE -d "$folder" "$folder/Big.java"
    echo $(($(date +%s%N) - start))
done | median)
awk -v mb="$mb" -v o="$ours" -v p="$peer" 'BEGIN {
    printf "parse %7.1f MB/s\njavac %7.1f MB/s\nratio %7.2f\n", mb * 1e9 / o, mb * 1e9 / p, p / o
}'
