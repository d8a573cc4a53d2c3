#!/bin/sh
# How the time of the checker grows with the text of a tenant's classes: the time for twice as much text over that for
# the text, in one run. Usage: bench/check.sh [MB], 5 by default, which is the text of the smaller one. Each figure is the
# median of five runs, and has the check alone, without lexing and parsing. A ratio of 2 says that the time grows like
# the text; the last line says so where it is at most 2.2.
set -eu
top=$(CDPATH='' cd -- "$(dirname -- "$0")/.." && pwd)
mb=${1:-5}
program=$top/crates/checker_bench/out/checker_bench
folder=$(mktemp -d)
trap 'rm -rf "$folder"' EXIT
(cd "$top/crates/checker_bench" && rt run >/dev/null 2>&1 </dev/null) || true

# A bundle with so many bytes of classes: each tenth one has no parent, and the next nine each extend the one before.
bundle() {
    awk -v bytes="$1" 'BEGIN {
        printf "{\"version\":1,\"tenants\":[{\"name\":\"acme\",\"users\":[{\"name\":\"ann\"}],\"objects\":[{\"name\":\"Account\",\"prefix\":\"001\",\"default\":\"Edit\",\"fields\":[{\"name\":\"Name\",\"type\":\"Text\"}]}],\"sessions\":[],\"units\":["
        for (n = 0; size < bytes; n++) {
            parent = n % 10 ? sprintf(" extends Class%d", n - 1) : ""
            class = sprintf("public virtual class Class%d%s { static Integer count_%d = %d; protected Long total_%d; ", n, parent, n, n, n)
            for (k = 0; k < 20; k++) {
                class = class sprintf("public static Integer sum_%d_%d(Integer first, List<Integer> rows) { Integer sum = first * (rows.get(%d) + count_%d) - 7; if (sum >= 10 && first != sum) { sum++; } else { sum = sum - Class%d.count_%d; } for (Integer i = 0; i < sum; i++) { sum += Class%d.sum_%d_%d(i, rows) / 2; } return sum; } ", n, k, k, n, n, n, n, n, (k + 1) % 20)
                class = class sprintf("public virtual Long get_%d_%d(Account a) { String text = a.Name + %d; for (Account b : [SELECT Id, Name FROM Account WHERE Name = :text LIMIT 5]) { total_%d = text.length() + b.Name.length(); } return total_%d + get_%d_%d(a); } ", n, k, k, n, n, n, (k + 1) % 20)
            }
            class = class "}"
            size += length(class)
            printf "%s{\"name\":\"Class%d\",\"text\":\"%s\"}", n ? "," : "", n, class
        }
        printf "]}]}\n"
    }'
}
bundle $((mb * 1000000)) >"$folder/once.json"
bundle $((mb * 2000000)) >"$folder/twice.json"

median() {
    for _ in 1 2 3 4 5; do "$program" time <"$folder/$1.json" | cut -d' ' -f1; done | sort -n | sed -n 3p
}
once=$(median once)
twice=$(median twice)
awk -v mb="$mb" -v once="$once" -v twice="$twice" 'BEGIN {
    printf "%4d MB %8.1f ms %7.1f MB/s\n", mb, once / 1e6, mb * 1e9 / once
    printf "%4d MB %8.1f ms %7.1f MB/s\n", 2 * mb, twice / 1e6, 2 * mb * 1e9 / twice
    printf "ratio %.2f, %s\n", twice / once, (twice <= 2.2 * once) ? "linear" : "not linear"
}'
