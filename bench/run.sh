#!/bin/sh
# How long code runs, beside python3 on the same code, in one run: loops of sums, lists, texts that grow, and calls of a recursive
# method. Usage: bench/run.sh [PROGRAM], which is apexd as it was built by default. Each figure is the median of five runs of a
# whole process, less that of an empty block or an empty script. A ratio above 1 says that apexd is faster.
set -eu
top=$(CDPATH='' cd -- "$(dirname -- "$0")/.." && pwd)
program=${1:-$top/crates/apexd/out/apexd}
folder=$(mktemp -d)
trap 'rm -rf "$folder"' EXIT
[ -n "${1:-}" ] || (cd "$top/crates/apexd" && rt run </dev/null >/dev/null 2>&1) || true

: >"$folder/empty.apex"
: >"$folder/empty.py"
cat >"$folder/sums.apex" <<'A'
Integer s = 0; for (Integer i = 0; i < 449990; i++) { s = s + i * 2 - (s / 3); } System.debug(s);
A
cat >"$folder/sums.py" <<'P'
def main():
    s = 0
    i = 0
    while i < 449990:
        s = s + i * 2 - s // 3
        i += 1
    print(s)
main()
P
cat >"$folder/nested.apex" <<'A'
Integer n = 0; for (Integer i = 0; i < 600; i++) { for (Integer j = 0; j < 400; j++) { if (j < i) { n += j; } else { n -= i; } } } System.debug(n);
A
cat >"$folder/nested.py" <<'P'
def main():
    n = 0
    for i in range(600):
        for j in range(400):
            if j < i:
                n += j
            else:
                n -= i
    print(n)
main()
P
cat >"$folder/lists.apex" <<'A'
List<Integer> l = new List<Integer>(); for (Integer i = 0; i < 150000; i++) { l.add(i); } Integer s = 0; for (Integer i = 0; i < 150000; i++) { s += l[i]; } System.debug(s);
A
cat >"$folder/lists.py" <<'P'
def main():
    l = []
    i = 0
    while i < 150000:
        l.append(i)
        i += 1
    s = 0
    i = 0
    while i < 150000:
        s += l[i]
        i += 1
    print(s)
main()
P
cat >"$folder/texts.apex" <<'A'
String s = ''; for (Integer i = 0; i < 4000; i++) { s = s + 'ab'; } System.debug(s.length());
A
cat >"$folder/texts.py" <<'P'
def main():
    s = ''
    i = 0
    while i < 4000:
        s = s + 'ab'
        i += 1
    print(len(s))
main()
P

# A bundle of one tenant, whose session runs this block once.
bundle() {
    printf '{"version":1,"tenants":[{"name":"t","users":[{"name":"u"}],"objects":[],"units":[{"name":"F","text":"%s"}],"sessions":[{"user":"u","requests":[{"apex":"%s"}]}]}]}' "$1" "$2"
}
unit='public class F { public static Integer fib(Integer n) { if (n < 2) { return n; } return fib(n - 1) + fib(n - 2); } }'
bundle "$unit" 'System.debug(F.fib(22));' >"$folder/calls.apex"
bundle "$unit" 'System.debug(1);' >"$folder/uncalled.apex"
cat >"$folder/calls.py" <<'P'
def fib(n):
    if n < 2:
        return n
    return fib(n - 1) + fib(n - 2)
print(fib(22))
P

# The nanoseconds of a run, the median of five.
median() {
    for _ in 1 2 3 4 5; do
        python3 -c 'import subprocess, sys, time
start = time.perf_counter_ns()
subprocess.run(sys.argv[2:], stdin=open(sys.argv[1]), stdout=subprocess.DEVNULL)
print(time.perf_counter_ns() - start)' "$@"
    done | sort -n | sed -n 3p
}

# A name, ours and theirs.
tell() {
    awk -v name="$1" -v ours="$2" -v peer="$3" 'BEGIN {
        printf "%-8s apexd %8.1f ms   python3 %8.1f ms   ratio %.2f\n", name, ours / 1e6, peer / 1e6, peer / ours
    }'
}

ours_empty=$(median "$folder/empty.apex" "$program" exec)
peer_empty=$(median /dev/null python3 "$folder/empty.py")
for name in sums nested lists texts; do
    ours=$(median "$folder/$name.apex" "$program" exec)
    peer=$(median /dev/null python3 "$folder/$name.py")
    tell "$name" $((ours - ours_empty)) $((peer - peer_empty))
done
ours_empty=$(median "$folder/uncalled.apex" "$program" turns -)
tell calls $(($(median "$folder/calls.apex" "$program" turns -) - ours_empty)) $(($(median /dev/null python3 "$folder/calls.py") - peer_empty))
