#!/bin/sh
# Megabytes a second and the most memory of reading a bundle, beside Python's json module on the same text, in one run.
# Usage: bench/bundle.sh [MB], 60 by default. The bundle is one tenant whose seed has rows of three cells. Each figure
# is the median of three runs. Ours is a whole run of `apexd turns -`, which ends behind the reading, since the last tenant
# has the name of the first; Python's has json.loads of the same text, without the start of its process. A ratio above 1
# says that ours is faster, or takes less memory.
set -eu
top=$(CDPATH='' cd -- "$(dirname -- "$0")/.." && pwd)
mb=${1:-60}
program=$top/crates/apexd/out/apexd
folder=$(mktemp -d)
trap 'rm -rf "$folder"' EXIT
(cd "$top/crates/apexd" && rt run </dev/null >/dev/null 2>&1) || true
awk -v bytes=$((mb * 1000000)) 'BEGIN {
    printf "{\"version\":1,\"tenants\":[{\"name\":\"acme\",\"users\":[{\"name\":\"ann\"}],\"objects\":[],\"units\":[],\"sessions\":[],\"seed\":[{\"object\":\"Account\",\"rows\":["
    for (n = 0; size < bytes; n++) {
        row = sprintf("%s{\"Id\":\"001%012d\",\"Name\":\"account %d\",\"Amount\":%d}", n ? "," : "", n, n, n % 1000)
        size += length(row)
        printf "%s", row
    }
    printf "]}]},{\"name\":\"acme\",\"users\":[{\"name\":\"ann\"}],\"objects\":[],\"units\":[],\"sessions\":[]}]}\n"
}' >"$folder/bundle.json"
cat >"$folder/peer.py" <<'PY'
import json, sys, time
text = sys.stdin.read()
start = time.perf_counter_ns()
value = json.loads(text)
print(time.perf_counter_ns() - start, len(value))
PY
# Prints the nanoseconds that a command tells, or else those of its run, and its most memory in MB.
cat >"$folder/run.py" <<'PY'
import resource, subprocess, sys, time
start = time.perf_counter_ns()
told = subprocess.run(sys.argv[2:], stdin=open(sys.argv[1]), capture_output=True, text=True).stdout.split()[0]
took = time.perf_counter_ns() - start
print(told if told.isdigit() else took, resource.getrusage(resource.RUSAGE_CHILDREN).ru_maxrss // 1024)
PY
median() {
    for _ in 1 2 3; do python3 "$folder/run.py" "$folder/bundle.json" "$@"; done | sort -n | sed -n 2p
}
ours=$(median "$program" turns -)
peer=$(median python3 "$folder/peer.py")
awk -v mb="$mb" -v ours="$ours" -v peer="$peer" 'BEGIN {
    split(ours, o, " "); split(peer, p, " ")
    printf "bundle %7.1f MB/s %6d MB\npython %7.1f MB/s %6d MB\nratio  %7.2f      %6.2f\n", mb * 1e9 / o[1], o[2], mb * 1e9 / p[1], p[2], p[1] / o[1], p[2] / o[2]
}'
