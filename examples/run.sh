#!/bin/sh
# Runs the bundles of this folder and compares the output of each with the text beside it, in which ops=# stands for any
# number. Usage: examples/run.sh [PROGRAM], ./apexd by default. It ends with 1 where one differs.
set -eu
folder=$(CDPATH='' cd -- "$(dirname -- "$0")" && pwd)
program=${1:-$folder/../apexd}
status=0
for bundle in "$folder"/*.json; do
    due=${bundle%.json}.txt
    if "$program" turns - <"$bundle" | sed 's/ops=[0-9]* /ops=# /' | cmp -s - "$due"; then
        echo "$(basename "$bundle"): as it should be"
    else
        echo "$(basename "$bundle"): differs"
        status=1
    fi
done
exit $status
