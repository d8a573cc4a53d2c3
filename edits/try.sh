#!/bin/sh
# Tries the edits of edits/ that the gate leaves out, of the crates named or of all: the prover must refuse each.
# Usage: edits/try.sh [CRATE...]. It works on a copy of the checkout, begins with what `rt check` left there, and ends
# with the status of `rt must-fail`.
set -eu
top=$(CDPATH='' cd -- "$(dirname -- "$0")/.." && pwd)
folder=$(mktemp -d)
trap 'rm -rf "$folder"' EXIT
cp -R "$top/." "$folder"
[ $# -gt 0 ] || set -- $(cd "$top/edits" && ls -d -- */ | tr -d /)
for crate; do
    if [ ! -d "$folder/edits/$crate" ]; then
        echo "edits/try.sh: no edits of a crate named $crate" >&2
        exit 2
    fi
    rm -f "$folder/crates/$crate"/must-fail/*.edit
    mkdir -p "$folder/crates/$crate/must-fail"
    mv "$folder/edits/$crate"/*.edit "$folder/crates/$crate/must-fail/"
done
cd "$folder"
rt must-fail "$@"
