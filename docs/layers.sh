#!/bin/sh
# Prints the table of crates for docs/architecture.md: by layers, each crate once, with the first sentence of its root
# file. A crate stands in the first layer above all that crates.txt names for it.
# Usage: docs/layers.sh
set -eu
cd "$(dirname "$0")/.."
awk -F: '
    /^[a-z]/ { name = $1; sub(/ .*/, "", name); needs[name] = $2; order[++n] = name }
    function layer(c,    d, i, list, k, most) {
        if (c in known) return known[c]
        k = split(needs[c], list, " "); most = 0
        for (i = 1; i <= k; i++) if (list[i] in needs) { d = layer(list[i]); if (d > most) most = d }
        return known[c] = most + 1
    }
    END { for (i = 1; i <= n; i++) print layer(order[i]), order[i] }
' crates.txt | sort -k1,1n -k2,2 | while read -r layer crate; do
    root=crates/$crate/src/lib.rt
    [ -f "$root" ] || root=crates/$crate/src/main.rt
    what=$(sed -n 's|^//! \{0,1\}||p' "$root" | tr '\n' ' ' | sed 's/\. .*/./; s/ *$//')
    printf '| %s | `%s` | %s |\n' "$layer" "$crate" "$what"
done
