#!/usr/bin/env bash
# Puts the code, the definitions and the proofs of all crates into the layout of `rt fmt`, or with --check says which files are not in it. The gate refuses those.
#   tests/layout.sh [--check]
set -eu
root=$(cd "$(dirname "$0")/.." && pwd)
copy=$(mktemp -d)
trap 'rm -rf "$copy"' EXIT
cd "$root"
cp crates.txt "$copy"
for crate in crates/*; do
    mkdir -p "$copy/$crate"
    for part in src specs proofs; do
        [ ! -d "$crate/$part" ] || cp -r "$crate/$part" "$copy/$crate"
    done
    (cd "$copy/$crate" && rt fmt) >"$copy/said" || { cat "$copy/said"; exit 1; }
done
found=0
while read -r file; do
    if ! cmp -s "$copy/$file" "$file"; then
        found=$((found + 1))
        if [ "${1:-}" = --check ]; then
            echo "$file is not in the layout"
        else
            cp "$copy/$file" "$file"
        fi
    fi
done < <(cd "$copy" && find crates -name '*.rt' -o -name '*.antt')
if [ "${1:-}" = --check ]; then
    echo "$found files are not in the layout"
    [ "$found" -eq 0 ]
else
    echo "$found files changed"
fi
