#!/bin/sh
# Builds the C archive, target/staticlib/libhypuz_notation.a: proves the crate hypuz_notation_c and all that it stands on.
set -eu
root=$(cd "$(dirname "$0")/.." && pwd)
(cd "$root/crates/hypuz_notation_c" && rt lib)
mkdir -p "$root/target/staticlib"
cp "$root/crates/hypuz_notation_c/out/libhypuz_notation_c.a" "$root/target/staticlib/libhypuz_notation.a"
