#!/usr/bin/env bash
# Builds the oracle and the benchmark of this checkout below target/bench, linked with the archive and the header of any checkout, and prints where the program is.
# Usage: build.sh SRC CHECKOUT, SRC the folder that holds crates/hypuz_notation/src
set -euo pipefail
here=$(cd "$(dirname "$0")" && pwd)
root=$(cd "$here/.." && pwd)
checkout=$(cd "${2:?a checkout with its archive}" && pwd)
"$root/tests/oracle/build.sh" "${1:?the folder of the published Rust}" >&2
out=$root/target/bench
export HYPUZ_ARCHIVE=$checkout/target/staticlib/libhypuz_notation.a HYPUZ_HEADER=$checkout/include/hypuz_notation.h
[ -f "$HYPUZ_ARCHIVE" ] || "$checkout/tools/archive.sh" >&2
rm -rf "$out/src" && mkdir -p "$out/src" "$out/programs"
cp "$here"/{main,reader,scale}.rs "$root/tests/oracle/ours.rs" "$out/src/"
cp "$here/Cargo.toml" "$root/tests/oracle/build.rs" "$out/"
cargo build --offline --release --quiet --manifest-path "$out/Cargo.toml"
# One program for each archive, so that two can be run in turns.
program=$out/programs/$(sha256sum "$HYPUZ_ARCHIVE" | cut -c 1-12)
cp "$out/target/release/bench" "$program"
echo "$program"
