#!/usr/bin/env bash
# Builds the Rust oracle out of the published files of hypuz_notation and the stubs beside this script, below target/oracle: `oracle`, and
# `compare`, which is linked with the archive.
# Usage: build.sh SRC, the folder that holds crates/hypuz_notation/src
set -euo pipefail
here=$(cd "$(dirname "$0")" && pwd)
root=$(cd "$here/../.." && pwd)
src=$(cd "${1:?the folder of the published Rust}" && pwd)/crates/hypuz_notation/src
out=$root/target/oracle
export HYPUZ_ARCHIVE=$root/target/staticlib/libhypuz_notation.a HYPUZ_HEADER=$root/include/hypuz_notation.h
[ -f "$HYPUZ_ARCHIVE" ] || "$root/tools/archive.sh"
rm -rf "$out/src" && mkdir -p "$out/src/layer"
cp "$src"/{common,expand,invert,unspanned}.rs "$out/src/"
# `bool::toggle` is newer than this Rust; the only line changed in a carried file (`!prefix`, which nothing here calls).
sed -i 's/self\.invert\.toggle();/self.invert = !self.invert;/' "$out/src/unspanned.rs"
cp "$src"/layer/{count,mask,range,signed,unsigned}.rs "$out/src/layer/"
cp "$here"/stubs/{lib,spanned,layer}.rs "$out/src/"
cp "$here"/{main,compare,generate,layers,long,ours,places}.rs "$out/src/"
rm -rf "$out/thiserror" "$out/bitvec"
cp -r "$here"/stubs/{bitvec,thiserror} "$here/Cargo.toml" "$here/build.rs" "$out/"
cargo build --offline --release --quiet --manifest-path "$out/Cargo.toml"
echo "$out/target/release/oracle"
echo "$out/target/release/compare"
