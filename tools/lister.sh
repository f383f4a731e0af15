#!/bin/sh
# Builds the lister, target/bin/lister: proves the crate lister and all that it stands on, and runs it once on its stored input.
set -eu
root=$(cd "$(dirname "$0")/.." && pwd)
(cd "$root/crates/lister" && rt run <stdin) >/dev/null
mkdir -p "$root/target/bin"
cp "$root/crates/lister/out/lister" "$root/target/bin/lister"
