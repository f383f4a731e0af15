#!/usr/bin/env bash
# Builds the oracle and the benchmark below target/bench and runs it; the tables are printed.
# `scale` fails if the time a byte grows with the text by more than caches explain.
# Usage: run.sh SRC [growth | scale | curly | plain | loop OPERATION KIND SIZE SECONDS], SRC the folder that holds crates/hypuz_notation/src
set -euo pipefail
root=$(cd "$(dirname "$0")/.." && pwd)
src=${1:?the folder of the published Rust}
shift
exec "$("$root/bench/build.sh" "$src" "$root")" "$@"
