#!/usr/bin/env bash
# Builds the fuzz target with libFuzzer and AddressSanitizer and runs it for some seconds, from the texts of the stored sample.
# Usage: run.sh SECONDS
set -euo pipefail
here=$(cd "$(dirname "$0")" && pwd)
root=$(cd "$here/../.." && pwd)
out=$root/target/fuzz
lib=$root/target/staticlib/libhypuz_notation.a
[ -f "$lib" ] || "$root/tools/archive.sh"
mkdir -p "$out/corpus" "$out/found"
clang -g -O1 -Wall -Wextra -fsanitize=fuzzer,address -I "$root/include" "$here/fuzz.c" "$lib" -o "$out/fuzz"
python3 "$here/seeds.py" "$root/tests/oracle/sample.tsv" "$out/corpus"
cd "$out"
# Archive code is not instrumented: coverage comes from the target's own branches, so the seeds and the dictionary carry the search.
exec ./fuzz -max_total_time="${1:?seconds}" -dict="$here/notation.dict" -artifact_prefix="$out/found/" -max_len=2048 -print_final_stats=1 -use_value_profile=1 corpus
