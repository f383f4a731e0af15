#!/usr/bin/env bash
# Everything that is run beside the gate, on the archive of this checkout: some fifteen minutes, and five more where the crates are not proved yet.
#   tests/run.sh [SRC]      SRC: the folder that holds the published Rust, crates/hypuz_notation/src, to compare with it too
# Each run says what it did. The last line is 'N passed, M failed, K skipped', and the exit status is 0 where none failed.
set -u
root=$(cd "$(dirname "$0")/.." && pwd)
cd "$root" || exit 2
src=${1:-}
[ -z "$src" ] || src=$(cd "$src" && pwd) || exit 2
log=$root/target/run
rm -rf "$log" && mkdir -p "$log"
passed=0
failed=0
skipped=0

# run NAME COMMAND..: the last lines of what it writes are shown; all of them are kept, and shown where it fails.
run() {
    local name=$1 began=$SECONDS
    shift
    echo "== $name"
    if "$@" >"$log/$name" 2>&1; then
        passed=$((passed + 1))
        tail -n "$shown" "$log/$name" | cut -c 1-200 | sed 's/^/   /'
        echo "   passed ($((SECONDS - began)) s)"
    else
        failed=$((failed + 1))
        tail -n 60 "$log/$name" | sed 's/^/   /'
        echo "   FAILED ($((SECONDS - began)) s); all of it: target/run/$name"
    fi
}

skip() {
    echo "== $1"
    echo "   skipped: $2"
    skipped=$((skipped + 1))
}

has() {
    command -v "$1" >/dev/null
}

# The stored vectors are what the reference and the Rust's sample give today.
vectors() {
    mkdir -p "$log/made"
    python3 tests/reference/vectors.py "$log/made" && cmp "$log/made/stdin" crates/vectors/stdin && cmp "$log/made/stdout" crates/vectors/stdout
}

lister() {
    for seed in 11 12 13 14 15; do python3 tests/reference/lister_cases.py target/bin/lister $seed || return 1; done
}

# The inputs over which it takes longest: none over a tenth of a second.
lister_worst() {
    python3 bench/lister.py target/bin/lister 0.1
}

# Whether clang can link libFuzzer and AddressSanitizer.
can_fuzz() {
    has clang && echo 'int LLVMFuzzerTestOneInput(const char *d, unsigned long n) { (void)d; (void)n; return 0; }' |
        clang -x c -fsanitize=fuzzer,address -o "$log/can_fuzz" - 2>/dev/null
}

fuzz() {
    tests/fuzz/run.sh 60
}

shown=1
run archive tools/archive.sh
run lister-program tools/lister.sh
run layout tests/layout.sh --check
shown=12
if has python3; then
    run vectors vectors
    run lister lister
    run lister-worst lister_worst
    run wrong python3 tests/wrong.py tests/wrong
else
    for name in vectors lister lister-worst wrong; do skip $name "needs python3 (package python3)"; done
fi
if has cc; then
    run host tests/host/run.sh
else
    skip host "needs a C compiler (package gcc)"
fi
if has python3 && has cc && has c++; then
    run header tests/host/header.sh
else
    skip header "needs python3 and compilers of C and C++ (packages python3, gcc, g++)"
fi
if has python3; then
    run forms tests/forms/run.sh
else
    skip forms "needs python3 (package python3)"
fi
if has python3 && has cc; then
    run damaged python3 tests/oracle/damaged.py 60000 1
    run undo python3 tests/oracle/undo.py 10000 1
else
    for name in damaged undo; do skip $name "needs python3 and a C compiler (packages python3, gcc)"; done
fi
if [ -z "$src" ]; then
    for name in characters oracle reference compare compare-long; do skip $name "give the folder of the published Rust: tests/run.sh SRC"; done
elif ! has cargo; then
    for name in characters oracle reference compare compare-long; do skip $name "needs cargo and rustc (packages cargo, rustc)"; done
else
    run characters tests/oracle/characters.sh "$src"
    run oracle tests/oracle/build.sh "$src"
    run reference python3 tests/oracle/compare_reference.py target/oracle/target/release/oracle 100000
    run compare target/oracle/target/release/compare 100000 1
    run compare-long target/oracle/target/release/compare long 48 1
fi
if can_fuzz; then
    run fuzz fuzz
else
    skip fuzz "needs clang with libFuzzer and AddressSanitizer (packages clang, libclang-rt-14-dev)"
fi
echo "$passed passed, $failed failed, $skipped skipped"
[ "$failed" -eq 0 ]
