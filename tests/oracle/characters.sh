#!/usr/bin/env bash
# Compares `classify`, `is_family_char`, `is_prime` and `is_whitespace` of the crate `charsets` with the Rust over every code point: with its charsets.rs as it is
# published, and with `char::is_whitespace`. The Rust has no class of primes (document 02, request 6); characters.rs names them. No C function of the library answers
# these, so a small crate of its own, below target/characters, makes them callable.
# Usage: characters.sh SRC, the folder that holds crates/hypuz_notation/src
set -euo pipefail
here=$(cd "$(dirname "$0")" && pwd)
root=$(cd "$here/../.." && pwd)
src=$(cd "${1:?the folder of the published Rust}" && pwd)/crates/hypuz_notation/src
out=$root/target/characters
mkdir -p "$out/crates/classes/src"
for c in notation charsets; do
    rm -rf "$out/crates/$c" && mkdir "$out/crates/$c"
    for part in src specs proofs; do
        [ ! -d "$root/crates/$c/$part" ] || cp -r "$root/crates/$c/$part" "$out/crates/$c/"
    done
done
printf '%s\n' 'notation:' 'charsets: notation' 'classes staticlib: notation charsets' >"$out/crates.txt"
cat >"$out/crates/classes/src/lib.rt" <<'CRATE'
// The character tests of `charsets`, for a host.
#![tactic(auto)]

use charsets::classify;
use charsets::is_family_char;
use charsets::is_prime;
use charsets::is_whitespace;
use notation::char_set::CharSet;

// 0 outside, else 1 and on in the order of the Rust's enum, and 7 for the primes.
#[unsafe(no_mangle)]
pub extern "C" fn class_of(c: u32) -> u32 {
    match classify(c) {
        Some(set) => match set {
            CharSet::LowercaseLatin => 1,
            CharSet::UppercaseLatin => 2,
            CharSet::UppercaseGreek => 3,
            CharSet::TallLowercaseGreek => 4,
            CharSet::ShortLowercaseGreek => 5,
            CharSet::Underscore => 6,
            CharSet::Prime => 7,
        },
        None => 0,
    }
}

#[unsafe(no_mangle)]
pub extern "C" fn family_char(c: u32) -> u32 {
    is_family_char(c) as u32
}

#[unsafe(no_mangle)]
pub extern "C" fn prime(c: u32) -> u32 {
    is_prime(c) as u32
}

#[unsafe(no_mangle)]
pub extern "C" fn white_space(c: u32) -> u32 {
    is_whitespace(c) as u32
}
CRATE
(cd "$out/crates/classes" && rt lib) >"$out/said" 2>&1 || { cat "$out/said"; exit 1; }
cp "$src/charsets.rs" "$here/characters.rs" "$out/"
rustc --edition 2024 -O -A dead_code -C link-arg="$out/crates/classes/out/libclasses.a" -o "$out/characters" "$out/characters.rs"
"$out/characters"
