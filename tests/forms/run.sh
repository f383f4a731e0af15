#!/usr/bin/env bash
# Runs the two forms after the core, `Reader` and `ranges::simplify`, on inputs: a small program over the sources as they stand, by `rt try`, on the kit's
# interpreter and compiled with checks, without a proof of the program itself. The calls and the lines that they are to write come from cases.py.
set -euo pipefail
root=$(cd "$(dirname "$0")/../.." && pwd)
out=$root/target/forms
python3 "$root/tests/unproved.py" --copy "$out"
main=$out/crates/forms/src/main.rt
mkdir -p "$(dirname "$main")"
echo "forms: layer notation parsed parse ranges reader record" >>"$out/crates.txt"
cat >"$out/program" <<'PROGRAM'
use layer::{Layer, LayerRange};
use notation::features;
use notation::features::Features;
use notation::refusals::Refusal;
use parse::parse_notation;
use parsed::Parsed;
use reader::Reader;
use record::RECORD;
use record::encode::Fields;
use std::io;

// Room for ten records.
const TREE: usize = 10 * RECORD;

fn answer(rt: &impl Print, a: Result<u64, Refusal>) -> io::Result<()> {
    match a {
        Ok(n) => print!(rt; "{n} "),
        Err(refusal) => print!(rt; "refused {} ", refusal.number()),
    }
}

fn ranges_of(rt: &impl Print, text: &[u8], record: u64, max_layer: u32, negatives: bool) -> io::Result<()> {
    let mut tree = [0u8; TREE];
    let Ok(size) = parse_notation(text, features::maximal(), &mut tree) else {
        return Ok(());
    };
    let end = size as usize;
    let mut run = [LayerRange { min: Layer(7), max: Layer(77) }; 3];
    answer(rt, ranges::simplify(text, &tree[0..end], record, max_layer, negatives, &mut run))?;
    for range in run {
        print!(rt; "{} {} ", range.min.0, range.max.0)?;
    }
    println!(rt; "")
}

fn leaf(rt: &impl Print, a: Option<Parsed<Fields>>) -> io::Result<()> {
    let Some(read) = a else {
        return print!(rt; "nothing ");
    };
    let f = read.value;
    print!(rt; "{} {} {} {} {} ", f.small, f.number, f.family.offset, f.family.size, read.next)
}

fn walked(rt: &impl Print, text: &[u8], features: Features) -> io::Result<()> {
    let mut r = Reader::new(text);
    r.skip_whitespace();
    leaf(rt, r.leaf(features))?;
    match r.constraint_set() {
        Some(next) => print!(rt; "{next} ")?,
        None => print!(rt; "none ")?,
    }
    print!(rt; "{} ", r.multiplier(features))?;
    if r.at_end() {
        print!(rt; "end")?;
    }
    println!(rt; "")
}

fn first(rt: &impl Print, text: &[u8]) -> io::Result<()> {
    leaf(rt, reader::first_leaf(text, features::maximal()))?;
    println!(rt; "")
}

fn main(rt: HostRuntime) -> io::Result<()> {
PROGRAM
# In pieces, since the interpreter takes at most 20 million steps.
python3 "$root/tests/forms/cases.py" "$out"
for calls in "$out"/calls.*; do
    cat "$out/program" "$calls" - >"$main" <<<$'    Ok(())\n}'
    (cd "$out/crates/forms" && rt try </dev/null) >"$out/wrote" 2>"$out/said" || { cat "$out/said"; exit 1; }
    grep -q "runners=2" "$out/said" || { cat "$out/said"; exit 1; }
    cmp "$out/wrote" "${calls/calls./lines.}"
done
echo "$(cat "$out"/lines.* | wc -l) cases agree, on the interpreter and compiled with checks"
