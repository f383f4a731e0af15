//! Times the C functions of the archive against the Rust's own on the same texts in one run, and prints tables in Markdown.
//!
//! `bench` prints the tables; `bench curly` that of texts with curly primes alone; `bench growth` how seeking and counting grow; `bench scale` how the time a byte of ours holds from 64 KB up to the longest text, and
//! fails where it does not (scale.rs); `bench loop OPERATION KIND SIZE SECONDS` calls one of ours again and again, for a profiler;
//! `bench plain` prints the times of ours alone, a line each with tabs between, to be put beside those of another archive (turns.py); `bench text KIND SIZE` a text (instructions.py).
mod ours;
mod reader;
mod scale;

use hypuz_notation::*;
use ours::RECORD;
use std::fmt::Write;
use std::hint::black_box;
use std::time::{Duration, Instant};

const KINDS: [&str; 6] = ["moves", "groups", "sets", "constraints", "square-1", "megaminx"];
const SIZES: [usize; 3] = [100, 3_000, 64_000];
const OPERATIONS: [&str; 12] =
    ["read", "display", "inv", "inv_deep", "flatten", "count", "seek", "seek last", "ranges", "ranges of one record", WITH_TILDE, OF_ONE_WITH_TILDE];
const WITH_TILDE: &str = "ranges with a tilde";
const OF_ONE_WITH_TILDE: &str = "ranges of one record with a tilde";
/// A move's tilde, in the first byte of its record.
const TILDE: u8 = 8;
const ROUNDS: usize = 4;
const SAMPLES: usize = 7;
const SAMPLE: f64 = 2e6;
const AXIS: AxisLayersInfo = AxisLayersInfo { max_layer: 9, allow_negatives: true };

/// What a call of ours needs.
#[derive(Clone)]
struct Case {
    text: String,
    tree: Vec<u8>,
    steps: u64,
    /// The number of the move whose layer ranges are asked for.
    record: Option<u64>,
}

/// The same text as the Rust has it too.
struct Both {
    ours: Case,
    list: NodeList,
    /// The layers of the move of `Case::record`.
    layers: Option<LayerPrefixContents>,
}

struct Random(u64);

impl Random {
    fn pick<T: Copy>(&mut self, from: &[T]) -> T {
        self.0 = self.0.wrapping_mul(6364136223846793005).wrapping_add(1442695040888963407);
        from[(self.0 >> 33) as usize % from.len()]
    }
}

fn a_move(r: &mut Random) -> String {
    format!("{}{}{}", r.pick(&["R", "U", "F", "L", "B", "M", "x", "Rw", "IR"]), r.pick(&["", "", "", "2", "3"]), r.pick(&["", "", "'"]))
}

/// A piece of a text, and how many steps it unrolls into.
type Piece = (String, u64);

fn group(r: &mut Random, deep: usize) -> Piece {
    if deep == 0 || r.pick(&[true, false, false]) {
        return (a_move(r), 1);
    }
    let ((a, in_a), b, (c, in_c)) = (group(r, deep - 1), a_move(r), group(r, deep - 1));
    let (end, times) = r.pick(&[("", 1), ("", 1), ("'", 1), ("2", 2), ("2'", 2)]);
    let (text, steps) = match r.pick(&[0, 1, 2, 3]) {
        0 => (format!("[{a} {b}, {c}]{end}"), 2 * (in_a + 1 + in_c)),
        1 => (format!("[{a}: {b} {c}]{end}"), 2 * in_a + 1 + in_c),
        2 => (format!("!({a} {b} {c}){end}"), in_a + 1 + in_c),
        _ => (format!("({a} {c}){end}"), in_a + in_c),
    };
    (text, times * steps)
}

fn piece(r: &mut Random, kind: &str) -> Piece {
    let leaf = match kind {
        "moves" => a_move(r),
        "groups" => return group(r, 4),
        "sets" => {
            let layers = r.pick(&["{1,3..5,-2}", "2-3", "{-1..4}", "~3", "{1-3,7}", "{2,-4..-2,8,1..2}", "3"]);
            format!("{layers}{}", a_move(r))
        }
        "constraints" => {
            let end = r.pick(&["{R->F}", "{U->F,L<>B}", "{I}", "{R->U, F->L, B}2", "{A<>B}'", ""]);
            format!("{}{}{end}", r.pick(&["@", "@", "", "3"]), r.pick(&["U", "R", "IR", "F"]))
        }
        "square-1" => r.pick(&["(1, 0)", "/", "(-3,3)", "/", "(0,-1)", "/", "( 6 , -5 )", "(4, 1)"]).into(),
        "square-1 as printed" => r.pick(&["(1, 0)", "/", "(-3, 3)", "/", "(0, -1)", "/", "(6, -5)", "(4, 1)"]).into(),
        _ => r.pick(&["R++", "D--", "R--", "D++", "R++", "D--", "U", "U'"]).into(),
    };
    (leaf, 1)
}

/// Pieces one after another, with the same between any two, until a text of the size is full; and the steps of all.
fn filled(size: usize, between: &str, mut piece: impl FnMut(&mut Random) -> Piece) -> Piece {
    let mut r = Random(7);
    let (mut text, mut steps) = (String::new(), 0);
    loop {
        let (p, in_p) = piece(&mut r);
        // A piece that is too long for what is left is passed over, and the text is done when little is left.
        if text.len() + p.len() + between.len() <= size {
            text.push_str(if text.is_empty() { "" } else { between });
            text.push_str(&p);
            steps += in_p;
        }
        if text.len() + 8 >= size {
            return (text, steps);
        }
    }
}

fn text(kind: &str, size: usize) -> String {
    filled(size, " ", |r| piece(r, kind)).0
}

fn case(kind: &str, size: usize) -> Both {
    let text = text(kind, size);
    let list = reader::read(text.as_bytes()).expect("the plain reader takes every text");
    let tree = read(&text);
    let steps = ours::count_steps(text.as_bytes(), &tree).unwrap();
    let (record, layers) = middle(&tree, &list).unzip();
    let both = Both { ours: Case { text, tree, steps, record }, list, layers };
    agree(&both);
    both
}

/// The place that is sought: two thirds of the way, or the last, before which all that is passed over stands.
fn place(c: &Case, operation: &str) -> u64 {
    if operation == "seek last" { c.steps - 1 } else { c.steps * 2 / 3 }
}

/// The number of a move about the middle, with its layers as the Rust has them.
fn middle(tree: &[u8], list: &NodeList) -> Option<(u64, LayerPrefixContents)> {
    // Only lists without groups: there a record's number is the node's.
    let n = tree.len() / RECORD;
    let (i, mv) = list.iter().enumerate().skip(n / 2).find_map(|(i, x)| Some((i, x.as_move()?)))?;
    let flat = n == list.len();
    flat.then(|| (i as u64, mv.layers.contents.clone().unwrap_or(LayerPrefixContents::Single(Layer::SHALLOWEST))))
}

/// What is timed gives the same on both sides.
fn agree(both: &Both) {
    let (c, list) = (&both.ours, &both.list);
    let text = c.text.as_bytes();
    let printed = |tree: &[u8]| {
        let mut out = vec![0; 400 * c.text.len()];
        let n = ours::display(text, tree, &mut out).unwrap() as usize;
        String::from_utf8(out[..n].to_vec()).unwrap()
    };
    let mut out = vec![0; c.tree.len().max(RECORD * c.steps as usize)];
    assert_eq!(printed(&c.tree), list.to_string());
    let n = ours::inv(text, &c.tree, &mut out).unwrap() as usize;
    assert_eq!(printed(&out[..n]), list.clone().inv().unwrap().to_string());
    let n = ours::inv_deep(text, &c.tree, &mut out).unwrap() as usize;
    assert_eq!(printed(&out[..n]), list.clone().inv_deep().unwrap().to_string());
    let n = ours::flatten(text, &c.tree, &mut out).unwrap() as usize;
    let steps = list.flatten().unwrap();
    assert_eq!((printed(&out[..n]), n / RECORD), (steps.to_string(), steps.len()));
    ranges_agree(both);
}

/// Nanoseconds of a call: the best of several samples of about two milliseconds.
fn best(f: impl FnMut()) -> f64 {
    best_of(SAMPLE, f)
}

/// The best of several samples of about so many nanoseconds. The first call is not timed: it tells how many make a sample.
fn best_of(sample: f64, mut f: impl FnMut()) -> f64 {
    let start = Instant::now();
    f();
    let once = start.elapsed().as_nanos().max(20) as f64;
    let n = (sample / once).clamp(1.0, 100_000.0) as usize;
    (0..SAMPLES)
        .map(|_| {
            let start = Instant::now();
            (0..n).for_each(|_| f());
            start.elapsed().as_nanos() as f64 / n as f64
        })
        .fold(f64::MAX, f64::min)
}

/// The same where the call takes its argument or gives something to drop: neither making it nor dropping is timed.
fn best_apart<A, R>(make: impl Fn() -> A, f: impl Fn(A) -> R) -> f64 {
    let a = make();
    let start = Instant::now();
    let r = f(a);
    let once = start.elapsed().as_nanos().max(20) as f64;
    drop(r);
    let n = (SAMPLE / once).clamp(1.0, 2_000.0) as usize;
    (0..SAMPLES)
        .map(|_| {
            let args: Vec<A> = (0..n).map(|_| make()).collect();
            let mut results = Vec::with_capacity(n);
            let start = Instant::now();
            for a in args {
                results.push(f(a));
            }
            start.elapsed().as_nanos() as f64 / n as f64
        })
        .fold(f64::MAX, f64::min)
}

/// The tree and the number of the move whose layer ranges are asked for: the whole tree, or the move alone, which is a tree too over the same text; with a tilde put
/// in, or taken away.
fn asked(c: &Case, operation: &str) -> Option<(Vec<u8>, u64)> {
    let at = c.record? as usize * RECORD;
    let mut tree = c.tree.clone();
    let tilde = [WITH_TILDE, OF_ONE_WITH_TILDE].contains(&operation);
    tree[at] = tree[at] & !TILDE | if tilde { TILDE } else { 0 };
    let alone = operation.starts_with("ranges of one record");
    Some(if alone { (tree[at..][..RECORD].to_vec(), 0) } else { (tree, c.record?) })
}

/// What one would write with the Rust for a tilde, which its `simplify` does not know: the layers between what it gives.
fn others(contents: &LayerPrefixContents) -> Vec<LayerRange> {
    let range = |low, high| LayerRange::new(Layer::new(low).unwrap(), Layer::new(high).unwrap());
    let (mut found, mut next) = (vec![], 1);
    for given in contents.simplify(AXIS).map_or(vec![], |c| c.to_ranges(AXIS)) {
        if next < given.start().to_u16() {
            found.push(range(next, given.start().to_u16() - 1));
        }
        next = given.end().to_u16() + 1;
    }
    if next <= AXIS.max_layer {
        found.push(range(next, AXIS.max_layer));
    }
    found
}

/// Layer ranges are the same on both sides, with a tilde and without.
fn ranges_agree(both: &Both) {
    let Some(contents) = &both.layers else { return };
    let plain = contents.simplify(AXIS).map_or(vec![], |c| c.to_ranges(AXIS));
    for (operation, want) in [("ranges", &plain), ("ranges of one record", &plain), (WITH_TILDE, &others(contents)), (OF_ONE_WITH_TILDE, &others(contents))] {
        let (tree, record) = asked(&both.ours, operation).unwrap();
        let written: Vec<u8> = want.iter().flat_map(|r| [r.start(), r.end()]).flat_map(|l| l.to_u16().to_be_bytes()).collect();
        let mut out = vec![0; written.len()];
        let found = ours::simplify(both.ours.text.as_bytes(), &tree, record, AXIS.max_layer.into(), AXIS.allow_negatives, &mut out);
        assert_eq!((found, out), (Ok(want.len() as u64), written), "{operation}");
    }
}

/// One call of ours, with all that it needs at hand.
fn our_call<'a>(c: &'a Case, operation: &str) -> Option<Box<dyn FnMut() + 'a>> {
    let (text, tree) = (c.text.as_bytes(), &c.tree[..]);
    // Not of zeros, whose pages the system hands out only when they are first written: page faults are no part of a call's time.
    let mut out = vec![1u8; match operation {
        "display" => 2 * text.len() + 64,
        "flatten" => RECORD * c.steps as usize,
        _ => tree.len().max(4_000),
    }];
    Some(match operation {
        "read" => Box::new(move || assert!(black_box(ours::parse(black_box(text), ours::MAXIMAL, &mut out)).is_ok())),
        "display" => Box::new(move || assert!(black_box(ours::display(black_box(text), tree, &mut out)).is_ok())),
        "inv" => Box::new(move || assert!(black_box(ours::inv(black_box(text), tree, &mut out)).is_ok())),
        "inv_deep" => Box::new(move || assert!(black_box(ours::inv_deep(black_box(text), tree, &mut out)).is_ok())),
        "flatten" => Box::new(move || assert!(black_box(ours::flatten(black_box(text), tree, &mut out)).is_ok())),
        "count" => Box::new(move || assert!(black_box(ours::count_steps(black_box(text), tree)).is_ok())),
        "seek" | "seek last" => {
            let place = place(c, operation);
            Box::new(move || assert!(black_box(ours::seek_step(black_box(text), tree, place, &mut out)).is_ok()))
        }
        _ => {
            let (tree, record) = asked(c, operation)?;
            Box::new(move || {
                let a = ours::simplify(black_box(text), &tree, record, AXIS.max_layer.into(), AXIS.allow_negatives, &mut out);
                assert!(black_box(a).is_ok())
            })
        }
    })
}

/// The Rust's time for the same.
fn rust_time(both: &Both, operation: &str) -> f64 {
    let (c, list) = (&both.ours, &both.list);
    match operation {
        "read" => best_apart(|| (), |()| reader::read(black_box(c.text.as_bytes()))),
        "display" => {
            let mut out = String::with_capacity(2 * c.text.len() + 64);
            best(|| {
                out.clear();
                write!(out, "{}", black_box(list)).unwrap();
                black_box(&out);
            })
        }
        "inv" => best_apart(|| list.clone(), |l| l.inv()),
        "inv_deep" => best_apart(|| list.clone(), |l| l.inv_deep()),
        "flatten" | "count" => best_apart(|| (), |()| black_box(list).flatten()),
        "seek" | "seek last" => {
            let place = place(c, operation) as usize;
            best_apart(|| (), |()| black_box(list).flatten().map(|l| (l[place].clone(), l)))
        }
        WITH_TILDE | OF_ONE_WITH_TILDE => {
            let contents = both.layers.as_ref().unwrap();
            best_apart(|| (), |()| others(black_box(contents)))
        }
        _ => {
            let contents = both.layers.as_ref().unwrap();
            best_apart(|| (), |()| black_box(contents).simplify(AXIS))
        }
    }
}

fn shown(ns: f64) -> String {
    let us = ns / 1000.0;
    if us < 1.0 { format!("{us:.3}") } else if us < 100.0 { format!("{us:.1}") } else { format!("{us:.0}") }
}

fn rows(operation: &str, against: &str) {
    println!("| {operation} | records, steps at 64 KB |{}", SIZES.map(|n| format!(" {n} bytes: ours | {against} | × |")).join(""));
    println!("|---|---|{}", "---:|---:|---:|".repeat(SIZES.len()));
    for kind in KINDS {
        let mut line = String::new();
        let mut about = String::new();
        for size in SIZES {
            let both = case(kind, size);
            let c = &both.ours;
            about = format!("{}, {}", c.tree.len() / RECORD, c.steps);
            let Some(mut call) = our_call(c, operation) else { continue };
            // In turns, so that a busy machine slows neither alone.
            let (mut ours, mut rust) = (f64::MAX, f64::MAX);
            for _ in 0..ROUNDS {
                ours = ours.min(best(&mut call));
                rust = rust.min(if against == "from_utf8" { utf8_time(c) } else { rust_time(&both, operation) });
            }
            let ratio = ours / rust;
            write!(line, " {} | {} | {ratio:.*} |", shown(ours), shown(rust), if ratio < 10.0 { 2 } else { 0 }).unwrap();
        }
        if !line.is_empty() {
            println!("| {kind} | {about} |{line}");
        }
    }
    println!();
}

/// A text as a word processor writes it: one sign and the other in turns for the apostrophes.
fn curly(text: &str) -> String {
    let mut signs = ["\u{2019}", "\u{2032}"].into_iter().cycle();
    text.split('\'').map(str::to_owned).reduce(|a, b| a + signs.next().unwrap() + &b).unwrap()
}

/// Reading texts with curly primes under their flag, against what one would write with the Rust: apostrophes put in their place, then the plain reader.
fn curly_rows() {
    println!("| read with curly primes |{}", SIZES.map(|n| format!(" {n} bytes with apostrophes: ours | replaced, plain reader | × |")).join(""));
    println!("|---|{}", "---:|---:|---:|".repeat(SIZES.len()));
    for kind in KINDS.into_iter().filter(|kind| text(kind, 1_000).contains('\'')) {
        print!("| {kind} |");
        for size in SIZES {
            let text = curly(&text(kind, size));
            let replaced = || reader::read(black_box(&text).replace(['\u{2019}', '\u{2032}'], "'").as_bytes());
            let mut out = vec![1; RECORD * text.len()];
            let mut call = || ours::parse(black_box(text.as_bytes()), ours::MAXIMAL | ours::CURLY_PRIMES, &mut out);
            let used = call().expect("the archive takes every text") as usize;
            let (mut ours, mut rust) = (f64::MAX, f64::MAX);
            for _ in 0..ROUNDS {
                ours = ours.min(best(|| assert!(black_box(call()).is_ok())));
                rust = rust.min(best_apart(|| (), |()| replaced()));
            }
            print!(" {} | {} | {:.2} |", shown(ours), shown(rust), ours / rust);
            let (mut printed, tree) = (vec![0; 2 * text.len() + 64], &out[..used]);
            let n = ours::display(text.as_bytes(), tree, &mut printed).unwrap() as usize;
            assert_eq!(std::str::from_utf8(&printed[..n]).unwrap(), replaced().unwrap().to_string());
        }
        println!();
    }
    println!();
}

fn utf8_time(c: &Case) -> f64 {
    best(|| {
        black_box(std::str::from_utf8(black_box(c.text.as_bytes()))).unwrap();
    })
}

/// A text read, with as many bytes for its tree as it can need.
fn read(text: &str) -> Vec<u8> {
    let mut tree = vec![0; RECORD * text.len()];
    let used = ours::parse(text.as_bytes(), ours::MAXIMAL, &mut tree).expect("the archive takes every text") as usize;
    tree.truncate(used);
    tree
}

const LEVELS: [usize; 5] = [0, 8, 16, 32, 64];
const GROUPS: [usize; 5] = [500, 1_000, 2_000, 4_000, 8_000];
const MOVES: [usize; 5] = [100, 200, 400, 800, 1_500];

const NESTED: &str = "levels round 4,000 moves";
const BESIDE: &str = "groups of three records";
const INSIDE: &str = "moves in each of 20 groups";

/// A text of a kind: so many bytes, levels, groups or moves.
fn any_text(kind: &str, size: usize) -> String {
    match kind {
        NESTED => "(".repeat(size) + &vec!["R"; 4_000].join(" ") + &")".repeat(size),
        BESIDE => vec!["[R, U]"; size].join(" "),
        INSIDE => vec![format!("({})", vec!["R"; size].join(" ")); 20].join(" ") + " U",
        _ => text(kind, size),
    }
}

/// Seeking the last step, and counting, which checks and visits the same records: nanoseconds.
fn last_and_count(text: &str) -> (f64, f64) {
    let (text, tree, mut step) = (text.as_bytes(), read(text), [0; RECORD]);
    let steps = ours::count_steps(text, &tree).unwrap();
    let seek = best(|| assert!(black_box(ours::seek_step(text, black_box(&tree), steps - 1, &mut step)).is_ok()));
    let count = best(|| assert_eq!(black_box(ours::count_steps(text, black_box(&tree))), Ok(steps)));
    (seek, count)
}

/// Seeking the last step by depth, by groups to be passed over, and by what these hold.
fn passed() {
    for levels in LEVELS {
        let (seek, count) = last_and_count(&any_text(NESTED, levels));
        println!("Seeking the last of 4,000 steps, {levels} levels deep: {} µs; counting them: {} µs.", shown(seek), shown(count));
    }
    for groups in GROUPS {
        let (seek, count) = last_and_count(&any_text(BESIDE, groups));
        println!("Seeking the last step of {groups} groups: {} µs; counting them: {} µs.", shown(seek), shown(count));
    }
    for moves in MOVES {
        let (seek, count) = last_and_count(&any_text(INSIDE, moves));
        println!("Seeking the step after 20 groups of {moves} moves: {} µs; counting them: {} µs.", shown(seek), shown(count));
    }
}

/// Times of ours alone: operation, kind, size, nanoseconds.
fn plain() {
    for kind in KINDS {
        for size in SIZES {
            let c = case(kind, size).ours;
            for operation in OPERATIONS {
                if let Some(mut call) = our_call(&c, operation) {
                    println!("{operation}\t{kind}\t{size}\t{}", best(&mut call));
                }
            }
        }
    }
    for (kind, sizes) in [(NESTED, LEVELS), (BESIDE, GROUPS), (INSIDE, MOVES)] {
        for size in sizes {
            let (seek, count) = last_and_count(&any_text(kind, size));
            println!("seek last\t{kind}\t{size}\t{seek}\ncount\t{kind}\t{size}\t{count}");
        }
    }
}

/// Seeking must not grow with the number of steps, and counting no faster than the number of records.
fn growth() {
    for (text, place) in [("((R)2)2", 3), ("((R)65535)65537", 4_294_967_294)] {
        let (tree, mut step) = (read(text), [0; RECORD]);
        let time = best(|| assert!(black_box(ours::seek_step(text.as_bytes(), black_box(&tree), place, &mut step)).is_ok()));
        println!("Seeking place {place} of `{text}`: {time:.0} ns.");
    }
    for records in [500, 1_000, 2_000, 4_000, 8_000, 16_000] {
        let text = vec!["R"; records].join(" ");
        let tree = read(&text);
        let time = best(|| assert_eq!(black_box(ours::count_steps(text.as_bytes(), black_box(&tree))), Ok(records as u64)));
        println!("Counting {records} records: {:.1} ns a record.", time / records as f64);
    }
}

fn profile(args: &[String]) {
    let kind = KINDS.into_iter().find(|k| *k == args[1]).expect("a kind");
    let c = case(kind, args[2].parse().expect("a size")).ours;
    let mut call = our_call(&c, &args[0]).expect("an operation");
    let end = Instant::now() + Duration::from_secs_f64(args[3].parse().expect("seconds"));
    while Instant::now() < end {
        (0..20).for_each(|_| call());
    }
}

fn main() {
    let args: Vec<String> = std::env::args().skip(1).collect();
    if args.first().is_some_and(|a| a == "loop") {
        return profile(&args[1..]);
    }
    if args.first().is_some_and(|a| a == "plain") {
        return plain();
    }
    if args.first().is_some_and(|a| a == "text") {
        return print!("{}", any_text(&args[1], args[2].parse().expect("a size")));
    }
    if args.first().is_some_and(|a| a == "curly") {
        return curly_rows();
    }
    if args.first().is_some_and(|a| a == "scale") {
        std::process::exit(if scale::run() { 0 } else { 1 });
    }
    if args.first().is_some_and(|a| a == "growth") {
        growth();
        return passed();
    }
    println!("Microseconds of a call, best of {} samples of 2 ms or one call; × is ours divided by the other.\n", ROUNDS * SAMPLES);
    rows("read", "plain reader");
    rows("read", "from_utf8");
    curly_rows();
    for operation in &OPERATIONS[1..] {
        rows(operation, match *operation {
            "display" => "Display",
            "count" => "flatten",
            "seek" | "seek last" => "flatten and index",
            "ranges" | "ranges of one record" => "simplify",
            WITH_TILDE | OF_ONE_WITH_TILDE => "simplify and a loop",
            other => other,
        });
    }
    growth();
    passed();
}
