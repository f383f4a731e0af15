//! Compares the C functions of the archive with the Rust on trees made at random.
//!
//! The Rust's trees have no step counts. The counts that reading, both inverses, unrolling and seeking store are compared with `stored` below, a plain sum over the
//! Rust's tree as document 02 has it; the lists, offsets and lengths that reading writes, with places.rs; all other fields, by what is printed and answered.
//!
//! The Rust's `simplify` knows no tilde: layer ranges with one are compared with the layers that its answer leaves (document 02, request 3), and all with its own mask.
//!
//! `compare [TREES] [SEED]` prints how often each comparison was made and how often it differed, with the shortest text that differs; it fails
//! also where one with or without a tilde was never made.
//! `compare long [TEXTS] [SEED]` does so on texts of over 65,536 bytes, and prints how many of them have what; it fails also where one of its comparisons was
//! never made or no text had one of the things that it is for.
//! `compare sample [SEED]` writes 300 cases with the Rust's answers, which are not taken from the archive.
#[path = "generate.rs"]
mod generate;
#[path = "layers.rs"]
mod layers;
#[path = "long.rs"]
mod long;
#[path = "ours.rs"]
mod ours;
#[path = "places.rs"]
mod places;

use generate::Random;
use hypuz_notation::*;
use long::WIDE;
use ours::{CURLY_PRIMES, MAXIMAL, RECORD};
use places::{Fields, Place};
use std::collections::{BTreeMap, HashMap};

/// How much is asked of a tree.
struct Limits {
    /// The longest list that the Rust is asked for, and the most visits that it may take over one.
    steps: u128,
    visits: u128,
    /// Each call checks the whole tree: of a tree over 60 records some so many are taken for layer ranges and families, else all.
    records: u64,
    /// Records and places that are taken besides.
    besides: &'static [u64],
}

const SHORT: Limits = Limits { steps: 5_000, visits: 200_000, records: 40, besides: &[] };
/// Besides, it is looked at where 16 bits end.
const LONG: Limits = Limits { steps: 2_000_000, visits: 20_000_000, records: 6, besides: &[65_534, 65_535, 65_536, 65_537] };
/// Every shape three times: some 35 seconds.
const LONG_TEXTS: u64 = 3 * long::SHAPES;
const MOST_STEPS: u128 = u32::MAX as u128;
/// What a record stores for every count above MOST_STEPS; the field is the last of a record, 5 bytes, most significant first.
const CAP: u128 = MOST_STEPS + 1;
const COUNT: usize = 5;
/// A move's tilde, in the first byte of its record.
const TILDE: u8 = 8;
const FILL: u8 = 0xa5;
const GUARD: usize = 8;
/// Bytes that are shown of a text over 65,535 bytes where it differs; a shorter one is shown whole.
const SHOWN: usize = 400;

/// What the Rust answers: the value, or the number of the refusal.
type Answer<T> = Result<T, u8>;

fn invert_refusal(e: InvertError) -> u8 {
    match e {
        InvertError::NissNodeCannotBeInverted => 7,
        InvertError::IntegerOverflow => 8,
    }
}

fn expand_refusal(e: ExpandError) -> u8 {
    match e {
        ExpandError::NissNodeCannotBeExpanded => 7,
        ExpandError::Invert(e) => invert_refusal(e),
    }
}

/// Steps and visits of lists, each list once in each direction, to keep off trees over which the Rust would take for ever.
#[derive(Default)]
struct Tally(HashMap<(*const NodeList, bool), Answer<(u128, u128)>>);

/// What a group repeats, in order.
fn parts(n: &Node, inverted: bool) -> Vec<(&NodeList, bool)> {
    match n {
        Node::Group(g) => vec![(&g.contents, inverted != (g.multiplier.0 < 0))],
        Node::BinaryGroup(g) => {
            let d = inverted != (g.multiplier.0 < 0);
            match g.kind {
                BinaryGroupKind::Commutator => {
                    let (a, b) = if d { (&g.rhs, &g.lhs) } else { (&g.lhs, &g.rhs) };
                    vec![(a, false), (b, false), (a, true), (b, true)]
                }
                BinaryGroupKind::Conjugate => vec![(&g.lhs, false), (&g.rhs, d), (&g.lhs, true)],
            }
        }
        _ => vec![],
    }
}

fn repeats(n: &Node) -> u128 {
    match n {
        Node::Group(Group { multiplier, .. }) | Node::BinaryGroup(BinaryGroup { multiplier, .. }) => multiplier.0.unsigned_abs().into(),
        _ => 1,
    }
}

impl Tally {
    /// Steps and visits, or the refusal that is met first.
    fn list(&mut self, l: &NodeList, inverted: bool) -> Answer<(u128, u128)> {
        if let Some(known) = self.0.get(&(l as *const _, inverted)) {
            return *known;
        }
        let mut sum = (0u128, 1u128);
        let mut found = Ok(());
        let nodes: Vec<&Node> = if inverted { l.iter().rev().collect() } else { l.iter().collect() };
        for n in nodes {
            match self.node(n, inverted) {
                Ok((steps, visits)) => sum = (sum.0.saturating_add(steps), sum.1.saturating_add(visits)),
                Err(e) => {
                    found = Err(e);
                    break;
                }
            }
        }
        let answer = found.map(|()| sum);
        self.0.insert((l as *const _, inverted), answer);
        answer
    }

    fn node(&mut self, n: &Node, inverted: bool) -> Answer<(u128, u128)> {
        match n {
            Node::Group(Group { kind: GroupKind::Niss, .. }) => Err(7),
            Node::Group(_) | Node::BinaryGroup(_) => {
                let times = repeats(n);
                let mut once = (0u128, 0u128);
                if times > 0 {
                    for (l, d) in parts(n, inverted) {
                        let (steps, visits) = self.list(l, d)?;
                        once = (once.0.saturating_add(steps), once.1.saturating_add(visits));
                    }
                }
                Ok((once.0.saturating_mul(times), once.1.saturating_mul(times).saturating_add(1)))
            }
            _ if inverted => n.clone().inv().map(|_| (1, 1)).map_err(invert_refusal),
            _ => Ok((1, 1)),
        }
    }

    /// The step at a place, which is below the count.
    fn step(&mut self, l: &NodeList, inverted: bool, mut place: u128) -> Node {
        let nodes: Vec<&Node> = if inverted { l.iter().rev().collect() } else { l.iter().collect() };
        for n in nodes {
            let steps = self.node(n, inverted).unwrap().0;
            if place >= steps {
                place -= steps;
                continue;
            }
            let parts = parts(n, inverted);
            if parts.is_empty() {
                return if inverted { n.clone().inv().unwrap() } else { n.clone() };
            }
            place %= steps / repeats(n);
            for (l, d) in parts {
                let steps = self.list(l, d).unwrap().0;
                if place < steps {
                    return self.step(l, d, place);
                }
                place -= steps;
            }
        }
        unreachable!("the place is below the count")
    }
}

/// Every node in reading order, so that an index is a record's number.
fn records<'a>(l: &'a NodeList, out: &mut Vec<&'a Node>) {
    for n in l {
        out.push(n);
        match n {
            Node::Group(g) => records(&g.contents, out),
            Node::BinaryGroup(g) => {
                records(&g.lhs, out);
                records(&g.rhs, out);
            }
            _ => {}
        }
    }
}

/// The counts that the records of a tree are to store, in reading order.
fn stored(l: &NodeList) -> Vec<u64> {
    let mut out = vec![];
    total(l, &mut out);
    out
}

/// The steps of a list, with each NISS group as none; the counts of its records are put to `out`. The sum is not capped, but 64 groups of 2^31 repeats pass
/// 128 bits, so it stops at the largest number.
fn total(l: &NodeList, out: &mut Vec<u64>) -> u128 {
    l.iter().fold(0, |sum: u128, n| sum.saturating_add(own(n, out)))
}

/// The steps of a node, its repeats included. What stands in a NISS group has its own counts all the same.
fn own(n: &Node, out: &mut Vec<u64>) -> u128 {
    let place = out.len();
    out.push(0);
    let once = match n {
        Node::Group(g) => {
            let inside = total(&g.contents, out);
            if g.kind == GroupKind::Niss { 0 } else { inside }
        }
        Node::BinaryGroup(g) => {
            let (a, b) = (total(&g.lhs, out), total(&g.rhs, out));
            match g.kind {
                BinaryGroupKind::Commutator => a.saturating_add(b).saturating_mul(2),
                BinaryGroupKind::Conjugate => a.saturating_mul(2).saturating_add(b),
            }
        }
        _ => 1,
    };
    let steps = once.saturating_mul(repeats(n));
    out[place] = steps.min(CAP) as u64;
    steps
}

/// The counts that records do store.
fn counts(tree: &[u8]) -> Vec<u64> {
    tree.chunks(RECORD).map(|r| r[RECORD - COUNT..].iter().fold(0, |n, b| n << 8 | u64::from(*b))).collect()
}

struct Difference {
    times: u64,
    text: String,
    rust: String,
    ours: String,
}

struct Report {
    limits: Limits,
    made: BTreeMap<&'static str, u64>,
    refused: BTreeMap<(&'static str, u8), u64>,
    differ: BTreeMap<&'static str, Difference>,
    /// How many texts have something past what 16 bits hold.
    wide: BTreeMap<&'static str, u64>,
    /// Bytes of the shortest and the longest text.
    sizes: (usize, usize),
}

impl Report {
    fn new(limits: Limits) -> Self {
        Self { limits, made: BTreeMap::new(), refused: BTreeMap::new(), differ: BTreeMap::new(), wide: BTreeMap::new(), sizes: (usize::MAX, 0) }
    }

    /// One comparison; the shortest text that differs is kept.
    fn same<T: PartialEq + std::fmt::Debug>(&mut self, what: &'static str, text: &str, rust: &Answer<T>, ours: &Answer<T>) {
        *self.made.entry(what).or_default() += 1;
        if let Err(e) = rust {
            *self.refused.entry((what, *e)).or_default() += 1;
        }
        if rust == ours {
            return;
        }
        let d = self.differ.entry(what).or_insert_with(|| Difference { times: 0, text: String::new(), rust: String::new(), ours: String::new() });
        d.times += 1;
        if d.times == 1 || text.len() < d.text.len() {
            *d = Difference { times: d.times, text: text.into(), rust: format!("{rust:?}"), ours: format!("{ours:?}") };
        }
    }

    fn print(&self) -> bool {
        for (what, n) in &self.made {
            let refused: String = self.refused.iter().filter(|((w, _), _)| w == what).map(|((_, e), n)| format!(", {n} refused {e}")).collect();
            println!("{what}: {n} compared{refused}, {} differ", self.differ.get(what).map_or(0, |d| d.times));
        }
        for (what, d) in &self.differ {
            let same = d.rust.bytes().zip(d.ours.bytes()).take_while(|(a, b)| a == b).count();
            println!("{what} differs, shortest text, {} bytes: {}", d.text.len(), cut(&d.text, 0));
            println!("  rust {}\n  ours {}", cut(&d.rust, same), cut(&d.ours, same));
        }
        self.differ.is_empty() && self.made.values().sum::<u64>() > 0
    }
}

/// A text as it is, or of a long one what stands about a place.
fn cut(s: &str, place: usize) -> String {
    if s.len() <= WIDE {
        return s.into();
    }
    let begin = place.saturating_sub(SHOWN / 2);
    let bytes: Vec<u8> = s.bytes().skip(begin).take(SHOWN).collect();
    format!("(from byte {begin}) {}", String::from_utf8_lossy(&bytes))
}

/// Of two names of a comparison the one for a record or a place that 16 bits hold, or for one past it.
fn by_place(n: u64, names: [&'static str; 2]) -> &'static str {
    names[usize::from(n > WIDE as u64)]
}

/// Calls a function with a buffer of so many bytes and a guard behind; gives the bytes written, or what is wrong with them.
fn lent(size: usize, call: impl FnOnce(&mut [u8]) -> ours::Answer, unit: usize) -> Answer<Vec<u8>> {
    let mut buffer = vec![FILL; size + GUARD];
    let answer = call(&mut buffer[..size]);
    let used = answer.map_or(0, |n| n as usize * unit);
    assert!(buffer[used..].iter().all(|b| *b == FILL), "bytes past the used part are touched");
    buffer.truncate(used);
    answer.map(|_| buffer)
}

/// A tree over a text, read by the archive.
struct Read<'a> {
    text: &'a [u8],
    tree: Vec<u8>,
}

impl Read<'_> {
    /// The tree with the tilde of one move put in or taken away.
    fn turned(&self, record: usize) -> Self {
        let mut tree = self.tree.clone();
        tree[record * RECORD] ^= TILDE;
        Self { text: self.text, tree }
    }

    /// Some records printed; `size` is what the Rust's text takes. Also into a buffer so large that printing need not measure first.
    fn printed(&self, records: &[u8], size: usize) -> Answer<String> {
        let roomy = size + self.text.len() + 50 * (records.len() / RECORD);
        let [exact, large] = [size, roomy].map(|n| lent(n, |b| ours::display(self.text, records, b), 1));
        // Where more is printed than the Rust does, only the larger buffer has room, and what it holds is the difference to be reported.
        let longer = exact == Err(5) && large.as_ref().is_ok_and(|b| b.len() > size);
        assert!(exact == large || longer, "a larger buffer prints something else");
        large.map(|b| String::from_utf8(b).unwrap())
    }
}

fn read<'a>(text: &'a str, features: u32, records: usize) -> Answer<Read<'a>> {
    lent(records * RECORD, |b| ours::parse(text.as_bytes(), features, b), 1).map(|tree| Read { text: text.as_bytes(), tree })
}

/// Every comparison of one tree.
fn compare(r: &mut Random, l: &NodeList, report: &mut Report) {
    let text = l.to_string();
    if text.len() > ours::MOST_TEXT {
        return;
    }
    let nodes = places::expected(l, text.len());
    report.notice(&text, &nodes);
    let ours = read(&text, MAXIMAL, nodes.len());
    report.same("reading: records", &text, &Ok(nodes.len() * RECORD), &ours.as_ref().map(|o| o.tree.len()).map_err(|e| *e));
    let Ok(ours) = ours else { return };
    report.same("reading: lists and places", &text, &Ok(nodes.iter().map(|n| n.fields).collect()), &Ok(places::stored(&ours.tree)));
    report.same("reading: counts", &text, &Ok(stored(l)), &Ok(counts(&ours.tree)));
    report.same("display", &text, &Ok(text.clone()), &ours.printed(&ours.tree, text.len()));
    spelling(r, l, &text, nodes.len(), report);
    // It draws random numbers of its own, so that the trees of a seed do not depend on it.
    curly(&mut Random(r.0 ^ text.len() as u64), l, &text, &nodes, report);
    inverse(["inv", "inv: counts"], ours::inv, l.clone().inv(), &ours, &text, report);
    inverse(["inv_deep", "inv_deep: counts"], ours::inv_deep, l.clone().inv_deep(), &ours, &text, report);
    deep_twice(l, &ours, &text, report);
    steps(r, l, &ours, &text, report);
    let large = nodes.len() > 60;
    for (i, n) in nodes.iter().enumerate() {
        if large && !report.limits.takes(r, i as u64, n, nodes.len() as u64) {
            continue;
        }
        family(n, i as u64, &ours, &text, report);
        if let Node::Move(mv) = n.node {
            let long = n.fields.parts[2].1 > WIDE;
            let which = if long { 2 } else { usize::from(i > WIDE) };
            ranges(which, r, &mv.layers, i as u64, large && !long, &ours, &text, report);
            if long {
                // Few trees have a long layer set, so each is asked with the tilde and without.
                ranges(which, r, &LayerPrefix { invert: !mv.layers.invert, ..mv.layers.clone() }, i as u64, false, &ours.turned(i), &text, report);
            }
        }
    }
}

impl Limits {
    /// Whether a record of a large tree is taken: those that are to be taken besides, those with a part past what 16 bits hold, and some at random.
    fn takes(&self, r: &mut Random, record: u64, n: &Place, records: u64) -> bool {
        let long = n.fields.parts.iter().any(|(_, size)| *size > WIDE);
        long || self.besides.contains(&record) || r.one_in(records / self.records)
    }

    /// The places of a list of n steps that are taken besides.
    fn places(&self, n: u64) -> impl Iterator<Item = u64> {
        self.besides.iter().copied().filter(move |place| *place < n)
    }
}

/// The same tree in another spelling prints the same.
fn spelling(r: &mut Random, l: &NodeList, text: &str, records: usize, report: &mut Report) {
    let spelled = generate::spelled(r, l);
    if spelled.len() > ours::MOST_TEXT {
        return;
    }
    let ours = read(&spelled, MAXIMAL, records).and_then(|o| o.printed(&o.tree, text.len()));
    report.same("display of another spelling", &spelled, &Ok(text.to_string()), &ours);
    let curled = generate::curled(&mut Random(r.0), &spelled);
    if generate::is_curly(&curled) && curled.len() <= ours::MOST_TEXT {
        let ours = read(&curled, MAXIMAL | CURLY_PRIMES, records).and_then(|o| o.printed(&o.tree, text.len()));
        report.same("curly primes: display of another spelling", &curled, &Ok(text.to_string()), &ours);
    }
}

/// The Rust's text with some apostrophes as curly primes: refused without the flag; with it the same tree, whose parts stand where this text has them.
fn curly(r: &mut Random, l: &NodeList, text: &str, nodes: &[Place], report: &mut Report) {
    let curled = generate::curled(r, text);
    if !generate::is_curly(&curled) || curled.len() > ours::MOST_TEXT {
        return;
    }
    report.same("curly primes: without the flag", &curled, &Err(4), &read(&curled, MAXIMAL, nodes.len()).map(|o| o.tree));
    let ours = read(&curled, MAXIMAL | CURLY_PRIMES, nodes.len());
    report.same("curly primes: records", &curled, &Ok(nodes.len() * RECORD), &ours.as_ref().map(|o| o.tree.len()).map_err(|e| *e));
    let Ok(ours) = ours else { return };
    let given = given_offsets(&curled);
    let places = nodes.iter().map(|n| moved(n.fields, &given)).collect();
    report.same("curly primes: lists and places", &curled, &Ok(places), &Ok(places::stored(&ours.tree)));
    report.same("curly primes: counts", &curled, &Ok(stored(l)), &Ok(counts(&ours.tree)));
    report.same("curly primes: display", &curled, &Ok(text.to_string()), &ours.printed(&ours.tree, text.len()));
    inverse(["curly primes: inv", "curly primes: inv: counts"], ours::inv, l.clone().inv(), &ours, &curled, report);
    inverse(["curly primes: inv_deep", "curly primes: inv_deep: counts"], ours::inv_deep, l.clone().inv_deep(), &ours, &curled, report);
}

/// For each offset of the text with apostrophes the one in the curly text. A byte inside another character is never asked for.
fn given_offsets(curled: &str) -> Vec<usize> {
    let mut given = vec![];
    for (at, c) in curled.char_indices() {
        let bytes = if generate::is_curly(c.encode_utf8(&mut [0; 4])) { 1 } else { c.len_utf8() };
        given.extend(at..at + bytes);
    }
    given.push(curled.len());
    given
}

/// The fields of a record with its parts at their places in the curly text.
fn moved(fields: Fields, given: &[usize]) -> Fields {
    Fields { parts: fields.parts.map(|(at, size)| (given[at], given[at + size] - given[at])), ..fields }
}

type Inverse = fn(&[u8], &[u8], &mut [u8]) -> ours::Answer;

fn inverse(what: [&'static str; 2], call: Inverse, rust: Result<NodeList, InvertError>, ours: &Read, text: &str, report: &mut Report) {
    let given = lent(ours.tree.len(), |b| call(ours.text, &ours.tree, b), 1);
    report.same(what[1], text, &rust.as_ref().map(stored).map_err(|e| invert_refusal(e.clone())), &given.as_ref().map(|b| counts(b)).map_err(|e| *e));
    let rust = rust.map(|l| l.to_string()).map_err(invert_refusal);
    let size = rust.as_ref().map_or(0, |s| s.len());
    report.same(what[0], text, &rust, &given.and_then(|b| ours.printed(&b, size)));
}

/// The deep inverse of the deep inverse, where the first is not refused: the tree again, in the Rust and in every byte of the archive's records (document 02, request 13).
fn deep_twice(l: &NodeList, ours: &Read, text: &str, report: &mut Report) {
    let (Ok(rust), Ok(deep)) = (l.clone().inv_deep(), lent(ours.tree.len(), |b| ours::inv_deep(ours.text, &ours.tree, b), 1)) else { return };
    let again = lent(deep.len(), |b| ours::inv_deep(ours.text, &deep, b), 1);
    let shown = rust.inv_deep().map(|l| l.to_string()).map_err(invert_refusal);
    report.same("inv_deep twice", text, &shown, &again.as_ref().map_err(|e| *e).and_then(|b| ours.printed(b, text.len())));
    report.same("inv_deep twice: records", text, &Ok(ours.tree.clone()), &again);
}

/// The two undo views of a text that unrolls into n steps (document 02, request 13): what the Rust's shallow inverse unrolls into must be what its deep one does, what the
/// archive's shallow inverse does, and what the Rust's printed deep inverse does, read and unrolled by the archive.
fn undo_views(l: &NodeList, n: usize, ours: &Read, text: &str, report: &mut Report) {
    let (Ok(shallow), Ok(deep)) = (l.clone().inv(), l.clone().inv_deep()) else { return };
    let undone = shallow.flatten().map(|l| l.to_string()).map_err(expand_refusal);
    let size = undone.as_ref().map_or(0, |s| s.len());
    report.same("undo view: the Rust's deep inverse", text, &undone, &deep.flatten().map(|l| l.to_string()).map_err(expand_refusal));
    let played = |read: &Read, tree: &[u8]| lent(n * RECORD, |b| ours::flatten(read.text, tree, b), 1).and_then(|list| read.printed(&list, size));
    let inverse = lent(ours.tree.len(), |b| ours::inv(ours.text, &ours.tree, b), 1);
    report.same("undo view: the shallow inverse", text, &undone, &inverse.and_then(|tree| played(ours, &tree)));
    let shown = deep.to_string();
    if shown.len() <= ours::MOST_TEXT {
        let back = read(&shown, MAXIMAL, ours.tree.len() / RECORD);
        report.same("undo view: the deep inverse read back", text, &undone, &back.and_then(|back| played(&back, &back.tree)));
    }
}

/// Unrolling and seeking against the Rust where it can; where the list is too long, counting and seeking against a plain count.
fn steps(r: &mut Random, l: &NodeList, ours: &Read, text: &str, report: &mut Report) {
    let mut tally = Tally::default();
    let counted = tally.list(l, false);
    let plain = counted.and_then(|(n, _)| if n > MOST_STEPS { Err(9) } else { Ok(n as u64) });
    report.same("count_steps with a plain count", text, &plain, &ours::count_steps(ours.text, &ours.tree));
    if let Err(e) = plain {
        let step = lent(RECORD, |b| ours::seek_step(ours.text, &ours.tree, 0, b), 1);
        report.same("seek_step where counting is refused", text, &Err(e), &step);
        report.same("flatten where counting is refused", text, &Err(e), &lent(0, |b| ours::flatten(ours.text, &ours.tree, b), 1));
    }
    let within = |(n, visits): (u128, u128)| n <= report.limits.steps && visits <= report.limits.visits;
    if counted.is_ok_and(within) || counted.is_err() && bounded(l, &mut tally, report.limits.visits) {
        unrolled(r, l, ours, text, report);
    } else if let Ok(n) = plain {
        walked(r, l, &mut tally, n, ours, text, report);
    }
}

/// Seeking in a list of n steps, too long for the Rust, against a plain walk.
fn walked(r: &mut Random, l: &NodeList, tally: &mut Tally, n: u64, ours: &Read, text: &str, report: &mut Report) {
    let some = [0, n.saturating_sub(1), r.below(n.max(1)), r.below(n.max(1))].into_iter().filter(|place| *place < n);
    for place in some.chain(report.limits.places(n)).collect::<Vec<_>>() {
        let step = tally.step(l, false, place.into()).to_string();
        let given = lent(RECORD, |b| ours::seek_step(ours.text, &ours.tree, place, b), 1);
        report.same("seek_step: counts", text, &Ok(vec![1]), &given.as_ref().map(|b| counts(b)).map_err(|e| *e));
        let what = by_place(place, ["seek_step with a plain walk", "seek_step with a plain walk: place over 65,535"]);
        report.same(what, text, &Ok(step.clone()), &given.and_then(|b| ours.printed(&b, step.len())));
    }
    let given = lent(RECORD, |b| ours::seek_step(ours.text, &ours.tree, n, b), 1);
    report.same("seek_step past the end", text, &Err(10), &given);
}

/// Whether every part that is not refused is short, so that the Rust meets its refusal soon.
fn bounded(l: &NodeList, tally: &mut Tally, visits: u128) -> bool {
    tally.list(l, true).ok();
    let sum = tally.0.values().filter_map(|a| a.ok()).fold(0u128, |s, (_, v)| s.saturating_add(v));
    let mut nodes = vec![];
    records(l, &mut nodes);
    let most = nodes.iter().fold(1u128, |m, n| m.max(repeats(n)));
    sum.saturating_mul(most) <= visits
}

fn unrolled(r: &mut Random, l: &NodeList, ours: &Read, text: &str, report: &mut Report) {
    let rust = l.flatten().map_err(expand_refusal);
    let length = rust.as_ref().map(|l| l.len() as u64).map_err(|e| *e);
    report.same("count_steps", text, &length, &ours::count_steps(ours.text, &ours.tree));
    let list = lent(rust.as_ref().map_or(0, |l| l.len()) * RECORD, |b| ours::flatten(ours.text, &ours.tree, b), 1);
    report.same("flatten: length", text, &length, &list.as_ref().map(|b| (b.len() / RECORD) as u64).map_err(|e| *e));
    let shown = rust.map(|l| l.to_string());
    let size = shown.as_ref().map_or(0, |s| s.len());
    report.same("flatten", text, &shown, &list.as_ref().map_err(|e| *e).and_then(|b| ours.printed(b, size)));
    let Ok(list) = list else { return };
    let n = (list.len() / RECORD) as u64;
    report.same("flatten: counts", text, &Ok(vec![1; n as usize]), &Ok(counts(&list)));
    undo_views(l, n as usize, ours, text, report);
    let some = [0, n.saturating_sub(1), r.below(n.max(1)), r.below(n.max(1)), r.below(n.max(1)), n];
    for place in some.into_iter().chain(report.limits.places(n)).collect::<Vec<_>>() {
        let want = if place < n { Ok(list[place as usize * RECORD..][..RECORD].to_vec()) } else { Err(10) };
        let given = lent(RECORD, |b| ours::seek_step(ours.text, &ours.tree, place, b), 1);
        report.same(by_place(place, ["seek_step", "seek_step: place over 65,535"]), text, &want, &given);
    }
}

/// Compares where the family stands with the place that the printed text has it at, and its letters with the Rust's name.
fn family(n: &Place, record: u64, ours: &Read, text: &str, report: &mut Report) {
    let name = match n.node {
        Node::Move(mv) => Ok(&mv.transform.family),
        Node::Rotation(t) => Ok(&t.transform.family),
        _ => Err(12),
    };
    let given = ours::family(ours.text, &ours.tree, record);
    let what = by_place(record, ["family", "family: record over 65,535"]);
    report.same(what, text, &name.map(|_| n.fields.parts[0]), &given);
    let found = given.map(|(offset, size)| ours.text.get(offset..offset + size).unwrap_or(b"outside the text"));
    report.same("family: its letters", text, &name.map(|name| name.as_bytes()), &found);
}

/// How a comparison of layer ranges is called, without a tilde and with one: of a record that 16 bits hold, of one past it, of a long layer set.
const SIMPLIFY: [[&str; 3]; 2] = [
    ["simplify", "simplify: record over 65,535", "simplify: layer set over 65,535 bytes"],
    ["simplify with a tilde", "simplify with a tilde: record over 65,535", "simplify with a tilde: layer set over 65,535 bytes"],
];
const MASK: [&str; 2] = ["to_layer_mask", "to_layer_mask with a tilde"];
/// The mask changes its form at 64 layers, ours at 128.
const AXES: [u16; 17] = [1, 2, 3, 4, 5, 6, 7, 8, 9, 10, 63, 64, 65, 127, 128, 129, 32767];
/// No axis has so many layers here; the Rust's mask takes these numbers.
const NO_AXES: [u16; 4] = [0, 32768, 40000, 65535];

/// Compares the layer ranges of a move on all of these axes, negatives allowed and not; or on three of them, taken at random.
fn ranges(which: usize, r: &mut Random, prefix: &LayerPrefix, record: u64, three: bool, ours: &Read, text: &str, report: &mut Report) {
    let all: Vec<(u16, bool)> = AXES.into_iter().flat_map(|n| [(n, false), (n, true)]).collect();
    let some = if three { (0..3).map(|_| r.pick(&all)).collect() } else { all };
    let tilde = usize::from(prefix.invert);
    for (max_layer, allow_negatives) in some {
        let info = AxisLayersInfo { max_layer, allow_negatives };
        let rust = layers::expected(prefix, info);
        let given = lent(rust.len() * 4, |b| ours::simplify(ours.text, &ours.tree, record, max_layer.into(), allow_negatives, b), 4);
        let two = |b: &[u8]| u16::from_be_bytes([b[0], b[1]]);
        let given = given.map(|b| b.chunks(4).map(|c| (two(c), two(&c[2..]))).collect::<Vec<_>>());
        report.same(SIMPLIFY[tilde][which], text, &Ok(rust), &given);
        report.same(MASK[tilde], text, &Ok(layers::masked(prefix, info)), &given);
    }
    no_axis(prefix, record, ours, text, report);
}

/// Asks for numbers of layers that ours refuses 11. The Rust's mask ignores a tilde there: it gives what it gives without one.
fn no_axis(prefix: &LayerPrefix, record: u64, ours: &Read, text: &str, report: &mut Report) {
    let max_layer = NO_AXES[text.len() % NO_AXES.len()];
    let given = lent(0, |b| ours::simplify(ours.text, &ours.tree, record, max_layer.into(), true, b), 4);
    report.same("simplify on 0 or over 32,767 layers", text, &Err(11), &given);
    if prefix.invert {
        let info = AxisLayersInfo { max_layer, allow_negatives: true };
        let plain = LayerPrefix { invert: false, ..prefix.clone() };
        let masks = [&plain, prefix].map(|p| Ok(layers::masked(p, info)));
        report.same("to_layer_mask there, without the tilde and with it", text, &masks[0], &masks[1]);
    }
}

/// A line of the stored sample, all of it from the Rust: text, printed, inverse, deep inverse, unrolled list, layer ranges.
fn sample_line(r: &mut Random, l: &NodeList) -> Option<String> {
    let text = generate::spelled(r, l);
    let mut tally = Tally::default();
    let short = tally.list(l, false).map_or_else(|_| bounded(l, &mut tally, SHORT.visits), |(n, v)| n <= 60 && v <= SHORT.visits);
    if text.len() > 200 || !short {
        return None;
    }
    let refused = |e: u8| format!("refused {e}");
    let inverted = |l: Result<NodeList, InvertError>| l.map_or_else(|e| refused(invert_refusal(e)), |l| l.to_string());
    let flat = l.flatten().map_or_else(|e| refused(expand_refusal(e)), |l| format!("{} {l}", l.len()));
    let mut nodes = vec![];
    records(l, &mut nodes);
    let mut shown = vec![];
    for (i, mv) in nodes.iter().enumerate().filter_map(|(i, n)| Some((i, n.as_move()?))).take(4) {
        let info = AxisLayersInfo { max_layer: r.pick(&[1, 2, 3, 5, 7, 10, 32767]), allow_negatives: !r.one_in(3) };
        let list: Vec<String> = layers::contents(&mv.layers, info).iter().map(|(a, b)| format!("{a}-{b}")).collect();
        shown.push(format!("{i} {} {} {}", info.max_layer, u8::from(info.allow_negatives), list.join(",")));
    }
    Some(format!("{text}\t{l}\t{}\t{}\t{flat}\t{}", inverted(l.clone().inv()), inverted(l.clone().inv_deep()), shown.join("; ")))
}

fn sample(seed: u64) {
    let mut r = Random(seed);
    println!("# text\tprinted\tinverse\tdeep inverse\tcount and unrolled list\tranges: record, max_layer, negatives, list; ...");
    println!("# Made by `compare sample {seed}` (tests/oracle/compare.rs): the Rust's Display, inv, inv_deep, flatten and simplify of trees made at");
    println!("# random; the text is another spelling of the tree, which the Rust did not read. `refused N` stands for a refusal.");
    let mut made = 0;
    while made < 300 {
        let l = generate::tree(&mut r);
        // Few flat lists that nothing refuses: they repeat one another.
        let flat = !l.iter().any(|n| matches!(n, Node::Group(_) | Node::BinaryGroup(_)));
        if flat && l.clone().inv().is_ok() && !r.one_in(20) {
            continue;
        }
        if let Some(line) = sample_line(&mut r, &l) {
            println!("{line}");
            made += 1;
        }
    }
}

/// The comparisons of the long mode, and which refusals of them have to be met; 0 stands for an answer that is not refused.
const TO_MAKE: [(&str, &[u8]); 49] = [
    ("reading: records", &[0]),
    ("reading: lists and places", &[0]),
    ("reading: counts", &[0]),
    ("display", &[0]),
    ("display of another spelling", &[0]),
    ("curly primes: display of another spelling", &[0]),
    ("curly primes: without the flag", &[4]),
    ("curly primes: records", &[0]),
    ("curly primes: lists and places", &[0]),
    ("curly primes: counts", &[0]),
    ("curly primes: display", &[0]),
    ("curly primes: inv", &[0, 8]),
    ("curly primes: inv: counts", &[0, 8]),
    ("curly primes: inv_deep", &[0, 7, 8]),
    ("curly primes: inv_deep: counts", &[0, 7, 8]),
    ("inv", &[0, 8]),
    ("inv: counts", &[0, 8]),
    ("inv_deep", &[0, 7, 8]),
    ("inv_deep: counts", &[0, 7, 8]),
    ("inv_deep twice", &[0]),
    ("inv_deep twice: records", &[0]),
    ("undo view: the Rust's deep inverse", &[0]),
    ("undo view: the shallow inverse", &[0]),
    ("undo view: the deep inverse read back", &[0]),
    ("count_steps with a plain count", &[0, 7, 8, 9]),
    ("count_steps", &[0, 7, 8]),
    ("flatten: length", &[0, 7, 8]),
    ("flatten", &[0, 7, 8]),
    ("flatten where counting is refused", &[7, 8, 9]),
    ("seek_step where counting is refused", &[7, 8, 9]),
    ("flatten: counts", &[0]),
    ("seek_step", &[0]),
    ("seek_step: place over 65,535", &[0, 10]),
    ("seek_step: counts", &[0]),
    ("seek_step with a plain walk", &[0]),
    ("seek_step with a plain walk: place over 65,535", &[0]),
    ("seek_step past the end", &[10]),
    ("family", &[0, 12]),
    ("family: record over 65,535", &[0, 12]),
    ("family: its letters", &[0]),
    ("simplify", &[0]),
    ("simplify: record over 65,535", &[0]),
    ("simplify: layer set over 65,535 bytes", &[0]),
    ("simplify with a tilde", &[0]),
    ("simplify with a tilde: record over 65,535", &[0]),
    ("simplify with a tilde: layer set over 65,535 bytes", &[0]),
    ("to_layer_mask", &[0]),
    ("to_layer_mask with a tilde", &[0]),
    ("simplify on 0 or over 32,767 layers", &[11]),
];

/// What has to be made of short texts: second deep inverses, undo views, and layer ranges without a tilde and with one.
const TO_MAKE_SHORT: [(&str, &[u8]); 11] = [
    ("inv_deep twice", &[0]),
    ("inv_deep twice: records", &[0]),
    ("undo view: the Rust's deep inverse", &[0]),
    ("undo view: the shallow inverse", &[0]),
    ("undo view: the deep inverse read back", &[0]),
    ("simplify", &[0]),
    ("simplify with a tilde", &[0]),
    ("to_layer_mask", &[0]),
    ("to_layer_mask with a tilde", &[0]),
    ("simplify on 0 or over 32,767 layers", &[11]),
    ("to_layer_mask there, without the tilde and with it", &[0]),
];

impl Report {
    /// Keeps the size of a text, and counts the long texts that have each of the things that they are for.
    fn notice(&mut self, text: &str, nodes: &[Place]) {
        self.sizes = (self.sizes.0.min(text.len()), self.sizes.1.max(text.len()));
        if text.len() > WIDE {
            for (what, has) in long::TO_HAVE {
                *self.wide.entry(what).or_default() += u64::from(has(text, nodes));
            }
        }
    }

    /// Prints how many texts had what; false where none had something, or where a comparison or a refusal is missing.
    fn complete(&self) -> bool {
        let mut missing: Vec<String> = vec![];
        for (what, _) in long::TO_HAVE {
            let texts = self.wide.get(what).copied().unwrap_or(0);
            println!("over 65,535, {what}: {texts} texts");
            if texts == 0 {
                missing.push(format!("a text with {what} over 65,535"));
            }
        }
        missing.extend(self.never(&TO_MAKE));
        told(&missing)
    }

    /// The comparisons that were never made, and the refusals that were never met in them.
    fn never(&self, to_make: &[(&'static str, &[u8])]) -> Vec<String> {
        let each = to_make.iter().flat_map(|(what, answers)| answers.iter().map(move |answer| (*what, *answer)));
        each.filter(|(what, answer)| self.answered(what, *answer) == 0).map(|(what, answer)| format!("{what}, answered {answer} (0: not refused)")).collect()
    }

    /// How often the Rust gave an answer in a comparison: a refusal, or with 0 anything else.
    fn answered(&self, what: &'static str, answer: u8) -> u64 {
        if answer > 0 {
            return self.refused.get(&(what, answer)).copied().unwrap_or(0);
        }
        let refused: u64 = self.refused.iter().filter(|((w, _), _)| *w == what).map(|(_, n)| n).sum();
        self.made.get(what).copied().unwrap_or(0) - refused
    }
}

/// Prints what is missing; true where nothing is.
fn told(missing: &[String]) -> bool {
    missing.iter().for_each(|what| println!("missing: {what}"));
    missing.is_empty()
}

/// Every comparison on long texts.
fn long_texts(texts: u64, seed: u64) -> bool {
    let mut report = Report::new(LONG);
    let mut r = Random(seed);
    for turn in 0..texts {
        let l = long::tree(&mut r, turn);
        compare(&mut r, &l, &mut report);
    }
    println!("{texts} long texts, {} to {} bytes, seed {seed}", report.sizes.0, report.sizes.1);
    let same = report.print();
    report.complete() && same
}

/// Every comparison on trees of any shape, most of them small.
fn short_texts(trees: u64, seed: u64) -> bool {
    let mut report = Report::new(SHORT);
    let mut r = Random(seed);
    for _ in 0..trees {
        let l = generate::tree(&mut r);
        compare(&mut r, &l, &mut report);
    }
    println!("{trees} trees, seed {seed}");
    let same = report.print();
    told(&report.never(&TO_MAKE_SHORT)) && same
}

fn main() {
    let args: Vec<String> = std::env::args().skip(1).collect();
    let number = |i: usize, default: u64| args.get(i).map_or(default, |s| s.parse().expect("a number"));
    let fine = match args.first().map(String::as_str) {
        Some("sample") => return sample(number(1, 1)),
        Some("long") => long_texts(number(1, LONG_TEXTS), number(2, 1)),
        _ => short_texts(number(0, 100_000), number(1, 1)),
    };
    std::process::exit(if fine { 0 } else { 1 });
}
