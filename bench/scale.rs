//! Shows that all calls are linear: nanoseconds a byte of ours on texts of 64 KB, 1 MB and of the longest there is, and how much the larger ones are above the first.
//!
//! Where that is too much, the first size is measured out of cache too: caches explain it if the larger ones are not too much above that either.
//!
//! The Rust is left out: its own tree of the longest text would take many gigabytes.
use crate::ours::{self, RECORD};
use crate::reader::LONGEST;
use crate::{Case, OPERATIONS, Piece, WITH_TILDE, asked, best_of, filled, our_call, piece, place, read};

const SIZES: [usize; 3] = [64_000, 1_000_000, LONGEST];
const KINDS: [&str; 9] = ["moves", "groups", GROUP, COMMUTATOR, LAYERS, CONSTRAINTS, FAMILY, "square-1 as printed", "megaminx"];
const GROUP: &str = "one group round all";
const COMMUTATOR: &str = "commutator of two halves";
const LAYERS: &str = "one layer set";
const CONSTRAINTS: &str = "one constraint set";
const FAMILY: &str = "one family";

/// What a byte of a large text may take more than one of 64 KB. Even linear work takes more: a tree of 64 KB of text stays in the processor's caches.
const MOST: f64 = 2.0;
/// So many texts of the first size are as long as the longest, and take as much memory.
const COPIES: usize = LONGEST / SIZES[0];
const SAMPLE: f64 = 2e7;
const ATTEMPTS: usize = 3;
/// The calls need no stack that grows with the text, so all run on a small one.
const STACK: usize = 256 * 1024;
/// The layers that the layer set has, again and again.
const LAYER_COUNT: u16 = 99;
const MOST_LAYERS: u32 = 32_767;

/// A text that is spelled as it is printed, and how many steps it unrolls into.
fn text(kind: &str, size: usize) -> Piece {
    let pieces = |kind, size| filled(size, " ", |r| piece(r, kind));
    match kind {
        GROUP => {
            let (moves, steps) = pieces("moves", size - "()2'".len());
            (format!("({moves})2'"), 2 * steps)
        }
        COMMUTATOR => {
            let (moves, steps) = pieces("moves", (size - "[, ]".len()) / 2);
            (format!("[{moves}, {moves}]"), 4 * steps)
        }
        LAYERS => {
            let mut layer = 0;
            let next = |_: &mut _| {
                layer = layer % LAYER_COUNT + 1;
                (layer.to_string(), 1)
            };
            (format!("{{{}}}R", filled(size - "{}R".len(), ",", next).0), 1)
        }
        CONSTRAINTS => {
            let set = filled(size - "R{}".len(), ",", |r| (r.pick(&["A->B", "C", "D<>E", "IR->F", "UF"]).into(), 1));
            (format!("R{{{}}}", set.0), 1)
        }
        FAMILY => ("R".repeat(size), 1),
        _ => pieces(kind, size),
    }
}

fn case(kind: &str, size: usize) -> Case {
    let (text, steps) = text(kind, size);
    let c = Case { tree: read(&text), text, steps, record: (kind == LAYERS).then_some(0) };
    assert_eq!(ours::count_steps(c.text.as_bytes(), &c.tree), Ok(c.steps), "{kind}: as many steps as were written");
    printed(&c);
    unrolled(&c);
    inverted(&c);
    ranged(&c);
    c
}

/// A text that is spelled as it is printed is printed as it is.
fn printed(c: &Case) {
    let text = c.text.as_bytes();
    let mut out = vec![0; text.len()];
    assert_eq!(ours::display(text, &c.tree, &mut out), Ok(text.len() as u64));
    assert!(out == text, "the text is printed");
}

/// What is sought is what stands at its place when all is unrolled.
fn unrolled(c: &Case) {
    let text = c.text.as_bytes();
    let mut steps = vec![0; RECORD * c.steps as usize];
    assert_eq!(ours::flatten(text, &c.tree, &mut steps), Ok(steps.len() as u64));
    for operation in ["seek", "seek last"] {
        let (place, mut step) = (place(c, operation), [0; RECORD]);
        assert_eq!(ours::seek_step(text, &c.tree, place, &mut step), Ok(RECORD as u64));
        assert_eq!(step, steps[RECORD * place as usize..][..RECORD], "{operation}");
    }
}

/// The inverse has as many steps, and its inverse is the tree.
fn inverted(c: &Case) {
    let (text, used) = (c.text.as_bytes(), Ok(c.tree.len() as u64));
    let (mut once, mut twice) = (vec![0; c.tree.len()], vec![0; c.tree.len()]);
    for inverse in [ours::inv, ours::inv_deep] {
        assert_eq!(inverse(text, &c.tree, &mut once), used);
        assert_eq!(ours::count_steps(text, &once), Ok(c.steps));
        assert_eq!(inverse(text, &once, &mut twice), used);
        assert!(twice == c.tree, "the inverse of the inverse is the tree");
    }
}

/// The layers of the set are one range, also on the axis with most layers, whose table is the largest; with a tilde so are all behind them.
fn ranged(c: &Case) {
    let Some(record) = c.record else { return };
    let mut range = [0; 4];
    assert_eq!(ours::simplify(c.text.as_bytes(), &c.tree, record, MOST_LAYERS, true, &mut range), Ok(1));
    assert_eq!(range, [0, 1, 0, LAYER_COUNT as u8]);
    let (tree, record) = asked(c, WITH_TILDE).expect("it has a move");
    assert_eq!(ours::simplify(c.text.as_bytes(), &tree, record, MOST_LAYERS, true, &mut range), Ok(1));
    assert_eq!(range, [0, LAYER_COUNT as u8 + 1, 0x7f, 0xff]);
}

/// An operation with its nanoseconds a byte at each size.
struct Row {
    operation: &'static str,
    times: [f64; 3],
}

impl Row {
    /// The worse of the two larger sizes to the first.
    fn ratio(&self) -> f64 {
        self.ratio_to(self.times[0])
    }

    fn ratio_to(&self, small: f64) -> f64 {
        let [_, middle, large] = self.times;
        middle.max(large) / small
    }
}

/// Which rows are above what may be, by whether caches explain it.
#[derive(Default)]
struct Above {
    explained: Vec<String>,
    slow: Vec<String>,
}

/// The operations that a text has, each with its nanoseconds a byte.
fn times(c: &Case) -> Vec<(&'static str, f64)> {
    let timed = |operation| Some((operation, best_of(SAMPLE, our_call(c, operation)?) / c.text.len() as f64));
    OPERATIONS.into_iter().filter(|o| !o.starts_with("ranges of one record")).filter_map(timed).collect()
}

/// The rows of a kind. One text at a time is in memory, with its tree and one buffer.
fn rows(kind: &str) -> Vec<Row> {
    let [small, middle, large] = SIZES.map(|size| times(&case(kind, size)));
    let sizes = small.into_iter().zip(middle).zip(large);
    sizes.map(|(((operation, a), (_, b)), (_, c))| Row { operation, times: [a, b, c] }).collect()
}

/// The same, measured again where something is too slow: on a shared machine one cell alone may be, but what is not linear stays so.
fn sure_rows(kind: &str) -> Vec<Row> {
    let mut found = rows(kind);
    for _ in 1..ATTEMPTS {
        if found.iter().all(|row| row.ratio() <= MOST) {
            break;
        }
        for (row, again) in found.iter_mut().zip(rows(kind)) {
            row.times = std::array::from_fn(|k| row.times[k].min(again.times[k]));
        }
    }
    found
}

/// Nanoseconds a byte at the first size when nothing of it is in a cache. Each copy has a text, a tree and a buffer of its own, and all are called in turn: until a copy's
/// next turn the others have passed through the caches, as the rest of the longest text does. No text is longer than before, so what is not linear takes no more here.
/// A call that goes over its tree more than once may find it in a cache the second time, unlike in the longest text; then this explains too little, not too much.
fn out_of_cache(kind: &str, operation: &str) -> f64 {
    let copies = vec![case(kind, SIZES[0]); COPIES];
    let mut calls: Vec<_> = copies.iter().filter_map(|c| our_call(c, operation)).collect();
    let bytes: usize = copies.iter().map(|c| c.text.len()).sum();
    best_of(SAMPLE, || calls.iter_mut().for_each(|call| call())) / bytes as f64
}

/// Prints the rows of a kind, and notes what is too slow in them.
fn print_rows(kind: &str, above: &mut Above) {
    for row in sure_rows(kind) {
        let (operation, ratio) = (row.operation, row.ratio());
        print!("| {kind} | {operation} |{} {ratio:.2} |", row.times.map(|ns| format!(" {ns:.2} |")).join(""));
        if ratio <= MOST {
            println!(" | |");
            continue;
        }
        let uncached = out_of_cache(kind, operation);
        let ratio = row.ratio_to(uncached);
        println!(" {uncached:.2} | {ratio:.2} |");
        let rows = if ratio <= MOST { &mut above.explained } else { &mut above.slow };
        rows.push(format!("{operation} of {kind} ({ratio:.2})"));
    }
}

fn table() -> bool {
    println!("Nanoseconds a byte of text, best of several samples of 20 ms or one call; × is the worse of the two larger sizes divided by the first.");
    println!("Where it is above {MOST:.1}, the first is measured out of cache too, {COPIES} copies called in turn, and the last × is the worse divided by that.\n");
    let [small, ..] = SIZES;
    println!("| text | operation |{} × | {small} bytes out of cache | × |", SIZES.map(|n| format!(" {n} bytes |")).join(""));
    println!("|---|---|{}", "---:|".repeat(SIZES.len() + 3));
    let mut above = Above::default();
    KINDS.into_iter().for_each(|kind| print_rows(kind, &mut above));
    let Above { explained, slow } = above;
    println!();
    if !explained.is_empty() {
        println!("Caches explain an × above {MOST:.1} of {}: against {small} bytes out of cache it is what stands in brackets.", explained.join(", "));
    }
    if slow.is_empty() {
        println!("All are linear: no × is above {MOST:.1}{}.", if explained.is_empty() { "" } else { " that caches do not explain" });
    } else {
        println!("Not linear, × above {MOST:.1} also against {small} bytes out of cache: {}.", slow.join(", "));
    }
    slow.is_empty()
}

/// Prints the table, and says whether all is linear.
pub fn run() -> bool {
    std::thread::Builder::new().stack_size(STACK).spawn(table).expect("a thread").join().expect("all answers are right")
}
