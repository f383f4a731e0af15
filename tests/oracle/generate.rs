//! Trees at random, as values of the Rust, and a second spelling of each.
use hypuz_notation::*;

/// splitmix64: a seed gives the same trees everywhere.
pub struct Random(pub u64);

impl Random {
    fn next(&mut self) -> u64 {
        self.0 = self.0.wrapping_add(0x9e3779b97f4a7c15);
        let mut z = self.0;
        z = (z ^ (z >> 30)).wrapping_mul(0xbf58476d1ce4e5b9);
        z = (z ^ (z >> 27)).wrapping_mul(0x94d049bb133111eb);
        z ^ (z >> 31)
    }

    pub fn below(&mut self, n: u64) -> u64 {
        self.next() % n
    }

    /// True once in n times.
    pub fn one_in(&mut self, n: u64) -> bool {
        self.below(n) == 0
    }

    pub fn pick<T: Copy>(&mut self, from: &[T]) -> T {
        from[self.below(from.len() as u64) as usize]
    }
}

/// How a tree grows: levels of groups left, most nodes in a list, records left for the whole tree.
pub struct Shape {
    pub width: u64,
    pub room: i64,
    pub niss: bool,
    pub least: bool,
    pub wide_multipliers: bool,
}

const LETTERS: &str = "aBcDefgRULFBxyzMw_ΓΔΘΛΞΠΣΦΨΩβδζθλξεηκμπτφψω";
const LAYERS: [i16; 12] = [1, 2, 3, 4, 5, 7, 9, 10, 11, 100, 32766, 32767];
const MOVE_NUMBERS: [i32; 14] = [1, 1, 1, 1, -1, -1, -1, 2, -2, 3, 0, 2147483647, -2147483647, 1000];
const PAIR_NUMBERS: [i32; 12] = [0, 1, -1, 3, -3, 6, -6, 2147483647, -2147483647, 2147483646, 10, -100];

/// A tree of one of several shapes: bushy, deep, nested to 64, or long and flat.
pub fn tree(r: &mut Random) -> NodeList {
    let mut s = Shape { width: 4, room: 60, niss: r.one_in(8), least: r.one_in(8), wide_multipliers: r.one_in(4) };
    match r.below(40) {
        0 => spine(r, &mut s, 64),
        1..=2 => {
            let deep = 11 + r.below(54);
            spine(r, &mut s, deep)
        }
        3..=10 => {
            s.width = 3;
            let deep = 6 + r.below(5);
            spine(r, &mut s, deep)
        }
        11 => {
            s.room = 1 + r.below(1500) as i64;
            let n = s.room;
            NodeList((0..n).map(|_| if r.one_in(10) { node(r, &mut s, 2) } else { leaf(r, &s, 64) }).collect())
        }
        _ => {
            let deep = r.below(6);
            list(r, &mut s, deep)
        }
    }
}

/// Groups one inside another, `deep` levels, with a few nodes beside each.
fn spine(r: &mut Random, s: &mut Shape, deep: u64) -> NodeList {
    let mut inside = list(r, s, 0);
    for level in 1..=deep {
        // The group that holds `inside`; what stands beside it may nest as far as it does.
        let beside = level.min(2);
        let group = group(r, s, inside, beside - 1);
        let mut nodes = vec![group];
        if r.one_in(3) {
            let more = list(r, s, beside.min(1));
            nodes.extend(more.0.into_iter().take(2));
            if r.one_in(2) {
                nodes.reverse();
            }
        }
        inside = NodeList(nodes);
    }
    inside
}

fn list(r: &mut Random, s: &mut Shape, deep: u64) -> NodeList {
    let n = r.below(s.width + 1);
    NodeList((0..n).map(|_| node(r, s, deep)).collect())
}

pub fn node(r: &mut Random, s: &mut Shape, deep: u64) -> Node {
    s.room -= 1;
    if deep > 0 && s.room > 0 && r.below(5) < 2 {
        let inside = list(r, s, deep - 1);
        group(r, s, inside, deep - 1)
    } else {
        leaf(r, s, deep)
    }
}

/// A group of any kind around a list (as either of its lists); the other list nests `deep` levels at most.
pub fn group(r: &mut Random, s: &mut Shape, inside: NodeList, deep: u64) -> Node {
    let multiplier = Multiplier(if s.wide_multipliers && r.one_in(6) {
        r.pick(&[5, -7, 10, 100, -1000, 65535, 65536, -65537, 2147483647, -2147483647])
    } else {
        r.pick(&[0, 1, 1, 1, 1, 1, -1, -1, -1, 2, -2, 3, -3])
    });
    match r.below(10) {
        0..=4 => {
            let kind = match r.below(6) {
                0 => GroupKind::Macro,
                1 => GroupKind::Simultaneous,
                2 if s.niss => GroupKind::Niss,
                _ => GroupKind::Simple,
            };
            Node::Group(Group { kind, contents: inside, multiplier })
        }
        k => {
            let other = list(r, s, deep);
            let (lhs, rhs) = if r.one_in(2) { (inside, other) } else { (other, inside) };
            let kind = if k < 7 { BinaryGroupKind::Commutator } else { BinaryGroupKind::Conjugate };
            Node::BinaryGroup(BinaryGroup { kind, lhs, rhs, multiplier })
        }
    }
}

/// A leaf; a pair only where one more parenthesis may stand.
pub fn leaf(r: &mut Random, s: &Shape, deep: u64) -> Node {
    match r.below(12) {
        0 => Node::Pause,
        1 => Node::Sq1Move(Sq1Move::Slash),
        2 if deep > 0 => Node::Sq1Move(Sq1Move::UD { u: pair_number(r, s), d: pair_number(r, s) }),
        3 => Node::MegaminxScrambleMove(r.pick(&[
            MegaminxScrambleMove::Rpp,
            MegaminxScrambleMove::Rmm,
            MegaminxScrambleMove::Dpp,
            MegaminxScrambleMove::Dmm,
        ])),
        4 => {
            let family = if r.one_in(3) { String::new() } else { name(r) };
            let transform = Transform { family, constraints: constraints(r) };
            Node::Rotation(Rotation { transform, multiplier: number(r) })
        }
        _ => {
            let layers = LayerPrefix { invert: r.one_in(5), contents: layers(r) };
            let transform = Transform { family: name(r), constraints: constraints(r) };
            Node::Move(Move { layers, transform, multiplier: number(r) })
        }
    }
}

fn number(r: &mut Random) -> Multiplier {
    Multiplier(if r.one_in(8) { r.below(5000) as i32 - 2500 } else { r.pick(&MOVE_NUMBERS) })
}

fn pair_number(r: &mut Random, s: &Shape) -> i32 {
    if s.least && r.one_in(6) { i32::MIN } else { r.pick(&PAIR_NUMBERS) }
}

pub fn name(r: &mut Random) -> String {
    let letters: Vec<char> = LETTERS.chars().collect();
    let n = if r.one_in(30) { 40 } else { 1 + r.below(3) };
    (0..n).map(|_| r.pick(&letters)).collect()
}

pub fn constraints(r: &mut Random) -> Option<ConstraintSet> {
    if !r.one_in(4) {
        return None;
    }
    let n = r.below(4);
    let constraints = (0..n).map(|_| constraint(r)).collect();
    Some(ConstraintSet { constraints })
}

pub fn constraint(r: &mut Random) -> Constraint {
    match r.below(3) {
        0 => Constraint::Fix(name(r)),
        1 => Constraint::FromTo([name(r), name(r)]),
        _ => Constraint::Swap([name(r), name(r)]),
    }
}

fn layer(r: &mut Random) -> i16 {
    if r.one_in(10) { 1 + r.below(32767) as i16 } else { r.pick(&LAYERS) }
}

fn signed(r: &mut Random) -> SignedLayer {
    let i = layer(r);
    SignedLayer::new(if r.one_in(2) { -i } else { i }).unwrap()
}

pub fn layers(r: &mut Random) -> Option<LayerPrefixContents> {
    let unsigned = |r: &mut Random| Layer::new(layer(r) as u16).unwrap();
    match r.below(6) {
        0 => Some(LayerPrefixContents::Single(unsigned(r))),
        1 => Some(LayerPrefixContents::Range(LayerRange::new(unsigned(r), unsigned(r)))),
        2 | 3 => {
            let n = if r.one_in(20) { 40 } else { r.below(6) };
            let elements = (0..n).map(|_| element(r)).collect();
            Some(LayerPrefixContents::Set(LayerSet { elements }))
        }
        _ => None,
    }
}

pub fn element(r: &mut Random) -> LayerSetElement {
    if r.one_in(2) { LayerSetElement::Single(signed(r)) } else { LayerSetElement::Range([signed(r), signed(r)]) }
}

/// The same tree in another spelling that document 01 allows: whitespace where it may stand, leading zeros, a written 1, ranges from high to
/// low, and `i-j` in sets.
pub fn spelled(r: &mut Random, l: &NodeList) -> String {
    let mut out = String::new();
    spell_list(r, l, &mut out);
    out
}

/// A text with some of its apostrophes as the signs that word processors write for them. Apostrophes stand in multipliers alone.
pub fn curled(r: &mut Random, text: &str) -> String {
    text.chars().map(|c| if c == '\'' { r.pick(&['\'', '\u{2019}', '\u{2019}', '\u{2032}', '\u{2032}']) } else { c }).collect()
}

/// Whether one of the signs stands in a text.
pub fn is_curly(text: &str) -> bool {
    text.contains(['\u{2019}', '\u{2032}'])
}

fn pad(r: &mut Random, out: &mut String) {
    if r.one_in(3) {
        space(r, out);
    }
}

fn space(r: &mut Random, out: &mut String) {
    for _ in 0..if r.one_in(8) { 3 } else { 1 } {
        out.push(if r.one_in(8) { r.pick(&['\u{a0}', '\u{85}', '\u{1680}', '\u{2003}', '\u{2028}', '\u{3000}']) } else { ' ' });
    }
}

fn zeros(r: &mut Random, out: &mut String) {
    if r.one_in(8) {
        out.push_str(r.pick(&["0", "00", "0000000000000"]));
    }
}

fn spell_list(r: &mut Random, l: &NodeList, out: &mut String) {
    pad(r, out);
    for (i, n) in l.iter().enumerate() {
        if i > 0 {
            space(r, out);
        }
        spell_node(r, n, out);
    }
    pad(r, out);
}

fn spell_node(r: &mut Random, n: &Node, out: &mut String) {
    match n {
        Node::Group(g) => {
            out.extend(g.kind.prefix());
            out.push('(');
            spell_list(r, &g.contents, out);
            out.push(')');
            spell_multiplier(r, g.multiplier, out);
        }
        Node::BinaryGroup(g) => {
            out.push('[');
            spell_list(r, &g.lhs, out);
            out.push(g.kind.separator());
            spell_list(r, &g.rhs, out);
            out.push(']');
            spell_multiplier(r, g.multiplier, out);
        }
        Node::Rotation(t) => {
            out.push('@');
            spell_transform(r, &t.transform, out);
            spell_multiplier(r, t.multiplier, out);
        }
        Node::Move(m) => {
            if m.layers.invert {
                out.push('~');
            }
            spell_layers(r, m.layers.contents.as_ref(), out);
            spell_transform(r, &m.transform, out);
            spell_multiplier(r, m.multiplier, out);
        }
        Node::Sq1Move(Sq1Move::UD { u, d }) => {
            out.push('(');
            for (i, x) in [u, d].into_iter().enumerate() {
                out.push_str(if i > 0 { "," } else { "" });
                pad(r, out);
                spell_signed(r, i64::from(*x), out);
                pad(r, out);
            }
            out.push(')');
        }
        other => out.push_str(&other.to_string()),
    }
}

fn spell_signed(r: &mut Random, i: i64, out: &mut String) {
    out.push_str(if i < 0 { "-" } else { "" });
    zeros(r, out);
    out.push_str(&i.abs().to_string());
}

fn spell_multiplier(r: &mut Random, m: Multiplier, out: &mut String) {
    if m.0.abs() != 1 || r.one_in(8) {
        zeros(r, out);
        out.push_str(&m.0.abs().to_string());
    }
    out.push_str(if m.0 < 0 { "'" } else { "" });
}

fn comma(r: &mut Random, i: usize, out: &mut String) {
    if i > 0 {
        pad(r, out);
        out.push(',');
        pad(r, out);
    }
}

fn spell_transform(r: &mut Random, t: &Transform, out: &mut String) {
    out.push_str(&t.family);
    let Some(set) = &t.constraints else { return };
    out.push('{');
    pad(r, out);
    for (i, c) in set.into_iter().enumerate() {
        comma(r, i, out);
        let (sign, [a, b]) = match c {
            Constraint::Fix(a) => {
                out.push_str(a);
                continue;
            }
            Constraint::FromTo(names) => ("->", names),
            Constraint::Swap(names) => ("<>", names),
        };
        out.push_str(a);
        pad(r, out);
        out.push_str(sign);
        pad(r, out);
        out.push_str(b);
    }
    pad(r, out);
    out.push('}');
}

fn spell_layers(r: &mut Random, contents: Option<&LayerPrefixContents>, out: &mut String) {
    match contents {
        None => {}
        Some(LayerPrefixContents::Single(i)) => spell_signed(r, i.to_u16().into(), out),
        Some(LayerPrefixContents::Range(range)) => {
            let (mut i, mut j) = (range.start(), range.end());
            if r.one_in(2) {
                (i, j) = (j, i);
            }
            spell_signed(r, i.to_u16().into(), out);
            out.push('-');
            spell_signed(r, j.to_u16().into(), out);
        }
        Some(LayerPrefixContents::Set(set)) => {
            out.push('{');
            pad(r, out);
            for (i, e) in set.elements.iter().enumerate() {
                comma(r, i, out);
                match e {
                    LayerSetElement::Single(i) => spell_signed(r, i.to_i16().into(), out),
                    LayerSetElement::Range([i, j]) => {
                        spell_signed(r, i.to_i16().into(), out);
                        out.push_str(if i.is_positive() && j.is_positive() && r.one_in(2) { "-" } else { ".." });
                        spell_signed(r, j.to_i16().into(), out);
                    }
                }
            }
            pad(r, out);
            out.push('}');
        }
    }
}
