//! Trees whose texts have over 65,536 bytes, about 70 KB to 4 MB. The shapes take turns, so that a short run has each of them; what is inside is random.
use crate::generate::{self, Random, Shape};
use crate::places::{Part, Place};
use hypuz_notation::*;

/// What 16 bits hold.
pub const WIDE: usize = 65_535;
/// How many shapes take turns.
pub const SHAPES: u64 = 16;
const MOST: i32 = i32::MAX;

/// The tree of a turn. Shapes with two forms change from one round to the next.
pub fn tree(r: &mut Random, turn: u64) -> NodeList {
    let odd = turn / SHAPES % 2 == 1;
    match turn % SHAPES {
        0 => NodeList(leaves(r)),
        1 => around(r, |r, multiplier| Node::Group(Group { kind: kind(r), contents: NodeList(nodes(r)), multiplier })),
        k @ 2..=7 => around(r, |r, multiplier| binary(r, k - 2, multiplier)),
        8 => with_field(r, odd, long_family),
        9 => with_field(r, odd, long_constraints),
        10 => with_field(r, odd, long_layers),
        11 => far_on(r, odd, |r| vec![niss(r)]),
        12 => far_on(r, odd, |_| vec![least()]),
        13 => far_on(r, odd, |r| if r.one_in(2) { vec![least(), niss(r)] } else { vec![niss(r), least()] }),
        14 => at_the_limit(r, !odd),
        _ => {
            let list = nodes(r);
            nested(r, NodeList(list))
        }
    }
}

fn shape() -> Shape {
    Shape { width: 4, room: i64::MAX, niss: false, least: false, wide_multipliers: false }
}

/// How many nodes a long list has: often about 65,536.
fn length(r: &mut Random) -> u64 {
    match r.below(4) {
        0 => WIDE as u64 + 1 + r.below(2),
        1 => 66_000 + r.below(10_000),
        2 => 70_000 + r.below(60_000),
        _ => 100_000 + r.below(130_000),
    }
}

/// A leaf of any kind, or a move of one letter, so that there are short texts of many records too.
fn leaf(r: &mut Random, plain: bool) -> Node {
    if !plain {
        return generate::leaf(r, &shape(), 1);
    }
    let transform = Transform { family: r.pick(&['R', 'U', 'F', 'β']).to_string(), constraints: None };
    Node::Move(Move { layers: LayerPrefix::default(), transform, multiplier: Multiplier(r.pick(&[1, 1, -1, 2])) })
}

fn leaves(r: &mut Random) -> Vec<Node> {
    let plain = r.one_in(2);
    (0..length(r)).map(|_| leaf(r, plain)).collect()
}

/// A long list with groups in it, up to three one inside another.
fn nodes(r: &mut Random) -> Vec<Node> {
    let plain = r.one_in(2);
    (0..length(r)).map(|_| if r.one_in(40) { generate::node(r, &mut shape(), 3) } else { leaf(r, plain) }).collect()
}

/// Some nodes, few enough to unroll.
fn few(r: &mut Random) -> Vec<Node> {
    (0..r.below(20)).map(|_| generate::node(r, &mut shape(), 2)).collect()
}

fn kind(r: &mut Random) -> GroupKind {
    r.pick(&[GroupKind::Simple, GroupKind::Simple, GroupKind::Macro, GroupKind::Simultaneous])
}

/// A group between some other nodes. Its repeats leave most lists short enough to unroll, and some not.
fn around(r: &mut Random, group: impl FnOnce(&mut Random, Multiplier) -> Node) -> NodeList {
    let mut list = few(r);
    let multiplier = Multiplier(r.pick(&[1, 1, -1, -1, 2, -2, 3, -3, 0, 50, -1000, 4000]));
    list.push(group(r, multiplier));
    list.extend(few(r));
    NodeList(list)
}

/// A commutator or a conjugate with its first, its second or both lists long.
fn binary(r: &mut Random, which: u64, multiplier: Multiplier) -> Node {
    let kind = if which < 3 { BinaryGroupKind::Commutator } else { BinaryGroupKind::Conjugate };
    let lhs = NodeList(if which % 3 == 1 { few(r) } else { nodes(r) });
    let rhs = NodeList(if which % 3 == 0 { few(r) } else { nodes(r) });
    Node::BinaryGroup(BinaryGroup { kind, lhs, rhs, multiplier })
}

/// A move with a long part, near the beginning or behind a long list.
fn with_field(r: &mut Random, behind: bool, make: impl FnOnce(&mut Random) -> Node) -> NodeList {
    let mut list = if behind { nodes(r) } else { few(r) };
    list.push(make(r));
    list.extend(few(r));
    NodeList(list)
}

/// Letters of one and two bytes, over 70,000 bytes of them.
fn long_name(r: &mut Random) -> String {
    let most = r.pick(&[1_000, 30_000, 400_000]);
    let size = 70_000 + r.below(most) as usize;
    let mut name = String::new();
    while name.len() < size {
        name.push_str(&generate::name(r));
    }
    name
}

fn long_family(r: &mut Random) -> Node {
    let transform = Transform { family: long_name(r), constraints: generate::constraints(r) };
    let multiplier = Multiplier(r.pick(&[1, -1, 2, -3]));
    if r.one_in(3) {
        return Node::Rotation(Rotation { transform, multiplier });
    }
    Node::Move(Move { layers: LayerPrefix { invert: r.one_in(2), contents: generate::layers(r) }, transform, multiplier })
}

/// Many constraints, or a few of which one has a long name.
fn long_constraints(r: &mut Random) -> Node {
    let one_name = r.one_in(3);
    let n = if one_name { 3 } else { 10_000 + r.below(30_000) };
    let mut constraints: Vec<Constraint> = (0..n).map(|_| generate::constraint(r)).collect();
    if one_name {
        constraints[1] = Constraint::FromTo([long_name(r), generate::name(r)]);
    }
    let transform = Transform { family: generate::name(r), constraints: Some(ConstraintSet { constraints: constraints.into() }) };
    Node::Move(Move { layers: LayerPrefix { invert: false, contents: generate::layers(r) }, transform, multiplier: Multiplier(-1) })
}

/// Many elements: layers and ranges, or layers alone, which do not all run together.
fn long_layers(r: &mut Random) -> Node {
    let single = r.one_in(2);
    let elements = (0..14_000 + r.below(30_000))
        .map(|_| if single { LayerSetElement::Single(SignedLayer::new(2 + 3 * r.below(10_000) as i16).unwrap()) } else { generate::element(r) })
        .collect();
    let layers = LayerPrefix { invert: r.one_in(2), contents: Some(LayerPrefixContents::Set(LayerSet { elements })) };
    let transform = Transform { family: generate::name(r), constraints: generate::constraints(r) };
    Node::Move(Move { layers, transform, multiplier: Multiplier(2) })
}

fn niss(r: &mut Random) -> Node {
    Node::Group(Group { kind: GroupKind::Niss, contents: NodeList(few(r)), multiplier: Multiplier(r.pick(&[1, -1, 2])) })
}

/// A pair that cannot be negated.
fn least() -> Node {
    Node::Sq1Move(Sq1Move::UD { u: 1, d: i32::MIN })
}

/// Nodes behind a long list, or inside a group there that plays them undone.
fn far_on(r: &mut Random, grouped: bool, make: impl FnOnce(&mut Random) -> Vec<Node>) -> NodeList {
    let mut list = nodes(r);
    let mut more = make(r);
    more.extend(few(r));
    if grouped {
        more = vec![undoing(r, NodeList(more))];
    }
    list.extend(more);
    NodeList(list)
}

/// A group of any kind that plays a list undone, by its sign or by what it is.
fn undoing(r: &mut Random, list: NodeList) -> Node {
    let multiplier = Multiplier(-1);
    let kind = match r.below(5) {
        0 => return Node::Group(Group { kind: kind(r), contents: list, multiplier }),
        1 | 2 => BinaryGroupKind::Commutator,
        _ => BinaryGroupKind::Conjugate,
    };
    let other = NodeList(few(r));
    let (lhs, rhs) = if r.one_in(2) { (list, other) } else { (other, list) };
    Node::BinaryGroup(BinaryGroup { kind, lhs, rhs, multiplier })
}

/// 4,294,967,295 steps, or one more; the long list before them is played no times.
fn at_the_limit(r: &mut Random, over: bool) -> NodeList {
    let group = |contents: Vec<Node>, multiplier| Node::Group(Group { kind: GroupKind::Simple, contents: NodeList(contents), multiplier: Multiplier(multiplier) });
    let unplayed = nodes(r);
    let [a, b, c, d] = [(); 4].map(|()| leaf(r, false));
    let mut list = vec![group(unplayed, 0), group(vec![a], MOST), group(vec![b], -MOST), c];
    if over {
        list.push(d);
    }
    NodeList(list)
}

/// Some 55 groups one inside another around a list, which leaves room for the groups in it; few of them repeat.
fn nested(r: &mut Random, mut inside: NodeList) -> NodeList {
    for level in 0..55 {
        let multiplier = Multiplier(if level % 30 == 0 { r.pick(&[2, -3]) } else { r.pick(&[1, -1]) });
        let mut list = vec![Node::Group(Group { kind: kind(r), contents: inside, multiplier })];
        list.extend(few(r).into_iter().take(1));
        if r.one_in(2) {
            list.reverse();
        }
        inside = NodeList(list);
    }
    inside
}

/// What these texts are for, each with how to tell that a text has it: all of it past 65,535.
pub const TO_HAVE: [(&str, fn(&str, &[Place]) -> bool); 15] = [
    ("bytes", |text, _| text.len() > WIDE),
    ("offset of a letter of several bytes", |text, _| !text.as_bytes()[WIDE + 1..].is_ascii()),
    ("offset of a family", |_, nodes| part(nodes, 0, |p| p.0 > WIDE)),
    ("offset of constraints", |_, nodes| part(nodes, 1, |p| p.0 > WIDE)),
    ("offset of a layer set", |_, nodes| part(nodes, 2, |p| p.0 > WIDE)),
    ("length of a family", |_, nodes| part(nodes, 0, |p| p.1 > WIDE)),
    ("length of constraints", |_, nodes| part(nodes, 1, |p| p.1 > WIDE)),
    ("length of a layer set", |_, nodes| part(nodes, 2, |p| p.1 > WIDE)),
    ("records of a flat list", |_, nodes| nodes.len() > WIDE && !nodes.iter().any(is_group)),
    ("records in a group", |_, nodes| held(nodes, 0, |n| matches!(n, Node::Group(_)))),
    ("records in the first list of a commutator", |_, nodes| held(nodes, 0, |n| is_binary(n, BinaryGroupKind::Commutator))),
    ("records in the second list of a commutator", |_, nodes| held(nodes, 1, |n| is_binary(n, BinaryGroupKind::Commutator))),
    ("records in the first list of a conjugate", |_, nodes| held(nodes, 0, |n| is_binary(n, BinaryGroupKind::Conjugate))),
    ("records in the second list of a conjugate", |_, nodes| held(nodes, 1, |n| is_binary(n, BinaryGroupKind::Conjugate))),
    ("records in a list with groups in it", |_, nodes| (0..nodes.len()).any(|i| holds_groups(nodes, i))),
];

fn part(nodes: &[Place], which: usize, over: impl Fn(Part) -> bool) -> bool {
    nodes.iter().any(|n| over(n.fields.parts[which]))
}

fn held(nodes: &[Place], which: usize, of: impl Fn(&Node) -> bool) -> bool {
    nodes.iter().any(|n| n.fields.lists[which] > WIDE && of(n.node))
}

fn is_group(n: &Place) -> bool {
    matches!(n.node, Node::Group(_) | Node::BinaryGroup(_))
}

fn is_binary(n: &Node, kind: BinaryGroupKind) -> bool {
    matches!(n, Node::BinaryGroup(g) if g.kind == kind)
}

/// Whether one of a record's lists is long and has groups in it.
fn holds_groups(nodes: &[Place], record: usize) -> bool {
    let [first, second] = nodes[record].fields.lists;
    let lists = [&nodes[record + 1..][..first], &nodes[record + 1 + first..][..second]];
    lists.iter().any(|l| l.len() > WIDE && l.iter().any(is_group))
}
