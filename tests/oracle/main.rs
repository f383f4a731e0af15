//! Reads trees in a plain prefix form from standard input, one on a line, and writes what the Rust makes of each: Display, `inv`, `inv_deep`,
//! `flatten` and, of its first move, `simplify` (what that leaves, where the move has a tilde) and the layers of its mask. Fields are parted by tabs.
//!
//! A list is `[` nodes `]`. A node: `g KIND LIST M`, `b KIND LIST LIST M`, `@ FAMILY CONSTRAINTS M`, `m TILDE LAYERS FAMILY CONSTRAINTS M`,
//! `.`, `/`, `p U D`, `x KIND`. A family is `"` and the letters. Constraints: `-` for none, else `{` elements `}`, an element `= A`, `> A B`
//! or `< A B`. Layers: `-`, `s I`, `r I J`, `{` elements `}`, an element `s I` or `r I J`. After the tree: max_layer and 0 or 1 for negatives.
#[path = "layers.rs"]
mod layers;

use hypuz_notation::*;
use std::io::{BufRead, Write};

struct Tokens<'a>(std::str::SplitAsciiWhitespace<'a>);

impl<'a> Tokens<'a> {
    fn word(&mut self) -> &'a str {
        self.0.next().expect("a token")
    }

    fn number<T: std::str::FromStr>(&mut self) -> T {
        self.word().parse().ok().expect("a number")
    }

    fn name(&mut self) -> String {
        self.word()[1..].to_string()
    }

    fn list(&mut self) -> NodeList {
        assert_eq!(self.word(), "[");
        let mut nodes = vec![];
        loop {
            let w = self.word();
            if w == "]" {
                return NodeList(nodes);
            }
            nodes.push(self.node(w));
        }
    }

    fn node(&mut self, w: &str) -> Node {
        match w {
            "g" => {
                let kind = [GroupKind::Simple, GroupKind::Macro, GroupKind::Simultaneous, GroupKind::Niss][self.number::<usize>()];
                let contents = self.list();
                Node::Group(Group { kind, contents, multiplier: Multiplier(self.number()) })
            }
            "b" => {
                let kind = [BinaryGroupKind::Commutator, BinaryGroupKind::Conjugate][self.number::<usize>()];
                let (lhs, rhs) = (self.list(), self.list());
                Node::BinaryGroup(BinaryGroup { kind, lhs, rhs, multiplier: Multiplier(self.number()) })
            }
            "@" => {
                let transform = self.transform();
                Node::Rotation(Rotation { transform, multiplier: Multiplier(self.number()) })
            }
            "m" => {
                let invert = self.word() == "1";
                let contents = self.layers();
                let transform = self.transform();
                Node::Move(Move { layers: LayerPrefix { invert, contents }, transform, multiplier: Multiplier(self.number()) })
            }
            "." => Node::Pause,
            "/" => Node::Sq1Move(Sq1Move::Slash),
            "p" => Node::Sq1Move(Sq1Move::UD { u: self.number(), d: self.number() }),
            "x" => Node::MegaminxScrambleMove(
                [MegaminxScrambleMove::Rpp, MegaminxScrambleMove::Rmm, MegaminxScrambleMove::Dpp, MegaminxScrambleMove::Dmm][self.number::<usize>()],
            ),
            _ => panic!("no node: {w}"),
        }
    }

    fn transform(&mut self) -> Transform {
        let family = self.name();
        let constraints = match self.word() {
            "-" => None,
            _ => {
                let mut found = vec![];
                loop {
                    found.push(match self.word() {
                        "}" => break,
                        "=" => Constraint::Fix(self.name()),
                        ">" => Constraint::FromTo([self.name(), self.name()]),
                        _ => Constraint::Swap([self.name(), self.name()]),
                    });
                }
                Some(ConstraintSet { constraints: found.into_boxed_slice() })
            }
        };
        Transform { family, constraints }
    }

    fn layers(&mut self) -> Option<LayerPrefixContents> {
        let layer = |t: &mut Self| Layer::new(t.number()).expect("a layer");
        let signed = |t: &mut Self| SignedLayer::new(t.number()).expect("a signed layer");
        match self.word() {
            "-" => None,
            "s" => Some(LayerPrefixContents::Single(layer(self))),
            "r" => Some(LayerPrefixContents::Range(LayerRange::new(layer(self), layer(self)))),
            _ => {
                let mut elements = vec![];
                loop {
                    elements.push(match self.word() {
                        "}" => break,
                        "s" => LayerSetElement::Single(signed(self)),
                        _ => LayerSetElement::Range([signed(self), signed(self)]),
                    });
                }
                Some(LayerPrefixContents::Set(LayerSet { elements }))
            }
        }
    }
}

fn inverted(r: Result<NodeList, InvertError>) -> String {
    match r {
        Ok(l) => l.to_string(),
        Err(InvertError::NissNodeCannotBeInverted) => "refused 7".into(),
        Err(InvertError::IntegerOverflow) => "refused 8".into(),
    }
}

fn flattened(r: Result<NodeList, ExpandError>) -> String {
    match r {
        Ok(l) => format!("{} {l}", l.len()),
        Err(ExpandError::NissNodeCannotBeExpanded) => "refused 7".into(),
        Err(ExpandError::Invert(e)) => inverted(Err(e)),
    }
}

/// The ranges of the first move, by `simplify` and what a tilde leaves of it, and by the Rust's mask.
fn ranges(l: &NodeList, info: AxisLayersInfo) -> [String; 2] {
    let Some(mv) = l.iter().find_map(|n| n.as_move()) else {
        return [String::new(), String::new()];
    };
    [layers::expected(&mv.layers, info), layers::masked(&mv.layers, info)].map(|found| {
        let shown: Vec<String> = found.iter().map(|(low, high)| format!("{low}-{high}")).collect();
        if shown.is_empty() { "none".into() } else { shown.join(" ") }
    })
}

fn main() {
    let out = std::io::stdout();
    let mut out = std::io::BufWriter::new(out.lock());
    for line in std::io::stdin().lock().lines() {
        let line = line.unwrap();
        let mut t = Tokens(line.split_ascii_whitespace());
        let list = t.list();
        let info = AxisLayersInfo { max_layer: t.number(), allow_negatives: t.word() == "1" };
        let [resolved, masked] = ranges(&list, info);
        writeln!(
            out,
            "{list}\t{}\t{}\t{}\t{resolved}\t{masked}",
            inverted(list.clone().inv()),
            inverted(list.clone().inv_deep()),
            flattened(list.flatten())
        )
        .unwrap();
    }
}
