//! A plain recursive-descent reader with `Vec` and `String`, all features on, that builds the Rust's own types: what one would write by hand
//! in place of the published reader, which leans on chumsky.
use hypuz_notation::*;

const DEEPEST: usize = 64;
/// Bytes of the longest text.
pub const LONGEST: usize = 16_777_215;

struct Reader<'a> {
    text: &'a str,
    at: usize,
    depth: usize,
}

/// The nodes of a text, or nothing where it is refused.
pub fn read(text: &[u8]) -> Option<NodeList> {
    if text.len() > LONGEST {
        return None;
    }
    let mut r = Reader { text: std::str::from_utf8(text).ok()?, at: 0, depth: 0 };
    let list = r.list()?;
    (r.at == text.len()).then_some(list)
}

fn is_family_char(c: char) -> bool {
    c.is_ascii_alphabetic() || c == '_' || matches!(c, 'Γ' | 'Δ' | 'Θ' | 'Λ' | 'Ξ' | 'Π' | 'Σ' | 'Φ' | 'Ψ' | 'Ω' | 'β' | 'δ' | 'ζ' | 'θ' | 'λ' | 'ξ' | 'ε' | 'η' | 'κ' | 'μ' | 'π' | 'τ' | 'φ' | 'ψ' | 'ω')
}

impl<'a> Reader<'a> {
    fn rest(&self) -> &'a str {
        &self.text[self.at..]
    }

    fn byte(&self) -> Option<u8> {
        self.text.as_bytes().get(self.at).copied()
    }

    fn take(&mut self, word: &str) -> bool {
        let found = self.text.as_bytes()[self.at..].starts_with(word.as_bytes());
        if found {
            self.at += word.len();
        }
        found
    }

    fn spaces(&mut self) -> bool {
        let start = self.at;
        while let Some(c) = self.rest().chars().next().filter(|c| c.is_whitespace()) {
            self.at += c.len_utf8();
        }
        self.at > start
    }

    /// Runs a reader; where it gives nothing the place is as before.
    fn attempt<T>(&mut self, f: impl FnOnce(&mut Self) -> Option<T>) -> Option<T> {
        let start = self.at;
        let found = f(self);
        if found.is_none() {
            self.at = start;
        }
        found
    }

    fn list(&mut self) -> Option<NodeList> {
        let mut nodes = vec![];
        self.spaces();
        while let Some(n) = self.node() {
            nodes.push(n);
            if !self.spaces() {
                break;
            }
        }
        Some(NodeList(nodes))
    }

    fn node(&mut self) -> Option<Node> {
        match self.byte()? {
            b'.' => {
                self.at += 1;
                Some(Node::Pause)
            }
            b'/' => {
                self.at += 1;
                Some(Node::Sq1Move(Sq1Move::Slash))
            }
            b'@' => {
                self.at += 1;
                let transform = self.transform();
                Some(Node::Rotation(Rotation { transform, multiplier: self.multiplier() }))
            }
            b'(' => self.attempt(|r| r.group(GroupKind::Simple)).or_else(|| self.attempt(Self::pair)),
            b'!' => self.attempt(|r| r.prefixed(GroupKind::Macro)),
            b'&' => self.attempt(|r| r.prefixed(GroupKind::Simultaneous)),
            b'^' => self.attempt(|r| r.prefixed(GroupKind::Niss)),
            b'[' => self.attempt(Self::binary),
            b'R' | b'D' => self.megaminx().or_else(|| self.attempt(Self::move_)),
            _ => self.attempt(Self::move_),
        }
    }

    fn megaminx(&mut self) -> Option<Node> {
        let kind = match self.text.as_bytes().get(self.at..self.at + 3)? {
            b"R++" => MegaminxScrambleMove::Rpp,
            b"R--" => MegaminxScrambleMove::Rmm,
            b"D++" => MegaminxScrambleMove::Dpp,
            b"D--" => MegaminxScrambleMove::Dmm,
            _ => return None,
        };
        self.at += 3;
        Some(Node::MegaminxScrambleMove(kind))
    }

    fn prefixed(&mut self, kind: GroupKind) -> Option<Node> {
        self.at += 1;
        self.group(kind)
    }

    fn inside(&mut self) -> Option<NodeList> {
        if self.depth == DEEPEST {
            return None;
        }
        self.depth += 1;
        let list = self.list();
        self.depth -= 1;
        list
    }

    fn group(&mut self, kind: GroupKind) -> Option<Node> {
        self.take("(").then_some(())?;
        let contents = self.inside()?;
        self.take(")").then_some(())?;
        Some(Node::Group(Group { kind, contents, multiplier: self.multiplier() }))
    }

    fn binary(&mut self) -> Option<Node> {
        self.at += 1;
        let lhs = self.inside()?;
        let kind = match self.byte()? {
            b',' => BinaryGroupKind::Commutator,
            b':' => BinaryGroupKind::Conjugate,
            _ => return None,
        };
        self.at += 1;
        let rhs = self.inside()?;
        self.take("]").then_some(())?;
        Some(Node::BinaryGroup(BinaryGroup { kind, lhs, rhs, multiplier: self.multiplier() }))
    }

    fn pair(&mut self) -> Option<Node> {
        self.at += 1;
        self.spaces();
        let u = self.signed()?;
        self.spaces();
        self.take(",").then_some(())?;
        self.spaces();
        let d = self.signed()?;
        self.spaces();
        self.take(")").then_some(())?;
        Some(Node::Sq1Move(Sq1Move::UD { u, d }))
    }

    fn move_(&mut self) -> Option<Node> {
        let invert = self.take("~");
        let contents = self.layers();
        let transform = self.transform();
        if transform.family.is_empty() {
            return None;
        }
        Some(Node::Move(Move { layers: LayerPrefix { invert, contents }, transform, multiplier: self.multiplier() }))
    }

    fn digits(&mut self) -> Option<&'a str> {
        let start = self.at;
        while self.byte().is_some_and(|b| b.is_ascii_digit()) {
            self.at += 1;
        }
        (self.at > start).then(|| &self.text[start..self.at])
    }

    fn signed<T: std::str::FromStr>(&mut self) -> Option<T> {
        self.attempt(|r| {
            let start = r.at;
            r.take("-");
            r.digits()?;
            r.text[start..r.at].parse().ok()
        })
    }

    fn unsigned<T: std::str::FromStr>(&mut self) -> Option<T> {
        self.attempt(|r| r.digits()?.parse().ok())
    }

    fn multiplier(&mut self) -> Multiplier {
        let n = self.unsigned::<i32>().unwrap_or(1);
        Multiplier(if self.take("'") { -n } else { n })
    }

    fn braces<T>(&mut self, element: impl Fn(&mut Self) -> Option<T>) -> Option<Vec<T>> {
        self.take("{").then_some(())?;
        self.spaces();
        let mut found = vec![];
        while let Some(e) = element(self) {
            found.push(e);
            self.spaces();
            if !self.take(",") {
                break;
            }
            self.spaces();
            if self.byte() == Some(b'}') {
                return None;
            }
        }
        self.spaces();
        self.take("}").then_some(found)
    }

    fn layers(&mut self) -> Option<LayerPrefixContents> {
        if let Some(elements) = self.attempt(|r| r.braces(Self::element)) {
            return Some(LayerPrefixContents::Set(LayerSet { elements }));
        }
        let i = self.unsigned::<Layer>()?;
        let j = self.attempt(|r| r.take("-").then(|| r.unsigned::<Layer>())?);
        Some(match j {
            Some(j) => LayerPrefixContents::Range(LayerRange::new(i, j)),
            None => LayerPrefixContents::Single(i),
        })
    }

    fn element(&mut self) -> Option<LayerSetElement> {
        let i = self.signed::<SignedLayer>()?;
        let j = self.attempt(|r| if r.take("..") { r.signed() } else if i.is_positive() && r.take("-") { r.unsigned() } else { None });
        Some(j.map_or(LayerSetElement::Single(i), |j| LayerSetElement::Range([i, j])))
    }

    fn name(&mut self) -> &'a str {
        let start = self.at;
        while let Some(c) = self.rest().chars().next().filter(|c| is_family_char(*c)) {
            self.at += c.len_utf8();
        }
        &self.text[start..self.at]
    }

    fn transform(&mut self) -> Transform {
        let family = self.name().to_string();
        let constraints = self.attempt(|r| r.braces(Self::constraint)).map(ConstraintSet::from);
        Transform { family, constraints }
    }

    fn constraint(&mut self) -> Option<Constraint> {
        let a = self.name();
        if a.is_empty() {
            return None;
        }
        let pair = self.attempt(|r| {
            r.spaces();
            let swap = if r.take("->") { false } else if r.take("<>") { true } else { return None };
            r.spaces();
            let b = r.name();
            (!b.is_empty()).then(|| (swap, [a.to_string(), b.to_string()]))
        });
        Some(match pair {
            None => Constraint::Fix(a.to_string()),
            Some((false, names)) => Constraint::FromTo(names),
            Some((true, names)) => Constraint::Swap(names),
        })
    }
}
