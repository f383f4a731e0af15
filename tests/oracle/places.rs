//! Where the parts of every record stand in the text that the Rust prints, and how many records its lists hold: worked out from the Rust's tree, to be
//! compared with the fields that the archive stores. The offsets are exact: a name that stands in the text twice does not hide a wrong one.
use crate::ours::RECORD;
use hypuz_notation::*;

/// The bits of the fields of a record, in order, as the header lists them.
const BITS: [usize; 15] = [4, 1, 2, 1, 24, 24, 32, 32, 24, 24, 24, 24, 24, 24, 40];
/// Which of them count the records of the first and the second list; offset and length of the family, the constraints and the layer set follow behind d.
const LISTS: usize = 4;
const PARTS: usize = 8;
const _: () = assert!(bits_before(BITS.len()) == 8 * RECORD, "the fields of the header fill a record");

const fn bits_before(field: usize) -> usize {
    let (mut sum, mut i) = (0, 0);
    while i < field {
        sum += BITS[i];
        i += 1;
    }
    sum
}

/// Offset and length in bytes; both 0 where there is nothing.
pub type Part = (usize, usize);

/// The fields of a record that say where something is.
#[derive(Clone, Copy, PartialEq, Debug, Default)]
pub struct Fields {
    /// Records in the first and the second list, nested ones included.
    pub lists: [usize; 2],
    /// Family, constraints, layer set.
    pub parts: [Part; 3],
}

/// A node and the fields that its record is to have.
pub struct Place<'a> {
    pub node: &'a Node,
    pub fields: Fields,
}

/// Every node in reading order, so that an index is a record's number; `size` is the bytes of the printed text.
pub fn expected(l: &NodeList, size: usize) -> Vec<Place<'_>> {
    let mut found = vec![];
    let end = list(l, 0, &mut found);
    assert_eq!(end, size, "the places end where the printed text ends");
    found
}

/// The places of a list that is printed at `at`; gives where it ends. Nodes are parted by one space.
fn list<'a>(l: &'a NodeList, mut at: usize, found: &mut Vec<Place<'a>>) -> usize {
    for (i, n) in l.iter().enumerate() {
        at = node(n, at + usize::from(i > 0), found);
    }
    at
}

fn node<'a>(n: &'a Node, at: usize, found: &mut Vec<Place<'a>>) -> usize {
    let own = found.len();
    found.push(Place { node: n, fields: Fields::default() });
    match n {
        Node::Group(g) => {
            let end = list(&g.contents, at + g.kind.prefix().map_or(0, char::len_utf8) + "(".len(), found);
            found[own].fields.lists[0] = found.len() - own - 1;
            end + ")".len() + printed(g.multiplier)
        }
        Node::BinaryGroup(g) => {
            let end = list(&g.lhs, at + "[".len(), found);
            found[own].fields.lists[0] = found.len() - own - 1;
            let second = found.len();
            let end = list(&g.rhs, end + ", ".len(), found);
            found[own].fields.lists[1] = found.len() - second;
            end + "]".len() + printed(g.multiplier)
        }
        Node::Rotation(t) => transform(&t.transform, at + "@".len(), &mut found[own].fields) + printed(t.multiplier),
        Node::Move(m) => {
            let start = at + if m.layers.invert { "~".len() } else { 0 };
            let end = start + m.layers.contents.as_ref().map_or(0, printed);
            if matches!(m.layers.contents, Some(LayerPrefixContents::Set(_))) {
                found[own].fields.parts[2] = (start, end - start);
            }
            transform(&m.transform, end, &mut found[own].fields) + printed(m.multiplier)
        }
        leaf => at + printed(leaf),
    }
}

fn transform(t: &Transform, at: usize, fields: &mut Fields) -> usize {
    let mut end = at + t.family.len();
    if !t.family.is_empty() {
        fields.parts[0] = (at, t.family.len());
    }
    if let Some(set) = &t.constraints {
        fields.parts[1] = (end, printed(set));
        end += fields.parts[1].1;
    }
    end
}

/// Bytes that are printed of something.
fn printed(what: impl std::fmt::Display) -> usize {
    what.to_string().len()
}

/// The same fields as the archive's records have them.
pub fn stored(tree: &[u8]) -> Vec<Fields> {
    tree.chunks(RECORD).map(unpacked).collect()
}

fn unpacked(record: &[u8]) -> Fields {
    let part = |i: usize| (field(record, PARTS + 2 * i), field(record, PARTS + 2 * i + 1));
    Fields { lists: [field(record, LISTS), field(record, LISTS + 1)], parts: [part(0), part(1), part(2)] }
}

/// A field that begins and ends with a byte.
fn field(record: &[u8], i: usize) -> usize {
    let (begin, end) = (bits_before(i), bits_before(i + 1));
    assert!(begin % 8 == 0 && end % 8 == 0);
    record[begin / 8..end / 8].iter().fold(0, |n, b| n << 8 | usize::from(*b))
}
