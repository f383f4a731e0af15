//! Layer ranges as the Rust has them: what its `simplify` gives, what a tilde leaves of that (document 02, request 3: `simplify` knows no tilde), and the layers of
//! its own mask, which knows it.
#![allow(dead_code)]
use hypuz_notation::*;

/// Low and high, sorted, none touching.
pub type Ranges = Vec<(u16, u16)>;

/// What `simplify` gives for the contents of a prefix, whatever its tilde is.
pub fn contents(prefix: &LayerPrefix, info: AxisLayersInfo) -> Ranges {
    let contents = prefix.contents.clone().unwrap_or(LayerPrefixContents::Single(Layer::SHALLOWEST));
    let positive = |l: &SignedLayer| l.to_unsigned().expect("a simplified set has no negative layers").to_u16();
    match contents.simplify(info) {
        None => vec![],
        Some(LayerPrefixContents::Single(l)) => vec![(l.to_u16(), l.to_u16())],
        Some(LayerPrefixContents::Range(r)) => vec![(r.start().to_u16(), r.end().to_u16())],
        Some(LayerPrefixContents::Set(s)) => s
            .elements
            .iter()
            .map(|e| match e {
                LayerSetElement::Single(l) => (positive(l), positive(l)),
                LayerSetElement::Range([a, b]) => (positive(a), positive(b)),
            })
            .collect(),
    }
}

/// What a prefix is to give: its contents, or with a tilde the layers that these leave.
pub fn expected(prefix: &LayerPrefix, info: AxisLayersInfo) -> Ranges {
    let given = contents(prefix, info);
    if prefix.invert { left(&given, info.max_layer) } else { given }
}

/// The layers from 1 to the last that no range has.
fn left(given: &Ranges, max_layer: u16) -> Ranges {
    let mut has = vec![false; usize::from(max_layer) + 1];
    given.iter().for_each(|(low, high)| has[usize::from(*low)..=usize::from(*high)].fill(true));
    runs((1..=max_layer).filter(|l| !has[usize::from(*l)]))
}

/// The layers of the Rust's mask.
pub fn masked(prefix: &LayerPrefix, info: AxisLayersInfo) -> Ranges {
    runs(prefix.to_layer_mask(info).iter().map(Layer::to_u16))
}

/// Ascending layers as ranges.
fn runs(layers: impl Iterator<Item = u16>) -> Ranges {
    let mut out: Ranges = vec![];
    for l in layers {
        match out.last_mut() {
            Some((_, high)) if *high + 1 == l => *high = l,
            _ => out.push((l, l)),
        }
    }
    out
}
