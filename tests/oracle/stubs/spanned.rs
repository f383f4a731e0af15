//! Stands in for the spanned trees. Parsing needs chumsky, which cannot be had here; these only let unspanned.rs compile.
use crate::{Features, LayerFeatures, ParseError};

pub struct Unread;

impl Unread {
    pub fn to_unspanned<T, R>(&self, _: T) -> R {
        unimplemented!()
    }
}

pub struct UnreadPrefix;

impl UnreadPrefix {
    pub fn to_unspanned<R>(&self) -> R {
        unimplemented!()
    }
}

pub fn parse_notation(_: &str, _: Features) -> Result<Unread, Vec<ParseError<'_>>> {
    unimplemented!()
}

pub fn parse_notation_node(_: &str, _: Features) -> Result<Unread, Vec<ParseError<'_>>> {
    unimplemented!()
}

pub fn parse_layer_prefix(_: &str, _: LayerFeatures) -> Result<UnreadPrefix, Vec<ParseError<'_>>> {
    unimplemented!()
}
