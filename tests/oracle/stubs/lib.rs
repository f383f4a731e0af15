//! The root of the carried files, without what leans on chumsky and ecow.
pub mod common;
pub mod expand;
pub mod invert;
pub mod layer;
pub mod spanned;
pub mod unspanned;

pub use expand::*;
pub use invert::*;
pub use layer::*;
pub use unspanned::*;

pub type Str = String;

/// Nothing is parsed here.
pub struct ParseError<'a>(std::marker::PhantomData<&'a ()>);

#[derive(Debug, Copy, Clone)]
pub struct Features;

#[derive(Debug, Copy, Clone)]
pub struct LayerFeatures;
