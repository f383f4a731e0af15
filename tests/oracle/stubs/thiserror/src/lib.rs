//! Stands in for thiserror: error wording is left out, so the derive gives nothing but the conversion that `?` needs.
use proc_macro::{TokenStream, TokenTree};

#[proc_macro_derive(Error, attributes(error, from))]
pub fn derive(item: TokenStream) -> TokenStream {
    let name = item.into_iter().filter_map(|t| match t {
        TokenTree::Ident(i) => Some(i.to_string()),
        _ => None,
    }).skip_while(|s| s != "enum" && s != "struct").nth(1).unwrap();
    if name == "ExpandError" {
        "impl From<crate::invert::InvertError> for ExpandError { fn from(e: crate::invert::InvertError) -> Self { Self::Invert(e) } }".parse().unwrap()
    } else {
        TokenStream::new()
    }
}
