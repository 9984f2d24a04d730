//! Stands in for the crate `multiversion`, which Debian does not have: the function is compiled once, for the default target.
use proc_macro::TokenStream;

#[proc_macro_attribute]
pub fn multiversion(_targets: TokenStream, item: TokenStream) -> TokenStream {
    item
}
