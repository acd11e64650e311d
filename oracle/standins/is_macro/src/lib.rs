//! Stand-in for `is-macro`. The crate's files derive `Is` on `Specifier` and call none of the methods it would make, so
//! this derives nothing.

use proc_macro::TokenStream;

#[proc_macro_derive(Is, attributes(is))]
pub fn is(_: TokenStream) -> TokenStream {
    TokenStream::new()
}
