//! Derives of the two traits that every type already has in `zerocopy-names`.

use proc_macro::TokenStream;

#[proc_macro_derive(KnownLayout)]
pub fn known_layout(_: TokenStream) -> TokenStream {
    TokenStream::new()
}

#[proc_macro_derive(Immutable)]
pub fn immutable(_: TokenStream) -> TokenStream {
    TokenStream::new()
}
