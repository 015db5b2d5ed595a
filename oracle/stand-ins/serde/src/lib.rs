//! Stand-in for `serde`: the published files derive its two traits and never use them here.

use proc_macro::TokenStream;

/// Derives nothing; accepts the `serde` attributes.
#[proc_macro_derive(Serialize, attributes(serde))]
pub fn derive_serialize(_item: TokenStream) -> TokenStream {
    TokenStream::new()
}

/// Derives nothing; accepts the `serde` attributes.
#[proc_macro_derive(Deserialize, attributes(serde))]
pub fn derive_deserialize(_item: TokenStream) -> TokenStream {
    TokenStream::new()
}
