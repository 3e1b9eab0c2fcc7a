//! Stand-in for `serde_derive`: accepts the derive and its attributes and makes no code.

use proc_macro::TokenStream;

/// Accepts `#[derive(Serialize)]` with any `#[serde(..)]` attribute.
#[proc_macro_derive(Serialize, attributes(serde))]
pub fn derive_serialize(_item: TokenStream) -> TokenStream {
    TokenStream::new()
}
