//! Stand-in for the crate `serde`.
//!
//! The carried file `token.rs` derives `Serialize` and `Deserialize` for its types, and it has to
//! stay as it is. Reading a script never uses them, so they do nothing here: the oracle builds
//! from the standard library alone.

use proc_macro::TokenStream;

#[proc_macro_derive(Serialize)]
pub fn serialize(_type: TokenStream) -> TokenStream {
    TokenStream::new()
}

#[proc_macro_derive(Deserialize)]
pub fn deserialize(_type: TokenStream) -> TokenStream {
    TokenStream::new()
}
