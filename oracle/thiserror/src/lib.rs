//! A stand-in for the derive that `version/mod.rs` names. The oracle never prints the one error
//! type that uses it, so the derive makes nothing; it is here so that the file is built unchanged.

use proc_macro::TokenStream;

/// Takes the `#[error(…)]` attributes and adds nothing.
#[proc_macro_derive(Error, attributes(error))]
pub fn error(_: TokenStream) -> TokenStream {
    TokenStream::new()
}
