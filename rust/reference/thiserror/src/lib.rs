//! Takes the place of the crate thiserror, which no reference function needs: the original's error types derive
//! `Error`, and here they get nothing by it.

use proc_macro::TokenStream;

/// Accepts `#[error(..)]` and adds nothing.
#[proc_macro_derive(Error, attributes(error))]
pub fn error(_: TokenStream) -> TokenStream {
    TokenStream::new()
}
