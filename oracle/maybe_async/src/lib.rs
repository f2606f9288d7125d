//! The attribute `maybe_async` in its async form: functions stay async, and with `AFIT` so do those of traits.

use proc_macro::TokenStream;

/// The item as it is.
#[proc_macro_attribute]
pub fn maybe_async(_form: TokenStream, item: TokenStream) -> TokenStream {
    item
}
