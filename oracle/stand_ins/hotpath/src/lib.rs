//! Stand-in for the crate `hotpath`: nothing is measured.

use proc_macro::TokenStream;

#[proc_macro_attribute]
pub fn measure(_arguments: TokenStream, item: TokenStream) -> TokenStream {
    item
}
