//! Stand-in for the crate `wincode`: its derives add nothing.

use proc_macro::TokenStream;

#[proc_macro_derive(SchemaRead)]
pub fn schema_read(_item: TokenStream) -> TokenStream {
    TokenStream::new()
}

#[proc_macro_derive(SchemaWrite)]
pub fn schema_write(_item: TokenStream) -> TokenStream {
    TokenStream::new()
}
