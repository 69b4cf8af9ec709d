//! The attribute `#[recursive]`, without its growing stack: 128 records need none.
use proc_macro::TokenStream;

#[proc_macro_attribute]
pub fn recursive(_options: TokenStream, function: TokenStream) -> TokenStream {
    function
}
