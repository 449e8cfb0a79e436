//! The derives that types.rs names. Each expands to nothing.
use proc_macro::TokenStream;

#[proc_macro_derive(ValueEnum, attributes(value))]
pub fn value_enum(_item: TokenStream) -> TokenStream {
    TokenStream::new()
}

#[proc_macro_derive(Serialize)]
pub fn serialize(_item: TokenStream) -> TokenStream {
    TokenStream::new()
}

#[proc_macro_derive(Deserialize)]
pub fn deserialize(_item: TokenStream) -> TokenStream {
    TokenStream::new()
}
