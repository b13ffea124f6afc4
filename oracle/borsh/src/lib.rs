//! Stand-in for borsh. The reference derives serialisation on its state; the
//! oracle never serialises, so both derives only accept their attributes.
use proc_macro::TokenStream;

#[proc_macro_derive(BorshSerialize, attributes(borsh))]
pub fn serialize(_: TokenStream) -> TokenStream {
    TokenStream::new()
}

#[proc_macro_derive(BorshDeserialize, attributes(borsh))]
pub fn deserialize(_: TokenStream) -> TokenStream {
    TokenStream::new()
}
