//! Stand-in for the crate `derive_more`, for `Stake`, the one type that uses it.

use proc_macro::TokenStream;

#[proc_macro_derive(Add)]
pub fn add(_item: TokenStream) -> TokenStream {
    implement(
        "impl ::core::ops::Add for Stake {
            type Output = Self;
            fn add(self, rhs: Self) -> Self { Self(self.0 + rhs.0) }
        }",
    )
}

#[proc_macro_derive(AddAssign)]
pub fn add_assign(_item: TokenStream) -> TokenStream {
    implement(
        "impl ::core::ops::AddAssign for Stake {
            fn add_assign(&mut self, rhs: Self) { self.0 += rhs.0; }
        }",
    )
}

#[proc_macro_derive(Sum)]
pub fn sum(_item: TokenStream) -> TokenStream {
    implement(
        "impl ::core::iter::Sum for Stake {
            fn sum<I: Iterator<Item = Self>>(iter: I) -> Self {
                iter.fold(Self(0), ::core::ops::Add::add)
            }
        }",
    )
}

fn implement(text: &str) -> TokenStream {
    text.parse().expect("the text is Rust")
}
