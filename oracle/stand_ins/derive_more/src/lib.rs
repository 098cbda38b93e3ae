//! Stand-in for the crate `derive_more`, for structs that wrap one number.

use proc_macro::{TokenStream, TokenTree};

#[proc_macro_derive(Add)]
pub fn add(item: TokenStream) -> TokenStream {
    implement(
        item,
        "impl ::core::ops::Add for NAME {
            type Output = Self;
            fn add(self, rhs: Self) -> Self { Self(self.0 + rhs.0) }
        }",
    )
}

/// Counts a step too: a fill of bins that does not end adds without end.
#[proc_macro_derive(AddAssign)]
pub fn add_assign(item: TokenStream) -> TokenStream {
    implement(
        item,
        "impl ::core::ops::AddAssign for NAME {
            fn add_assign(&mut self, rhs: Self) {
                crate::steps::count();
                self.0 += rhs.0;
            }
        }",
    )
}

#[proc_macro_derive(Sum)]
pub fn sum(item: TokenStream) -> TokenStream {
    implement(
        item,
        "impl ::core::iter::Sum for NAME {
            fn sum<I: Iterator<Item = Self>>(iter: I) -> Self {
                iter.fold(Self(0), ::core::ops::Add::add)
            }
        }",
    )
}

/// The text with the struct's name put for NAME.
fn implement(item: TokenStream, text: &str) -> TokenStream {
    let is_struct = |token: &TokenTree| token.to_string() == "struct";
    let name = item
        .into_iter()
        .skip_while(|token| !is_struct(token))
        .nth(1);
    let name = name.expect("a struct with a name").to_string();
    text.replace("NAME", &name)
        .parse()
        .expect("the text is Rust")
}
