//! The derive macros of the shims `serde`, `thiserror` and `tl-proto`. Helper attributes are accepted and not read.

use proc_macro::{TokenStream, TokenTree};

/// Nothing is decoded: the derive only has to exist.
#[proc_macro_derive(TlRead, attributes(tl))]
pub fn tl_read(_: TokenStream) -> TokenStream {
    TokenStream::new()
}

/// Nothing is encoded: the derive only has to exist.
#[proc_macro_derive(TlWrite, attributes(tl))]
pub fn tl_write(_: TokenStream) -> TokenStream {
    TokenStream::new()
}

#[proc_macro_derive(Serialize, attributes(serde))]
pub fn serialize(input: TokenStream) -> TokenStream {
    implement(
        input,
        "impl ::serde::Serialize for NAME {
            fn serialize<S: ::serde::Serializer>(&self, _: S) -> Result<S::Ok, S::Error> {
                ::std::unimplemented!(\"nothing is serialized\")
            }
        }",
    )
}

/// `Display` is the `Debug` form; the text of `#[error(..)]` isn't read.
#[proc_macro_derive(Error, attributes(error))]
pub fn error(input: TokenStream) -> TokenStream {
    implement(
        input,
        "impl ::std::fmt::Display for NAME {
            fn fmt(&self, f: &mut ::std::fmt::Formatter<'_>) -> ::std::fmt::Result {
                ::std::fmt::Debug::fmt(self, f)
            }
        }
        impl ::std::error::Error for NAME {}",
    )
}

fn implement(input: TokenStream, text: &str) -> TokenStream {
    text.replace("NAME", &type_name(input)).parse().expect("the text is Rust")
}

/// The name after `struct` or `enum`; attributes are groups and so are passed over.
fn type_name(input: TokenStream) -> String {
    let mut tokens = input.into_iter();
    while let Some(token) = tokens.next() {
        if let TokenTree::Ident(word) = token
            && ["struct", "enum"].contains(&word.to_string().as_str())
        {
            return tokens.next().expect("a type has a name").to_string();
        }
    }
    panic!("neither struct nor enum")
}
