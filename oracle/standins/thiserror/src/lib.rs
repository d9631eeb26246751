//! Stand-in: `#[derive(Error)]` gives a `Display` that says the type's name.
#![allow(missing_docs)] // what is public here is named and meant as in the crate itself

use proc_macro::{TokenStream, TokenTree};

#[proc_macro_derive(Error, attributes(error, source, from))]
pub fn derive(input: TokenStream) -> TokenStream {
    let mut tokens = input.into_iter();
    while let Some(token) = tokens.next() {
        if let TokenTree::Ident(word) = &token {
            if word.to_string() == "enum" || word.to_string() == "struct" {
                let name = tokens.next().unwrap().to_string();
                return display(&name).parse().unwrap();
            }
        }
    }
    panic!("no type")
}

fn display(name: &str) -> String {
    format!(
        "impl ::std::fmt::Display for {name} {{
            fn fmt(&self, f: &mut ::std::fmt::Formatter) -> ::std::fmt::Result {{ write!(f, \"{name}\") }}
        }}"
    )
}
