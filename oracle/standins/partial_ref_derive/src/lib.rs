//! Stand-in: `#[derive(PartialRefTarget)]` for one struct with one lifetime, read token by token.
#![allow(missing_docs)] // what is public here is named and meant as in the crate itself

use proc_macro::{TokenStream, TokenTree};

#[proc_macro_derive(PartialRefTarget, attributes(part))]
pub fn derive(input: TokenStream) -> TokenStream {
    let (name, fields) = struct_of(input);
    let mut out = whole(&name);
    let mut at = 0;
    while at < fields.len() {
        // # [part(NAME ..)] pub FIELD : TYPE ,
        let attribute = group(&fields[at + 1]);
        at += 2;
        if attribute[0].to_string() != "part" {
            continue;
        }
        let part = group(&attribute[1])[0].to_string();
        let field = fields[at + 1].to_string();
        at += 3;
        let mut ty = String::new();
        while at < fields.len() && fields[at].to_string() != "," {
            ty.push_str(&fields[at].to_string());
            if fields[at].to_string() != "'" {
                ty.push(' ');
            }
            at += 1;
        }
        at += 1;
        out.push_str(&part_of(&name, &part, &ty, &field));
    }
    out.parse().unwrap()
}

fn group(token: &TokenTree) -> Vec<TokenTree> {
    match token {
        TokenTree::Group(group) => group.stream().into_iter().collect(),
        _ => panic!("not a group"),
    }
}

/// The struct's name and the tokens of its fields.
fn struct_of(input: TokenStream) -> (String, Vec<TokenTree>) {
    let mut tokens = input.into_iter();
    let mut name = String::new();
    while let Some(token) = tokens.next() {
        match &token {
            TokenTree::Ident(word) if word.to_string() == "struct" => name = tokens.next().unwrap().to_string(),
            TokenTree::Group(_) if !name.is_empty() => return (name, group(&token)),
            _ => (),
        }
    }
    panic!("no struct")
}

fn whole(name: &str) -> String {
    format!(
        "impl<'a> ::partial_ref::IntoPartialRef for {name}<'a> {{
            fn into_partial_ref(&self) -> ::partial_ref::PRef<'_, Self> {{
                ::partial_ref::PRef::new_raw(self as *const Self as *mut Self)
            }}
        }}
        impl<'a> ::partial_ref::IntoPartialRefMut for {name}<'a> {{
            fn into_partial_ref_mut(&mut self) -> ::partial_ref::PRef<'_, Self> {{
                ::partial_ref::PRef::new_raw(self as *mut Self)
            }}
        }}\n"
    )
}

fn part_of(name: &str, part: &str, ty: &str, field: &str) -> String {
    format!(
        "impl<'a> ::partial_ref::PartOf<{name}<'a>> for {part} {{
            type Ty = {ty};
            unsafe fn get(whole: *mut {name}<'a>) -> *mut {ty} {{ ::std::ptr::addr_of_mut!((*whole).{field}) }}
        }}\n"
    )
}
