// SPDX-License-Identifier: Apache-2.0
//! `#[derive(Error)]` for enums without generics whose cases have no field or one unnamed
//! field: all that the original asks of it. It writes `Display` from the `#[error("..")]`
//! texts, because `map_state_error` turns errors into text.

use proc_macro::{Delimiter, TokenStream, TokenTree};

#[proc_macro_derive(Error, attributes(error))]
pub fn derive_error(input: TokenStream) -> TokenStream {
    let tokens: Vec<TokenTree> = input.into_iter().collect();
    let at = tokens
        .iter()
        .position(|t| t.to_string() == "enum")
        .expect("an enum");
    let name = tokens[at + 1].to_string();
    let arms = match &tokens[at + 2] {
        TokenTree::Group(body) if body.delimiter() == Delimiter::Brace => arms(body.stream()),
        _ => panic!("an enum without generics"),
    };
    format!(
        "impl ::std::fmt::Display for {name} {{
            fn fmt(&self, f: &mut ::std::fmt::Formatter<'_>) -> ::std::fmt::Result {{
                match self {{ {arms} }}
            }}
        }}
        impl ::std::error::Error for {name} {{}}"
    )
    .parse()
    .expect("the written code is Rust")
}

/// One match arm for each case: its text comes first, as an attribute, then its name.
fn arms(body: TokenStream) -> String {
    let mut arms = String::new();
    let mut text = String::new();
    let mut tokens = body.into_iter().peekable();
    while let Some(token) = tokens.next() {
        match token {
            TokenTree::Group(group) if group.delimiter() == Delimiter::Bracket => {
                text = error_text(group.stream()).unwrap_or(text);
            }
            TokenTree::Ident(case) => {
                let field = matches!(tokens.peek(), Some(TokenTree::Group(_)));
                let (shape, argument) = if field {
                    ("(field)", ", field")
                } else {
                    ("", "")
                };
                arms += &format!("Self::{case}{shape} => ::std::write!(f, {text}{argument}),");
            }
            _ => {}
        }
    }
    arms
}

/// The literal inside `error("..")`; none for other attributes such as documentation.
fn error_text(attribute: TokenStream) -> Option<String> {
    let mut tokens = attribute.into_iter();
    match (tokens.next()?, tokens.next()?) {
        (TokenTree::Ident(name), TokenTree::Group(text)) if name.to_string() == "error" => {
            Some(text.stream().to_string())
        }
        _ => None,
    }
}
