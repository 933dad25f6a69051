//! The derive `Error`. It takes the attributes `error` and `from`, and writes the `From` impls of an enum.
//!
//! The texts of the errors are not printed by anything here, so it writes no `Display`.

use proc_macro::{Delimiter, Group, TokenStream, TokenTree};

#[proc_macro_derive(Error, attributes(error, from))]
pub fn derive_error(input: TokenStream) -> TokenStream {
    let mut tokens = input.into_iter();
    let is_enum = loop {
        match tokens.next() {
            Some(TokenTree::Ident(word)) if word.to_string() == "enum" => break true,
            Some(TokenTree::Ident(word)) if word.to_string() == "struct" => break false,
            Some(_) => {}
            None => panic!("Error is derived for an enum or a struct"),
        }
    };
    if !is_enum {
        return TokenStream::new();
    }
    let name = tokens.next().expect("the enum's name").to_string();
    let Some(TokenTree::Group(body)) = tokens.next() else {
        panic!("Error is derived for an enum without parameters");
    };
    conversions(&name, &body)
        .parse()
        .expect("the impls are Rust")
}

/// The `From` impl of each variant whose field is marked `from`.
fn conversions(name: &str, body: &Group) -> String {
    let mut impls = String::new();
    let mut variant = String::new();
    for token in body.stream() {
        match token {
            TokenTree::Ident(word) => variant = word.to_string(),
            TokenTree::Group(fields) if fields.delimiter() == Delimiter::Parenthesis => {
                if let Some(source) = marked_from(&fields) {
                    impls += &format!(
                        "impl ::core::convert::From<{source}> for {name} {{
                            fn from(source: {source}) -> Self {{ {name}::{variant}(source) }}
                        }}"
                    );
                }
            }
            _ => {}
        }
    }
    impls
}

/// The type of a variant's only field, if it stands behind `#[from]`.
fn marked_from(fields: &Group) -> Option<String> {
    let mut tokens = fields.stream().into_iter();
    let marked = matches!(tokens.next(), Some(TokenTree::Punct(mark)) if mark.as_char() == '#')
        && matches!(tokens.next(), Some(TokenTree::Group(word)) if word.to_string() == "[from]");
    marked.then(|| tokens.collect::<TokenStream>().to_string())
}
