//! Stand-in for `thiserror`: enough of its derive for the published error enums. Messages are
//! printed by `Debug`, since nothing compared reads them.

use proc_macro::{Delimiter, Group, TokenStream, TokenTree};

/// Derives `Display`, `std::error::Error`, and `From` for each variant `Name(#[from] Type)`.
#[proc_macro_derive(Error, attributes(error, from))]
pub fn derive_error(item: TokenStream) -> TokenStream {
    let tokens: Vec<TokenTree> = item.into_iter().collect();
    let name = name_of_enum(&tokens);
    let mut code = format!(
        "impl std::fmt::Display for {name} {{
             fn fmt(&self, f: &mut std::fmt::Formatter<'_>) -> std::fmt::Result {{
                 std::fmt::Debug::fmt(self, f)
             }}
         }}
         impl std::error::Error for {name} {{}}"
    );
    for (variant, source) in forwarded(&body_of_enum(&tokens)) {
        code += &format!(
            "impl From<{source}> for {name} {{
                 fn from(source: {source}) -> Self {{ Self::{variant}(source) }}
             }}"
        );
    }
    code.parse().expect("the derived code is Rust")
}

fn name_of_enum(tokens: &[TokenTree]) -> String {
    let keyword =
        tokens.iter().position(|token| token.to_string() == "enum").expect("errors are enums");
    tokens[keyword + 1].to_string()
}

fn body_of_enum(tokens: &[TokenTree]) -> Group {
    match tokens.last() {
        Some(TokenTree::Group(body)) if body.delimiter() == Delimiter::Brace => body.clone(),
        _ => panic!("an enum ends with its variants"),
    }
}

/// The variants whose one field is marked `#[from]`, each with the field's type.
fn forwarded(body: &Group) -> Vec<(String, String)> {
    let tokens: Vec<TokenTree> = body.stream().into_iter().collect();
    tokens
        .windows(2)
        .filter_map(|pair| match pair {
            [TokenTree::Ident(variant), TokenTree::Group(fields)] => {
                Some((variant.to_string(), marked_type(fields)?))
            }
            _ => None,
        })
        .collect()
}

/// The type after `#[from]`, if the parenthesized fields begin with that mark.
fn marked_type(fields: &Group) -> Option<String> {
    let mut tokens = fields.stream().into_iter();
    let hash = tokens.next()?.to_string();
    let mark = tokens.next()?.to_string();
    (fields.delimiter() == Delimiter::Parenthesis && hash == "#" && mark == "[from]")
        .then(|| tokens.collect::<TokenStream>().to_string())
}
