//! `derive(Error)` as far as the published crates need it: `Display` through `Debug`, an empty
//! `Error`, and `From` for a variant whose one field is marked `#[from]`. No text is made from
//! the `#[error(..)]` attributes: the comparison looks at values and not at texts.
use proc_macro::{Delimiter, TokenStream, TokenTree};

#[proc_macro_derive(Error, attributes(error, from))]
pub fn derive(item: TokenStream) -> TokenStream {
    let tokens: Vec<TokenTree> = item.into_iter().collect();
    let keyword = |t: &TokenTree| matches!(t.to_string().as_str(), "enum" | "struct");
    let at = tokens.iter().position(keyword).expect("a type") + 1;
    let name = &tokens[at];
    let mut code = format!(
        "impl ::std::fmt::Display for {name} {{
            fn fmt(&self, f: &mut ::std::fmt::Formatter<'_>) -> ::std::fmt::Result {{
                ::std::fmt::Debug::fmt(self, f)
            }}
        }}
        impl ::std::error::Error for {name} {{}}"
    );
    if let Some(TokenTree::Group(body)) = tokens.get(at + 1) {
        let variants: Vec<TokenTree> = body.stream().into_iter().collect();
        for pair in variants.windows(2) {
            if let (TokenTree::Ident(variant), Some(from)) = (&pair[0], marked(&pair[1])) {
                code += &format!(
                    "impl ::std::convert::From<{from}> for {name} {{
                        fn from(source: {from}) -> Self {{ Self::{variant}(source) }}
                    }}"
                );
            }
        }
    }
    code.parse().expect("Rust")
}

/// The type of a field that is marked `#[from]`.
fn marked(fields: &TokenTree) -> Option<String> {
    let TokenTree::Group(group) = fields else {
        return None;
    };
    if group.delimiter() != Delimiter::Parenthesis {
        return None;
    }
    let text = group.stream().to_string();
    Some(text.strip_prefix("#[from]")?.trim().to_owned())
}
