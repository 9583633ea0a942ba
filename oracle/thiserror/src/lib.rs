//! `#[derive(Error)]` for enums whose variants all have `#[error("..")]`: as
//! much of the crate of this name as rtcp-types needs.

use proc_macro::{Delimiter, Group, TokenStream, TokenTree};

#[proc_macro_derive(Error, attributes(error))]
pub fn derive_error(input: TokenStream) -> TokenStream {
    let (name, body) = name_and_body(input);
    let arms: String = variants(body.stream()).iter().map(Variant::arm).collect();
    format!(
        "impl ::std::fmt::Display for {name} {{
            fn fmt(&self, f: &mut ::std::fmt::Formatter<'_>) -> ::std::fmt::Result {{
                match self {{ {arms} }}
            }}
        }}
        impl ::std::error::Error for {name} {{}}"
    )
    .parse()
    .expect("the impls are Rust")
}

fn name_and_body(input: TokenStream) -> (String, Group) {
    let mut tokens = input.into_iter();
    tokens
        .find(|token| token.to_string() == "enum")
        .expect("an enum");
    let name = tokens.next().expect("a name").to_string();
    match tokens.next() {
        Some(TokenTree::Group(body)) => (name, body),
        _ => panic!("an enum without parameters"),
    }
}

#[derive(Default)]
struct Variant {
    name: String,
    fields: Option<Group>,
    message: Option<TokenStream>,
}

fn variants(body: TokenStream) -> Vec<Variant> {
    let mut variants = Vec::new();
    let mut variant = Variant::default();
    for token in body {
        match token {
            TokenTree::Group(group) if group.delimiter() == Delimiter::Bracket => {
                if let Some(message) = error_message(group.stream()) {
                    variant.message = Some(message);
                }
            }
            TokenTree::Group(group) => variant.fields = Some(group),
            TokenTree::Ident(ident) => variant.name = ident.to_string(),
            TokenTree::Punct(punct) if punct.as_char() == ',' => {
                variants.push(std::mem::take(&mut variant));
            }
            _ => {}
        }
    }
    if !variant.name.is_empty() {
        variants.push(variant);
    }
    variants
}

/// The arguments of an `error(..)` attribute.
fn error_message(attribute: TokenStream) -> Option<TokenStream> {
    let mut tokens = attribute.into_iter();
    match (tokens.next(), tokens.next()) {
        (Some(TokenTree::Ident(name)), Some(TokenTree::Group(message)))
            if name.to_string() == "error" =>
        {
            Some(message.stream())
        }
        _ => None,
    }
}

impl Variant {
    fn arm(&self) -> String {
        let message = self.message.clone().expect("each variant has a message");
        format!(
            "Self::{}{} => write!(f, {}),",
            self.name,
            self.pattern(),
            arguments(message)
        )
    }

    fn pattern(&self) -> String {
        match &self.fields {
            None => String::new(),
            Some(fields) if fields.delimiter() == Delimiter::Parenthesis => "(_0)".to_string(),
            Some(fields) => format!("{{ {} }}", field_names(fields.stream()).join(", ")),
        }
    }
}

/// The identifiers before a colon.
fn field_names(fields: TokenStream) -> Vec<String> {
    let tokens: Vec<TokenTree> = fields.into_iter().collect();
    tokens
        .windows(2)
        .filter_map(|pair| match pair {
            [TokenTree::Ident(name), TokenTree::Punct(colon)] if colon.as_char() == ':' => {
                Some(name.to_string())
            }
            _ => None,
        })
        .collect()
}

/// The message's arguments, with `.0` as the name that the pattern binds.
fn arguments(message: TokenStream) -> String {
    let mut text = String::new();
    for token in message {
        match token {
            TokenTree::Punct(punct) if punct.as_char() == '.' => text.push('_'),
            token => text.push_str(&token.to_string()),
        }
    }
    text
}
