//! The derives of the stand-ins `strum` and `zerocopy`.
//!
//! They read just the shapes of the supplied files: enums without data, and structs whose field
//! types hold no comma outside brackets.

use proc_macro::Delimiter;
use proc_macro::Group;
use proc_macro::TokenStream;
use proc_macro::TokenTree;

/// The parts of an enum or struct that the derives look at.
struct Item {
    name: String,
    /// The number type of an enum's `#[repr]`, or `usize`, which is what strum takes then.
    repr: String,
    body: Body,
}

enum Body {
    Enum { variants: Vec<String> },
    Named { fields: Vec<String> },
    Tuple { len: usize },
}

#[proc_macro_derive(EnumCount)]
pub fn enum_count(input: TokenStream) -> TokenStream {
    let item = Item::read(input);
    let count = item.variants().len();
    let name = &item.name;
    code(format!(
        "impl ::strum::EnumCount for {name} {{ const COUNT: usize = {count}; }}"
    ))
}

#[proc_macro_derive(FromRepr)]
pub fn from_repr(input: TokenStream) -> TokenStream {
    let item = Item::read(input);
    let Item { name, repr, .. } = &item;
    let tests: String = item
        .variants()
        .iter()
        .map(|v| format!("if repr == Self::{v} as {repr} {{ return Some(Self::{v}); }}"))
        .collect();
    code(format!(
        "impl {name} {{
            pub const fn from_repr(repr: {repr}) -> Option<Self> {{ {tests} None }}
        }}"
    ))
}

#[proc_macro_derive(FromZeroes)]
pub fn from_zeroes(input: TokenStream) -> TokenStream {
    let item = Item::read(input);
    let name = &item.name;
    let zero = "::zerocopy::FromZeroes::new_zeroed()";
    let value = match &item.body {
        Body::Enum { variants } => {
            let first = &variants[0];
            format!("const {{ assert!({name}::{first} as usize == 0) }}; Self::{first}")
        }
        Body::Named { fields } => {
            let fields: String = fields.iter().map(|f| format!("{f}: {zero},")).collect();
            format!("Self {{ {fields} }}")
        }
        Body::Tuple { len } => format!("Self({})", vec![zero; *len].join(",")),
    };
    code(format!(
        "impl ::zerocopy::FromZeroes for {name} {{ fn new_zeroed() -> Self {{ {value} }} }}"
    ))
}

#[proc_macro_derive(FromBytes)]
pub fn from_bytes(input: TokenStream) -> TokenStream {
    let name = Item::read(input).name;
    code(format!("impl ::zerocopy::FromBytes for {name} {{}}"))
}

#[proc_macro_derive(AsBytes)]
pub fn as_bytes(input: TokenStream) -> TokenStream {
    let name = Item::read(input).name;
    code(format!("impl ::zerocopy::AsBytes for {name} {{}}"))
}

fn code(text: String) -> TokenStream {
    text.parse().expect("the derive writes Rust")
}

impl Item {
    fn read(input: TokenStream) -> Self {
        let mut repr = "usize".to_string();
        let mut tokens = input.into_iter();
        let is_enum = loop {
            match tokens.next().expect("an enum or a struct") {
                TokenTree::Group(group) if group.delimiter() == Delimiter::Bracket => {
                    repr = repr_of(&group).unwrap_or(repr);
                }
                TokenTree::Ident(word) if word.to_string() == "enum" => break true,
                TokenTree::Ident(word) if word.to_string() == "struct" => break false,
                _ => {}
            }
        };
        let name = tokens.next().expect("a name").to_string();
        let Some(TokenTree::Group(body)) = tokens.next() else {
            panic!("{name} has no body, or has parameters");
        };
        let body = match (is_enum, body.delimiter()) {
            (true, _) => Body::Enum {
                variants: names_of(&body),
            },
            (false, Delimiter::Brace) => Body::Named {
                fields: names_of(&body),
            },
            (false, _) => Body::Tuple {
                len: parts_of(&body).len(),
            },
        };
        Self { name, repr, body }
    }

    fn variants(&self) -> &[String] {
        match &self.body {
            Body::Enum { variants } => variants,
            _ => panic!("{} is no enum", self.name),
        }
    }
}

/// The `u8` of an attribute `[repr(u8)]`.
fn repr_of(attribute: &Group) -> Option<String> {
    let mut tokens = attribute.stream().into_iter();
    if tokens.next()?.to_string() != "repr" {
        return None;
    }
    let TokenTree::Group(list) = tokens.next()? else {
        return None;
    };
    let repr = list.stream().to_string();
    (repr == "u8").then_some(repr)
}

/// The body's parts between its commas.
fn parts_of(body: &Group) -> Vec<Vec<TokenTree>> {
    let tokens: Vec<_> = body.stream().into_iter().collect();
    tokens
        .split(|token| matches!(token, TokenTree::Punct(mark) if mark.as_char() == ','))
        .filter(|part| !part.is_empty())
        .map(<[TokenTree]>::to_vec)
        .collect()
}

/// The first word of each part, after attributes and `pub`.
fn names_of(body: &Group) -> Vec<String> {
    parts_of(body)
        .iter()
        .map(|part| {
            part.iter()
                .filter_map(|token| match token {
                    TokenTree::Ident(word) => Some(word.to_string()),
                    _ => None,
                })
                .find(|word| word != "pub")
                .expect("a name")
        })
        .collect()
}
