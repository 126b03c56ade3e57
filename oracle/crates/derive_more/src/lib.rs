//! A stand-in for the three derives of `derive_more` that resynth uses, for types without
//! parameters.
//!
//! - `Display`: `#[display(format, argument, ..)]` with the fields by name (`_0`, `_1`, .. in a
//!   tuple), each a reference. Without the attribute a variant shows its name, or its one field.
//! - `Error`: a plain `std::error::Error`, without a source.
//! - `From`: from the field of each variant that has one. If a variant is marked `#[from]`, only
//!   the marked ones.

use proc_macro::{Delimiter, TokenStream, TokenTree};
use std::fmt::Write;
use std::iter::Peekable;

type Tokens = Peekable<proc_macro::token_stream::IntoIter>;

enum Fields {
    Unit,
    Named(Vec<String>),
    /// The types
    Tuple(Vec<String>),
}

/// A struct, or one variant of an enum
struct Shape {
    name: String,
    attrs: Vec<(String, String)>,
    fields: Fields,
}

enum Kind {
    Struct(Fields),
    Enum(Vec<Shape>),
}

struct Input {
    name: String,
    attrs: Vec<(String, String)>,
    kind: Kind,
}

fn is_punct(tok: Option<&TokenTree>, c: char) -> bool {
    matches!(tok, Some(TokenTree::Punct(p)) if p.as_char() == c)
}

/// Take the attributes: the name of each, and what stands in its parentheses
fn attrs(toks: &mut Tokens) -> Vec<(String, String)> {
    let mut out = Vec::new();
    while is_punct(toks.peek(), '#') {
        toks.next();
        let Some(TokenTree::Group(group)) = toks.next() else {
            panic!("an attribute has brackets");
        };
        let mut inside = group.stream().into_iter();
        if let Some(TokenTree::Ident(name)) = inside.next() {
            let body = match inside.next() {
                Some(TokenTree::Group(g)) => g.stream().to_string(),
                _ => String::new(),
            };
            out.push((name.to_string(), body));
        }
    }
    out
}

/// Drop `pub` and `pub(..)`
fn visibility(toks: &mut Tokens) {
    if matches!(toks.peek(), Some(TokenTree::Ident(i)) if i.to_string() == "pub") {
        toks.next();
        if matches!(toks.peek(), Some(TokenTree::Group(g)) if g.delimiter() == Delimiter::Parenthesis)
        {
            toks.next();
        }
    }
}

fn ident(toks: &mut Tokens) -> String {
    match toks.next() {
        Some(TokenTree::Ident(i)) => i.to_string(),
        other => panic!("expected a name, found {other:?}"),
    }
}

/// Take a type, and the comma after it
fn ty(toks: &mut Tokens) -> String {
    let mut out = TokenStream::new();
    let mut depth = 0;
    for tok in toks.by_ref() {
        if let TokenTree::Punct(p) = &tok {
            match p.as_char() {
                '<' => depth += 1,
                '>' => depth -= 1,
                ',' if depth == 0 => break,
                _ => {}
            }
        }
        out.extend([tok]);
    }
    out.to_string()
}

fn fields(toks: &mut Tokens) -> Fields {
    let Some(TokenTree::Group(group)) = toks.peek().cloned() else {
        return Fields::Unit;
    };
    let mut inside = group.stream().into_iter().peekable();
    let fields = match group.delimiter() {
        Delimiter::Brace => {
            let mut names = Vec::new();
            while inside.peek().is_some() {
                attrs(&mut inside);
                visibility(&mut inside);
                names.push(ident(&mut inside));
                assert!(is_punct(inside.next().as_ref(), ':'));
                ty(&mut inside);
            }
            Fields::Named(names)
        }
        Delimiter::Parenthesis => {
            let mut types = Vec::new();
            while inside.peek().is_some() {
                attrs(&mut inside);
                visibility(&mut inside);
                types.push(ty(&mut inside));
            }
            Fields::Tuple(types)
        }
        _ => return Fields::Unit,
    };
    toks.next();
    fields
}

fn input(stream: TokenStream) -> Input {
    let mut toks = stream.into_iter().peekable();
    let attrs = attrs(&mut toks);
    visibility(&mut toks);
    let keyword = ident(&mut toks);
    let name = ident(&mut toks);
    assert!(
        !is_punct(toks.peek(), '<'),
        "{name}: types with parameters are not supported"
    );
    let kind = match keyword.as_str() {
        "struct" => Kind::Struct(fields(&mut toks)),
        "enum" => {
            let Some(TokenTree::Group(group)) = toks.next() else {
                panic!("{name}: an enum has a body");
            };
            let mut inside = group.stream().into_iter().peekable();
            let mut shapes = Vec::new();
            while inside.peek().is_some() {
                let attrs = self::attrs(&mut inside);
                let name = ident(&mut inside);
                let fields = fields(&mut inside);
                shapes.push(Shape {
                    name,
                    attrs,
                    fields,
                });
                let comma = inside.next();
                assert!(comma.is_none() || is_punct(comma.as_ref(), ','));
            }
            Kind::Enum(shapes)
        }
        other => panic!("{name}: no derive for {other}"),
    };
    Input { name, attrs, kind }
}

fn find<'a>(attrs: &'a [(String, String)], name: &str) -> Option<&'a str> {
    attrs
        .iter()
        .find(|(key, _)| key == name)
        .map(|(_, body)| body.as_str())
}

/// The pattern that binds the fields of `path`
fn pattern(path: &str, fields: &Fields) -> String {
    match fields {
        Fields::Unit => path.to_string(),
        Fields::Named(names) => format!("{path} {{ {} }}", names.join(", ")),
        Fields::Tuple(types) => {
            let names: Vec<_> = (0..types.len()).map(|i| format!("_{i}")).collect();
            format!("{path}({})", names.join(", "))
        }
    }
}

fn arm(path: &str, name: &str, attrs: &[(String, String)], fields: &Fields) -> String {
    let body = match (find(attrs, "display"), fields) {
        (Some(format), _) => format!("::core::write!(__f, {format})"),
        (None, Fields::Unit) => format!("__f.write_str({name:?})"),
        (None, Fields::Tuple(types)) if types.len() == 1 => {
            "::core::fmt::Display::fmt(_0, __f)".to_string()
        }
        (None, Fields::Named(names)) if names.len() == 1 => {
            format!("::core::fmt::Display::fmt({}, __f)", names[0])
        }
        _ => panic!("{name}: needs a display attribute"),
    };
    format!("{} => {body},", pattern(path, fields))
}

#[proc_macro_derive(Display, attributes(display))]
pub fn display(stream: TokenStream) -> TokenStream {
    let Input { name, attrs, kind } = input(stream);
    let mut arms = String::new();
    match &kind {
        Kind::Struct(fields) => arms.push_str(&arm("Self", &name, &attrs, fields)),
        Kind::Enum(shapes) => {
            for shape in shapes {
                let path = format!("Self::{}", shape.name);
                arms.push_str(&arm(&path, &shape.name, &shape.attrs, &shape.fields));
            }
        }
    }
    format!(
        "#[automatically_derived]
        #[allow(unused_variables)]
        impl ::core::fmt::Display for {name} {{
            fn fmt(&self, __f: &mut ::core::fmt::Formatter<'_>) -> ::core::fmt::Result {{
                match self {{ {arms} }}
            }}
        }}"
    )
    .parse()
    .unwrap()
}

#[proc_macro_derive(Error, attributes(error))]
pub fn error(stream: TokenStream) -> TokenStream {
    let Input { name, .. } = input(stream);
    format!("#[automatically_derived] impl ::std::error::Error for {name} {{}}")
        .parse()
        .unwrap()
}

#[proc_macro_derive(From, attributes(from))]
pub fn from(stream: TokenStream) -> TokenStream {
    let Input { name, kind, .. } = input(stream);
    let Kind::Enum(shapes) = kind else {
        panic!("{name}: From is for enums");
    };
    let marked = |shape: &Shape| find(&shape.attrs, "from") == Some("");
    let only_marked = shapes.iter().any(marked);
    let mut out = String::new();
    for shape in &shapes {
        let Fields::Tuple(types) = &shape.fields else {
            continue;
        };
        if types.len() != 1 || (only_marked && !marked(shape)) {
            continue;
        }
        write!(
            out,
            "#[automatically_derived]
            impl ::core::convert::From<{ty}> for {name} {{
                fn from(value: {ty}) -> Self {{ Self::{variant}(value) }}
            }}",
            ty = types[0],
            variant = shape.name
        )
        .unwrap();
    }
    out.parse().unwrap()
}
