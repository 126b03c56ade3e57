//! Canonical text by the statement of what to build, spelt from resynth's tokens. resynth has none.

use std::collections::VecDeque;

use resynth::lex::{Tok, Token};

/// A token's text. The bytes of a string are its raw bodies, with byte 10 between.
fn spelt(tok: &Tok) -> Vec<u8> {
    match tok {
        Tok::Eof => "".into(),
        Tok::LParen => "(".into(),
        Tok::RParen => ")".into(),
        Tok::Dot => ".".into(),
        Tok::DoubleColon => "::".into(),
        Tok::Colon => ":".into(),
        Tok::SemiColon => ";".into(),
        Tok::Equals => "=".into(),
        Tok::Comma => ",".into(),
        Tok::Slash => "/".into(),
        Tok::ImportKeyword => "import".into(),
        Tok::LetKeyword => "let".into(),
        Tok::Identifier(name) => name.as_bytes().into(),
        Tok::BooleanLiteral(b) => b.to_string().into(),
        Tok::IPv4Literal(addr) => addr.octets().map(|n| n.to_string()).join(".").into(),
        Tok::HexLiteral(n) => format!("{n:#x}").into(),
        Tok::DecLiteral(n) => n.to_string().into(),
        Tok::StringLiteral(bodies) => bodies
            .as_ref()
            .split(|&b| b == b'\n')
            .map(|body| [b"\"", body, b"\""].concat())
            .collect::<Vec<_>>()
            .join(&b' '),
    }
}

/// The lines, each with its tokens: a `;` is the last one of its line
pub fn text(toks: &VecDeque<Token>) -> Vec<u8> {
    let toks: Vec<&Tok> = toks.iter().map(Token::tok).collect();
    let toks = &toks[..toks.len() - 1];
    let mut out = Vec::new();
    for line in toks.split_inclusive(|&tok| *tok == Tok::SemiColon) {
        let words: Vec<_> = line.iter().map(|tok| spelt(tok)).collect();
        out.extend(words.join(&b' '));
        if line.last() == Some(&&Tok::SemiColon) {
            out.push(b'\n');
        }
    }
    out
}
