//! `#[derive(Logos)]`: names an enum's kinds in their order, and has the compiler compare its printed
//! rules with those that the stand-in's code is for.
//!
//! String literals are passed through as tokens, so that the compiler itself reads them. Whatever is
//! not understood is a compile error.

use proc_macro::{Delimiter, TokenStream, TokenTree};

type Result<T> = std::result::Result<T, String>;

#[proc_macro_derive(Logos, attributes(logos, token, regex))]
pub fn derive_logos(item: TokenStream) -> TokenStream {
    let code = implementation(item)
        .unwrap_or_else(|message| format!("::std::compile_error!({message:?});"));
    code.parse().expect("generated code is well-formed")
}

fn implementation(item: TokenStream) -> Result<String> {
    let (mut skips, mut tokens) = (Vec::new(), Vec::new());
    for piece in pieces(item)? {
        match piece {
            Piece::Attribute(name, arguments) if name == "logos" => {
                skips.push(skip(&arguments)?);
            }
            Piece::Attribute(..) => {}
            Piece::Token(token) => tokens.push(token),
        }
    }
    let [.., TokenTree::Ident(name), TokenTree::Group(body)] = &tokens[..] else {
        return Err("expected an enum".to_owned());
    };
    let (kinds, rules) = kinds_and_rules(body.stream())?;
    let [kinds, rules, skips] = [kinds, rules, skips].map(|list| list.join(", "));
    Ok(format!(
        "const _: () = ::logos::check_rules(&[{rules}], &[{skips}]);
         impl ::logos::Logos for {name} {{
             const KINDS: [Self; ::logos::RULES.len()] = [{kinds}];
         }}"
    ))
}

/// The variants in their order, and the rule of each as a pair of attribute and text.
fn kinds_and_rules(body: TokenStream) -> Result<(Vec<String>, Vec<String>)> {
    let (mut kinds, mut rules) = (Vec::new(), Vec::new());
    for piece in pieces(body)? {
        match piece {
            Piece::Attribute(name, arguments) if name == "token" || name == "regex" => {
                let text = only_literal(&in_parentheses(&arguments)?)?;
                rules.push(format!("({name:?}, {text})"));
            }
            Piece::Attribute(..) => {}
            Piece::Token(TokenTree::Ident(kind)) => {
                kinds.push(format!("Self::{kind}"));
                if kinds.len() != rules.len() {
                    return Err(format!("{kind} has not one rule"));
                }
            }
            Piece::Token(TokenTree::Punct(mark)) if mark.as_char() == ',' => {}
            Piece::Token(token) => return Err(format!("expected a variant, not {token}")),
        }
    }
    Ok((kinds, rules))
}

enum Piece {
    /// The attribute's name and what follows the name.
    Attribute(String, Vec<TokenTree>),
    Token(TokenTree),
}

fn pieces(stream: TokenStream) -> Result<Vec<Piece>> {
    let mut tokens = stream.into_iter();
    let mut pieces = Vec::new();
    while let Some(token) = tokens.next() {
        pieces.push(match token {
            TokenTree::Punct(mark) if mark.as_char() == '#' => attribute(tokens.next())?,
            token => Piece::Token(token),
        });
    }
    Ok(pieces)
}

fn attribute(bracketed: Option<TokenTree>) -> Result<Piece> {
    let Some(TokenTree::Group(group)) = bracketed else {
        return Err("expected an attribute after #".to_owned());
    };
    let mut inside = group.stream().into_iter();
    let name = inside.next().map(|name| name.to_string());
    Ok(Piece::Attribute(name.unwrap_or_default(), inside.collect()))
}

/// `(skip "..")`
fn skip(arguments: &[TokenTree]) -> Result<String> {
    match &in_parentheses(arguments)?[..] {
        [TokenTree::Ident(word), text @ ..] if word.to_string() == "skip" => only_literal(text),
        _ => Err("the only #[logos(..)] understood is `skip \"..\"`".to_owned()),
    }
}

fn in_parentheses(arguments: &[TokenTree]) -> Result<Vec<TokenTree>> {
    match arguments {
        [TokenTree::Group(group)] if group.delimiter() == Delimiter::Parenthesis => {
            Ok(group.stream().into_iter().collect())
        }
        _ => Err("expected parentheses after the attribute's name".to_owned()),
    }
}

fn only_literal(tokens: &[TokenTree]) -> Result<String> {
    match tokens {
        [TokenTree::Literal(literal)] => Ok(literal.to_string()),
        _ => Err("expected one string literal and nothing else".to_owned()),
    }
}
