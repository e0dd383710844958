//! `#[derive(Logos)]`: collects the rules written on an enum and hands them on as data.
//!
//! String literals are passed through as tokens, so that the compiler itself reads
//! plain, raw and hash-raw literals with their escapes. Whatever is not understood is
//! a compile error, never a rule left out.

use proc_macro::{Delimiter, Group, Literal, TokenStream, TokenTree};
use std::fmt::Write as _;
use std::iter::Peekable;

type Tokens = Peekable<proc_macro::token_stream::IntoIter>;
type Result<T> = std::result::Result<T, String>;

#[proc_macro_derive(Logos, attributes(logos, token, regex))]
pub fn derive_logos(item: TokenStream) -> TokenStream {
    let code = match read_enum(item) {
        Ok(rules) => rules.implementation(),
        Err(message) => format!("::std::compile_error!({message:?});"),
    };
    code.parse().expect("generated code is well-formed")
}

/// What the attributes of one enum say.
struct EnumRules {
    name: String,
    skips: Vec<Literal>,
    rules: Vec<Rule>,
}

struct Rule {
    variant: String,
    /// `Token` or `Regex`, the names in `logos::Pattern`.
    pattern: &'static str,
    text: Literal,
}

impl EnumRules {
    fn implementation(&self) -> String {
        let name = &self.name;
        let mut skips = String::new();
        for skip in &self.skips {
            write!(skips, "{skip},").expect("a String takes all");
        }
        let mut rules = String::new();
        for rule in &self.rules {
            let Rule {
                variant,
                pattern,
                text,
            } = rule;
            write!(
                rules,
                "::logos::Rule {{ \
                     token: {name}::{variant}, \
                     name: \"{name}::{variant}\", \
                     pattern: ::logos::Pattern::{pattern}({text}), \
                 }},"
            )
            .expect("a String takes all");
        }
        format!(
            "impl ::logos::Logos for {name} {{
                fn rules() -> &'static ::logos::Rules<Self> {{
                    static RULES: ::std::sync::OnceLock<::logos::Rules<{name}>> =
                        ::std::sync::OnceLock::new();
                    RULES.get_or_init(|| ::logos::Rules::new(&[{skips}], &[{rules}]))
                }}
            }}"
        )
    }
}

fn read_enum(item: TokenStream) -> Result<EnumRules> {
    let mut tokens = item.into_iter().peekable();
    let mut skips = Vec::new();
    while let Some((name, body)) = read_attribute(&mut tokens)? {
        if name == "logos" {
            skips.push(read_skip(body)?);
        }
    }
    skip_visibility(&mut tokens);
    if read_identifier(&mut tokens)? != "enum" {
        return Err("Logos can only be derived for an enum".to_owned());
    }
    let name = read_identifier(&mut tokens)?;
    let rules = match tokens.next() {
        Some(TokenTree::Group(group)) if group.delimiter() == Delimiter::Brace => {
            read_variants(group)?
        }
        _ => return Err(format!("expected the variants of {name}")),
    };
    Ok(EnumRules { name, skips, rules })
}

fn read_variants(group: Group) -> Result<Vec<Rule>> {
    let mut tokens = group.stream().into_iter().peekable();
    let mut rules = Vec::new();
    while tokens.peek().is_some() {
        let mut texts = Vec::new();
        while let Some((name, body)) = read_attribute(&mut tokens)? {
            match name.as_str() {
                "token" => texts.push(("Token", read_only_string(body)?)),
                "regex" => texts.push(("Regex", read_only_string(body)?)),
                "logos" => return Err("a variant takes no #[logos(..)]".to_owned()),
                _ => {}
            }
        }
        let variant = read_identifier(&mut tokens)?;
        match tokens.next() {
            None => {}
            Some(TokenTree::Punct(punct)) if punct.as_char() == ',' => {}
            Some(other) => return Err(format!("expected a comma after {variant}, not {other}")),
        }
        rules.extend(texts.into_iter().map(|(pattern, text)| Rule {
            variant: variant.clone(),
            pattern,
            text,
        }));
    }
    Ok(rules)
}

/// The next attribute's name and what follows the name, if an attribute comes next.
fn read_attribute(tokens: &mut Tokens) -> Result<Option<(String, Tokens)>> {
    match tokens.peek() {
        Some(TokenTree::Punct(punct)) if punct.as_char() == '#' => {}
        _ => return Ok(None),
    }
    tokens.next();
    let Some(TokenTree::Group(group)) = tokens.next() else {
        return Err("expected an attribute after #".to_owned());
    };
    let mut body = group.stream().into_iter().peekable();
    let name = read_identifier(&mut body)?;
    Ok(Some((name, body)))
}

fn skip_visibility(tokens: &mut Tokens) {
    if matches!(tokens.peek(), Some(TokenTree::Ident(ident)) if ident.to_string() == "pub") {
        tokens.next();
        if matches!(tokens.peek(), Some(TokenTree::Group(_))) {
            tokens.next();
        }
    }
}

fn read_identifier(tokens: &mut Tokens) -> Result<String> {
    match tokens.next() {
        Some(TokenTree::Ident(ident)) => Ok(ident.to_string()),
        Some(other) => Err(format!("expected a name, not {other}")),
        None => Err("expected a name".to_owned()),
    }
}

/// `(skip "..")`
fn read_skip(mut body: Tokens) -> Result<Literal> {
    let mut inside = read_parentheses(&mut body)?;
    if read_identifier(&mut inside)? != "skip" {
        return Err("the only #[logos(..)] understood is `skip \"..\"`".to_owned());
    }
    read_last_string(&mut inside)
}

/// `("..")`
fn read_only_string(mut body: Tokens) -> Result<Literal> {
    let mut inside = read_parentheses(&mut body)?;
    read_last_string(&mut inside)
}

fn read_parentheses(body: &mut Tokens) -> Result<Tokens> {
    match (body.next(), body.next()) {
        (Some(TokenTree::Group(group)), None) if group.delimiter() == Delimiter::Parenthesis => {
            Ok(group.stream().into_iter().peekable())
        }
        _ => Err("expected parentheses after the attribute's name".to_owned()),
    }
}

fn read_last_string(inside: &mut Tokens) -> Result<Literal> {
    match (inside.next(), inside.next()) {
        (Some(TokenTree::Literal(literal)), None) if is_string(&literal) => Ok(literal),
        _ => Err("expected one string literal and nothing after it".to_owned()),
    }
}

/// Byte strings, C strings, characters and numbers start otherwise.
fn is_string(literal: &Literal) -> bool {
    let text = literal.to_string();
    ["\"", "r\"", "r#"]
        .iter()
        .any(|start| text.starts_with(start))
}
