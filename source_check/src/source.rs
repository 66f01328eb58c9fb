//! Reads Rattle source: the functions with their parameters, results and
//! calls, and what the declared types hold. Contracts are passed over. Of a file
//! of the library it reads a method that is asked for, with its body.

use crate::Type;
use std::collections::{BTreeMap, BTreeSet};
use std::fs;
use std::iter::successors;
use std::ops::Range;
use std::path::Path;

/// A function as it is written.
pub struct Function {
    pub file: String,
    pub line: usize,
    /// A function in C has none.
    pub has_body: bool,
    pub parameters: Vec<(String, Type)>,
    pub result: Type,
    /// The names that are called, without their paths.
    pub calls: BTreeSet<String>,
}

/// A method of an `impl` as it is written.
pub struct Method {
    pub file: String,
    pub line: usize,
    /// The types that its impl is over.
    pub open: Vec<String>,
    pub parameters: Vec<(String, Type)>,
    pub result: Type,
    /// What is called, with its path, or with a dot where it is called of a value.
    pub calls: BTreeSet<String>,
    /// The other words and signs of its body, but for numbers, its values and
    /// their parts.
    pub words: Vec<String>,
}

/// What the files that were read declare, by full name.
#[derive(Default)]
pub struct Source {
    pub functions: BTreeMap<String, Function>,
    /// What a struct or an enum holds, as it is written.
    pub types: BTreeMap<String, String>,
    /// What a `pub use` gives another name to: its own name, by the other.
    pub exports: BTreeMap<String, String>,
}

struct Token {
    text: String,
    line: usize,
}

// ---- declarations

impl Source {
    /// Reads the source files in a folder: `lib.rt` for the module itself,
    /// another file for a module in it, a folder for the modules below that.
    pub fn read_folder(&mut self, root: &Path, folder: &str, module: &str) {
        for entry in fs::read_dir(root.join(folder)).expect("a source folder can be read") {
            let entry = entry.expect("a source folder can be read");
            let name = entry.file_name().to_string_lossy().to_string();
            let inner = format!("{folder}/{name}");
            if entry.path().is_dir() {
                self.read_folder(root, &inner, &format!("{module}::{name}"));
            } else if let Some(stem) = name.strip_suffix(".rt") {
                let text = fs::read_to_string(entry.path()).expect("a source file can be read");
                let module = match stem {
                    "lib" => module.to_string(),
                    _ => format!("{module}::{stem}"),
                };
                self.read(&module, &inner, &text);
            }
        }
    }

    /// Reads the file of a module.
    pub fn read(&mut self, module: &str, file: &str, text: &str) {
        self.read_items(module, file, &tokens(text));
    }

    fn read_items(&mut self, module: &str, file: &str, tokens: &[Token]) {
        let mut at = 0;
        while at < tokens.len() {
            at = match tokens[at].text.as_str() {
                "use" if at > 0 && tokens[at - 1].text == "pub" => {
                    self.read_export(module, tokens, at)
                }
                "ghost" | "use" | "const" => next(tokens, at, &[";"]) + 1,
                "#" => past_bracket(tokens, next(tokens, at + 1, &["["])),
                "mod" => self.read_module(module, file, tokens, at),
                "struct" | "enum" => self.read_type(module, tokens, at),
                "fn" => self.read_function(module, file, tokens, at),
                // A call of a crate's own method is not resolved, so these are not read.
                "impl" => past_bracket(tokens, next(tokens, at, &["{"])),
                _ => at + 1,
            };
        }
    }

    /// `pub use inner::name;` or `pub use inner::{name, other};`.
    fn read_export(&mut self, module: &str, tokens: &[Token], at: usize) -> usize {
        let end = next(tokens, at, &[";"]);
        let path = &tokens[at + 1..end];
        let open = path.iter().position(|token| token.text == "{");
        let (open, names) = match open {
            Some(open) => (open, between_commas(inside(path, open, path.len()))),
            None => (path.len() - 1, vec![&path[path.len() - 1..]]),
        };
        let inner = joined(&path[..open]);
        for name in names.into_iter().map(joined) {
            let exported = format!("{module}::{name}");
            self.exports
                .insert(exported, format!("{module}::{inner}{name}"));
        }
        end + 1
    }

    /// `mod name;`, or with what is in it: `mod name { .. }`.
    fn read_module(&mut self, module: &str, file: &str, tokens: &[Token], at: usize) -> usize {
        let open = next(tokens, at, &["{", ";"]);
        let end = past_bracket(tokens, open);
        let inner = full_name(module, tokens, at);
        self.read_items(&inner, file, inside(tokens, open, end));
        end
    }

    /// `struct name { .. }`, `struct name(..);`, `struct name;` or `enum name { .. }`.
    fn read_type(&mut self, module: &str, tokens: &[Token], at: usize) -> usize {
        let open = next(tokens, at, &["{", "(", ";"]);
        let end = past_bracket(tokens, open);
        let name = full_name(module, tokens, at);
        let held = between_commas(inside(tokens, open, end)).into_iter();
        let held = held.filter(|piece| !is_ghost(piece)).map(joined);
        self.types.insert(name, held.collect::<Vec<_>>().join(", "));
        end
    }

    fn read_function(&mut self, module: &str, file: &str, tokens: &[Token], at: usize) -> usize {
        let (function, body) = function(file, tokens, at);
        self.functions
            .insert(full_name(module, tokens, at), function);
        body.end
    }
}

/// `fn name(parameters) -> result requires { .. } ensures { .. } { body }`, or
/// with a semicolon for the body, and where the body stands.
fn function(file: &str, tokens: &[Token], at: usize) -> (Function, Range<usize>) {
    let open = next(tokens, at, &["("]);
    let close = past_bracket(tokens, open);
    let contract = next(tokens, close, &["requires", "ensures", "{", ";"]);
    let mut body = contract;
    while !["{", ";"].contains(&tokens[body].text.as_str()) {
        body = past_bracket(tokens, next(tokens, body, &["{"]));
    }
    let end = past_bracket(tokens, body);
    let parameters = between_commas(inside(tokens, open, close)).into_iter();
    let result = joined(&tokens[close..contract]);
    let function = Function {
        file: file.to_string(),
        line: tokens[at].line,
        has_body: tokens[body].text == "{",
        parameters: parameters.map(parameter).collect(),
        result: type_of(result.trim_start_matches("->")),
        calls: calls(&tokens[body..end]),
    };
    (function, body..end)
}

/// The name that stands after the first word of a declaration.
fn full_name(module: &str, tokens: &[Token], at: usize) -> String {
    format!("{module}::{}", tokens[at + 1].text)
}

/// Whether a field is a ghost, `ghost name: { fact }`: it is there for proofs,
/// and holds nothing when the program runs.
fn is_ghost(field: &[Token]) -> bool {
    let words = field.iter().map(|token| token.text.as_str());
    let mut words = words.skip_while(|word| *word == "pub");
    words.next() == Some("ghost") && words.next() != Some(":")
}

/// `name: type`. A receiver, as `self`, is its own type here.
fn parameter(tokens: &[Token]) -> (String, Type) {
    if let Some(name) = tokens.last().filter(|name| name.text == "self") {
        return (name.text.clone(), type_of(&joined(tokens)));
    }
    let colon = next(tokens, 0, &[":"]);
    let ty = type_of(&joined(&tokens[colon + 1..]));
    (tokens[colon - 1].text.clone(), ty)
}

/// The names that stand before a parenthesis: of functions, since types and
/// their cases are capitalized. The length of a slice and a range from its end
/// on are no calls; another method keeps its dot, so that no function has its
/// name. `?` stands for calls too.
fn calls(body: &[Token]) -> BTreeSet<String> {
    let mut calls = BTreeSet::new();
    for three in body.windows(3) {
        let [before, name, after] = [&three[0].text, &three[1].text, &three[2].text];
        if name == "?" {
            calls.insert(name.clone());
        }
        if is_lower(name) && after == "(" {
            if before != "." {
                calls.insert(name.clone());
            } else if !["len", "rev"].contains(&name.as_str()) {
                calls.insert(format!(".{name}"));
            }
        }
    }
    calls
}

/// Whether a word is the name of a function or of a value.
fn is_lower(word: &str) -> bool {
    const KEYWORDS: [&str; 5] = ["if", "in", "match", "return", "while"];
    word.starts_with(|c: char| c.is_lowercase() || c == '_') && !KEYWORDS.contains(&word)
}

// ---- methods

/// A method by its name, in an impl by its head, as `impl<T> From<T> for T`.
pub fn method(file: &str, text: &str, head: &str, name: &str) -> Option<Method> {
    let all = tokens(text);
    let opened = tokens(&format!("{head} {{"));
    let named = tokens(&format!("fn {name}"));
    let impls = places(&all).filter(|at| begins(&all[*at..], &opened));
    let mut inner = impls.map(|at| {
        let open = at + opened.len() - 1;
        inside(&all, open, past_bracket(&all, open))
    });
    inner.find_map(|inner| {
        let at = places(inner).find(|at| begins(&inner[*at..], &named))?;
        Some(read_method(file, &tokens(head), inner, at))
    })
}

fn read_method(file: &str, head: &[Token], tokens: &[Token], at: usize) -> Method {
    let (function, body) = function(file, tokens, at);
    let (open, implemented) = open_types(head);
    let traits_end = implemented.iter().position(|token| token.text == "for");
    let own = joined(&implemented[traits_end.map_or(0, |at| at + 1)..]);
    let parameters = function.parameters.into_iter();
    let parameters = parameters.map(|(name, ty)| match ty {
        Type::Named(text) if text == "self" => (name, type_of(&own)),
        ty => (name, ty),
    });
    let mut method = Method {
        file: function.file,
        line: function.line,
        open,
        parameters: parameters.collect(),
        result: function.result,
        calls: BTreeSet::new(),
        words: Vec::new(),
    };
    method.read_body(&words(&tokens[body]));
    method
}

impl Method {
    /// The values of a body are the parameters, and what a case holds that is
    /// matched: `Ok(x) =>`. Before a parenthesis stands a function or a case.
    fn read_body(&mut self, words: &[String]) {
        let matched = words.windows(6).filter(|six| {
            let around = [1, 3, 4, 5].map(|at| six[at].as_str());
            around == ["(", ")", "=", ">"] && is_lower(&six[2])
        });
        let mut values: Vec<&str> = matched.map(|six| six[2].as_str()).collect();
        values.extend(self.parameters.iter().map(|(name, _)| name.as_str()));
        for (at, word) in words.iter().enumerate() {
            let name = word.rsplit([':', '.']).next().unwrap_or(word);
            let called = words.get(at + 1).is_some_and(|after| after == "(");
            let part = word.starts_with('.') && name.starts_with(char::is_alphanumeric);
            if called && is_lower(name) {
                self.calls.insert(word.clone());
            } else if called && !name.starts_with(char::is_uppercase) {
                self.words.push(format!("{word} ("));
            } else if !part && !word.starts_with(char::is_numeric) && !values.contains(&&**word) {
                self.words.push(word.clone());
            }
        }
    }
}

/// The types that an impl is over, `impl<T, F: From<E>>`, and the rest of its head.
fn open_types(head: &[Token]) -> (Vec<String>, &[Token]) {
    let (mut depth, mut open) = (0, Vec::new());
    for (at, token) in head.iter().enumerate().skip(1) {
        match token.text.as_str() {
            "<" => depth += 1,
            ">" if depth == 1 => return (open, &head[at + 1..]),
            ">" => depth -= 1,
            _ if depth == 0 => break,
            name if depth == 1 && ["<", ","].contains(&head[at - 1].text.as_str()) => {
                open.push(name.to_string());
            }
            _ => {}
        }
    }
    (open, &head[1..])
}

/// The words and signs of a body. A path is one word, and so is a part or a
/// method of a value, with its dot.
fn words(body: &[Token]) -> Vec<String> {
    let mut words: Vec<String> = Vec::new();
    for Token { text, .. } in body {
        match words.last_mut() {
            Some(word) if text == "::" || word.ends_with("::") || word == "." => *word += text,
            _ => words.push(text.clone()),
        }
    }
    words
}

// ---- types

fn type_of(text: &str) -> Type {
    match text {
        "u8" | "i8" => Type::Number(8),
        "u16" | "i16" => Type::Number(16),
        "u32" | "i32" => Type::Number(32),
        "u64" | "i64" | "usize" | "isize" => Type::Number(64),
        "bool" => Type::Bool,
        "&[u8]" => Type::Slice,
        "&mut[u8]" => Type::WrittenSlice,
        "" | "()" => Type::Unit,
        _ if !text.starts_with(char::is_alphabetic) => Type::Other(text.to_string()),
        _ if text.ends_with('>') => over(text),
        _ => Type::Named(text.to_string()),
    }
}

/// A type over others, `name<type, type>`.
fn over(text: &str) -> Type {
    let (name, types) = text.split_once('<').unwrap_or((text, ">"));
    let types = types.strip_suffix('>').unwrap_or(types);
    let (mut depth, mut parts) = (0, vec![String::new()]);
    for sign in types.chars().filter(|sign| *sign != ' ') {
        match sign {
            '<' | '(' | '[' => depth += 1,
            '>' | ')' | ']' => depth -= 1,
            _ => {}
        }
        match sign {
            ',' if depth == 0 => parts.push(String::new()),
            _ => parts.last_mut().expect("there is a part").push(sign),
        }
    }
    let types = parts.iter().map(|part| type_of(part)).collect();
    Type::Over(name.to_string(), types)
}

/// The numbers and bools that a declared type holds, in the order of its text.
pub fn plain_types(text: &str) -> Vec<Type> {
    let words = text.split(|c: char| !c.is_alphanumeric() && c != '_');
    let types = words.map(type_of);
    types
        .filter(|ty| matches!(ty, Type::Number(_) | Type::Bool))
        .collect()
}

/// The text of some tokens on one line, without `pub` and last commas.
fn joined(tokens: &[Token]) -> String {
    let mut text = String::new();
    for token in tokens {
        if [")", "]", "}"].contains(&token.text.as_str()) {
            text.truncate(text.trim_end_matches(", ").len());
        }
        match token.text.as_str() {
            "pub" => {}
            "," | ":" | ";" => text += &format!("{} ", token.text),
            "{" => text += " { ",
            "}" => text += " }",
            "=" => text += " = ",
            other => text += other,
        }
    }
    text.trim_end_matches(", ").to_string()
}

// ---- tokens

/// The next of some tokens, from a place on, that stands in no bracket.
fn next(tokens: &[Token], mut at: usize, texts: &[&str]) -> usize {
    while !texts.contains(&tokens[at].text.as_str()) {
        at = past_bracket(tokens, at);
        assert!(at < tokens.len(), "the source ends before {texts:?}");
    }
    at
}

/// The places that stand in no bracket.
fn places(tokens: &[Token]) -> impl Iterator<Item = usize> + '_ {
    let after = |at: &usize| (*at < tokens.len()).then(|| past_bracket(tokens, *at));
    successors(Some(0), after).take_while(|at| *at < tokens.len())
}

/// Whether some tokens begin with others.
fn begins(tokens: &[Token], others: &[Token]) -> bool {
    let same = |(token, other): (&Token, &Token)| token.text == other.text;
    others.len() <= tokens.len() && tokens.iter().zip(others).all(same)
}

/// Past a token, and past its bracket where it opens one.
fn past_bracket(tokens: &[Token], at: usize) -> usize {
    let mut depth = 0;
    for (count, token) in tokens[at..].iter().enumerate() {
        match token.text.as_str() {
            "(" | "[" | "{" => depth += 1,
            ")" | "]" | "}" => depth -= 1,
            _ => {}
        }
        if depth == 0 {
            return at + count + 1;
        }
    }
    panic!("after line {}: a bracket is not closed", tokens[at].line)
}

/// What stands in a bracket, from where it opens to past where it closes.
/// Nothing stands in a semicolon.
fn inside(tokens: &[Token], open: usize, end: usize) -> &[Token] {
    tokens.get(open + 1..end - 1).unwrap_or(&[])
}

/// The pieces between the commas that stand in no bracket.
fn between_commas(tokens: &[Token]) -> Vec<&[Token]> {
    let mut pieces = Vec::new();
    let (mut from, mut at) = (0, 0);
    while at < tokens.len() {
        if tokens[at].text == "," {
            pieces.push(&tokens[from..at]);
            from = at + 1;
        }
        at = past_bracket(tokens, at);
    }
    if from < at {
        pieces.push(&tokens[from..at]);
    }
    pieces
}

/// Words, `::`, `->` and single signs. Comments, strings, characters and
/// lifetimes are left out.
fn tokens(text: &str) -> Vec<Token> {
    let mut tokens = Vec::new();
    let mut line = 1;
    let mut rest = text;
    while !rest.is_empty() {
        let (token, after) = rest.split_at(token_length(rest));
        let left_out = ["//", "/*", "\"", "'"]
            .iter()
            .any(|sign| token.starts_with(sign));
        if !left_out && !token.trim().is_empty() {
            let text = token.to_string();
            tokens.push(Token { text, line });
        }
        line += token.matches('\n').count();
        rest = after;
    }
    tokens
}

fn token_length(text: &str) -> usize {
    let word = word_length(text);
    let mut signs = text.chars();
    match (signs.next(), signs.next(), signs.next()) {
        _ if word > 0 => word,
        (Some('/'), Some('/'), _) => text.find('\n').unwrap_or(text.len()),
        (Some('/'), Some('*'), _) => comment_length(text),
        (Some('"'), ..) => quoted_length(text, '"'),
        (Some('\''), Some('\\'), _) | (Some('\''), _, Some('\'')) => quoted_length(text, '\''),
        (Some('\''), ..) => 1 + word_length(&text[1..]),
        (Some(':'), Some(':'), _) | (Some('-'), Some('>'), _) => 2,
        (first, ..) => first.map_or(0, char::len_utf8),
    }
}

fn word_length(text: &str) -> usize {
    let end = text.find(|c: char| !c.is_alphanumeric() && c != '_');
    end.unwrap_or(text.len())
}

/// The length of a comment that may hold others.
fn comment_length(text: &str) -> usize {
    let (mut depth, mut at) = (0, 0);
    while let Some(two) = text.as_bytes().get(at..at + 2) {
        at += 2;
        match two {
            b"/*" => depth += 1,
            b"*/" => depth -= 1,
            _ => at -= 1,
        }
        if depth == 0 {
            return at;
        }
    }
    text.len()
}

/// The length of a string or a character, with both quotes.
fn quoted_length(text: &str, quote: char) -> usize {
    let mut escaped = false;
    for (at, sign) in text.char_indices().skip(1) {
        if sign == quote && !escaped {
            return at + 1;
        }
        escaped = sign == '\\' && !escaped;
    }
    text.len()
}
