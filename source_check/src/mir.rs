//! Reads the MIR of a function as `rt check --generated` prints it: the types
//! of its result, its parameters and its other locals, and the full names of
//! what it calls.

use crate::Type;
use std::collections::{BTreeMap, BTreeSet};

/// A function as it is compiled.
pub struct Function {
    pub result: Type,
    pub parameters: Vec<Type>,
    pub locals: Vec<Type>,
    pub calls: BTreeSet<String>,
    /// What the declared types of the locals hold, all cases together.
    pub types: BTreeMap<String, Vec<Type>>,
}

/// A call through an address, and where one is taken.
const ADDRESSES: [&str; 3] = ["Syntax.call_v", "Syntax.fn_addr", "Syntax.vtable"];

/// A word, or trees in parentheses.
enum Tree {
    Word(String),
    List(Vec<Tree>),
}

/// The definitions of a module, and the functions that it imports, by the words
/// that stand for their names.
struct Module {
    definitions: BTreeMap<String, Tree>,
    imports: BTreeMap<String, String>,
}

/// The first local is the result. Declared types stand under their names in
/// the definitions that begin with `by_name`, and there may be none. A function
/// that its crate exports is printed by the name of the export: `exports` has
/// its own.
pub fn read(text: &str, exports: &BTreeMap<String, String>) -> Function {
    let module = Module::read(text, exports);
    let (function, prefix) = match module.definitions.contains_key("by_name") {
        true => ("by_name", "by_name-"),
        false => ("function", ""),
    };
    let count = module.count(function);
    let locals = list(&module.definitions[&format!("{prefix}locals")]);
    let mut locals = locals.into_iter().map(|local| type_of(&local.parts()[1]));
    let mut calls = BTreeSet::new();
    for definition in module.definitions.values() {
        module.find_calls(definition, &mut calls);
    }
    let table = module.definitions.get("table");
    let types = table.map_or(Vec::new(), list);
    Function {
        result: locals.next().expect("the first local is the result"),
        parameters: locals.by_ref().take(count).collect(),
        locals: locals.collect(),
        calls,
        types: types.into_iter().map(declared).collect(),
    }
}

impl Module {
    /// Its lines `use path` or `use path as word`, and its definitions, each of
    /// which begins at the start of a line with a name and `=`.
    fn read(text: &str, exports: &BTreeMap<String, String>) -> Module {
        let mut module = Module {
            definitions: BTreeMap::new(),
            imports: BTreeMap::new(),
        };
        let mut name = String::new();
        let mut body = String::new();
        for line in text.lines().chain(["use"]) {
            if line.starts_with([' ', ')', '}']) {
                body += line;
                body += "\n";
                continue;
            }
            if !name.is_empty() {
                let body = std::mem::take(&mut body);
                module
                    .definitions
                    .insert(std::mem::take(&mut name), tree(&body));
            }
            let words: Vec<&str> = line.split_whitespace().collect();
            match words[..] {
                ["use", path] => module.import(path, last(path), exports),
                ["use", path, "as", word] => module.import(path, word, exports),
                [defined, "=", ..] => {
                    name = defined.to_string();
                    body = words[2..].join(" ") + "\n";
                }
                _ => {}
            }
        }
        module
    }

    /// `Rattle.crate.proofs.module.function.Symbol` has the function's name; so
    /// has `Rattle.crate.specs.contracts.module.function.Key`, where the functions
    /// call one another.
    fn import(&mut self, path: &str, word: &str, exports: &BTreeMap<String, String>) {
        let ends = [(".proofs.", ".Symbol"), (".specs.contracts.", ".Key")];
        for (middle, end) in ends {
            let inner = path.strip_prefix("Rattle.");
            let inner = inner.and_then(|path| path.strip_suffix(end));
            if let Some((crates, function)) = inner.and_then(|path| path.split_once(middle)) {
                let name = format!("{}::{}", last(crates), function.replace('.', "::"));
                let name = exports.get(&name).cloned().unwrap_or(name);
                self.imports.insert(format!("{word}.name"), name);
            }
        }
    }

    /// `params = count;` in a function's record.
    fn count(&self, function: &str) -> usize {
        let words = self.definitions[function].words();
        let at = words.iter().position(|word| *word == "params");
        let count = words[at.expect("parameters are counted") + 2];
        let count = count.trim_end_matches(';').parse();
        count.expect("a count is a number")
    }

    /// A direct call gives the name of its function, which stands before the
    /// types that it is for, where there are any. The methods of these that the
    /// function is given to call stand there too, and count as called. Another
    /// call, and a function whose address is taken, are kept as they are
    /// printed, which is no function's name.
    fn find_calls(&self, tree: &Tree, calls: &mut BTreeSet<String>) {
        match tree.parts() {
            [word, callee, ..] if word.is("Syntax.call") => {
                let name = self.imports.get(callee.head());
                calls.insert(name.cloned().unwrap_or(callee.text()));
            }
            [word, methods, ..] if word.is("Syntax.impl") => {
                let names = list(methods).into_iter().map(Tree::text);
                calls.extend(names.map(|name| name.trim_matches('"').to_string()));
            }
            [word, ..] if ADDRESSES.contains(&word.text().as_str()) => {
                calls.insert(tree.text());
                return;
            }
            _ => {}
        }
        let parts = tree.parts().iter();
        parts.for_each(|part| self.find_calls(part, calls));
    }
}

// ---- types

fn type_of(tree: &Tree) -> Type {
    let parts = tree.parts();
    match last(tree.head()) {
        "ty_bool" => Type::Bool,
        "ty_unit" => Type::Unit,
        "ty_int" => Type::Number(width(&parts[1])),
        "ty_array" => Type::Array(Box::new(type_of(&parts[1])), parts[2].text()),
        "ty_named" => {
            let name = symbol(&parts[1].parts()[0]);
            let types: Vec<Type> = list(&parts[2]).into_iter().map(type_of).collect();
            match types.is_empty() {
                true => Type::Named(name),
                false => Type::Over(name, types),
            }
        }
        "ty_param" => Type::Parameter,
        "ty_ptr" => Type::Place,
        "ty_ref" if type_of(&parts[3]) == Type::Number(8) => match last(parts[2].head()) {
            "mut" => Type::WrittenPlace,
            _ => Type::Place,
        },
        "ty_ref" if last(parts[3].head()) == "ty_array" => Type::Lent(Box::new(type_of(&parts[3]))),
        "ty_struct" => slice(&parts[1], &parts[2]).unwrap_or(Type::Other(tree.text())),
        _ => Type::Other(tree.text()),
    }
}

/// `Syntax.w64`.
fn width(tree: &Tree) -> u32 {
    let bits = last(tree.head()).trim_start_matches('w').parse();
    bits.expect("a width is a number")
}

/// A lent slice of bytes: where its first byte stands, and its length.
fn slice(name: &Tree, fields: &Tree) -> Option<Type> {
    let fields: Vec<Type> = list(fields).into_iter().map(type_of).collect();
    match (symbol(name).as_str(), &fields[..]) {
        ("&[]", [Type::Place, Type::Number(64)]) => Some(Type::Slice),
        ("&[]", [Type::WrittenPlace, Type::Number(64)]) => Some(Type::WrittenSlice),
        _ => None,
    }
}

/// `(name, lifetimes, Table.fields types)` or `(name, lifetimes, Table.variants lists)`.
fn declared(entry: &Tree) -> (String, Vec<Type>) {
    let [name, _, held] = entry.parts() else {
        panic!("a declared type has a name: {}", entry.text());
    };
    let types = match held.parts() {
        [word, types] if word.is("Table.fields") => list(types),
        [word, cases] if word.is("Table.variants") => {
            list(cases).into_iter().flat_map(list).collect()
        }
        _ => panic!("no fields and no variants: {}", held.text()),
    };
    (symbol(name), types.into_iter().map(type_of).collect())
}

/// A name, as the list of its bytes.
fn symbol(tree: &Tree) -> String {
    let bytes = list(tree).into_iter();
    let bytes = bytes.map(|byte| byte.text().parse().expect("a byte is a number"));
    String::from_utf8(bytes.collect()).expect("a name is text")
}

// ---- trees

impl Tree {
    fn parts(&self) -> &[Tree] {
        match self {
            Tree::Word(_) => &[],
            Tree::List(parts) => parts,
        }
    }

    /// The word that a tree begins with.
    fn head(&self) -> &str {
        match self {
            Tree::Word(word) => word,
            Tree::List(parts) => parts.first().map_or("", Tree::head),
        }
    }

    fn is(&self, word: &str) -> bool {
        matches!(self, Tree::Word(own) if own == word)
    }

    /// A tree as it is printed.
    fn text(&self) -> String {
        match self {
            Tree::Word(word) => word.clone(),
            Tree::List(parts) => {
                let parts: Vec<String> = parts.iter().map(Tree::text).collect();
                format!("({})", parts.join(" "))
            }
        }
    }

    fn words(&self) -> Vec<&str> {
        match self {
            Tree::Word(word) => vec![word],
            Tree::List(parts) => parts.iter().flat_map(Tree::words).collect(),
        }
    }
}

/// A word of a path, after its last point.
fn last(path: &str) -> &str {
    path.rsplit('.').next().unwrap_or(path)
}

/// The elements of `(List.◌∷◌ first rest)`, down to `List.[]`; lists of types
/// have other names for the two.
fn list(tree: &Tree) -> Vec<&Tree> {
    let mut elements = Vec::new();
    let mut rest = tree;
    while let [_, first, after] = rest.parts() {
        elements.push(first);
        rest = after;
    }
    assert!(
        ["[]", "tnil", "ttnil"].contains(&last(rest.head())),
        "no list: {}",
        rest.text()
    );
    elements
}

/// A definition: a word and what it is applied to, each in parentheses or a
/// word. The parts of a tuple stand between commas, each applied as a whole.
fn tree(text: &str) -> Tree {
    let spaced = text
        .replace('(', " ( ")
        .replace(')', " ) ")
        .replace(',', " , ");
    // Of each bracket that is open: its finished parts, where it has commas, and the words since.
    let mut open = vec![(Vec::new(), Vec::new())];
    for word in spaced.split_whitespace() {
        match word {
            "(" => open.push((Vec::new(), Vec::new())),
            "," => {
                let (parts, words) = open.last_mut().expect("a bracket was opened");
                parts.push(applied(std::mem::take(words)));
            }
            ")" => {
                let (mut parts, words) = open.pop().expect("a bracket was opened");
                let whole = if parts.is_empty() {
                    applied(words)
                } else {
                    if !words.is_empty() {
                        parts.push(applied(words));
                    }
                    Tree::List(parts)
                };
                open.last_mut().expect("a bracket was opened").1.push(whole);
            }
            _ => {
                let (_, words) = open.last_mut().expect("a bracket was opened");
                words.push(Tree::Word(word.to_string()));
            }
        }
    }
    let (_, words) = open.pop().expect("every bracket is closed");
    applied(words)
}

/// A word alone, or a word and what it is applied to.
fn applied(mut words: Vec<Tree>) -> Tree {
    match words.len() {
        1 => words.remove(0),
        _ => Tree::List(words),
    }
}
