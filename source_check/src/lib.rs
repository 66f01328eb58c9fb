//! Request 3 of document 02: the test whether an address is open reads the
//! lent map where it stands. No function in it or below it holds a map record
//! or an array by value, or calls itself.
//!
//! The check reads the source of the proved crates, and the MIR that
//! `rt check --generated` prints of it, which has the types of locals that the
//! source leaves out. Where the two readings of a function or of a declared type
//! differ it fails. The functions of the library that may be called are listed,
//! and read too: in the library's source, which the kit brings, and not in MIR.

mod mir;
mod source;

use source::{Method, Source};
use std::collections::{BTreeMap, BTreeSet};
use std::env;
use std::fmt;
use std::fs;
use std::path::{Path, PathBuf};
use std::process::{self, Command};
use std::sync::atomic::{AtomicUsize, Ordering};
use std::thread;

/// The functions that test addresses: whether one is open, and how far those
/// from one on are open, are permitted, or are in no reserved record.
pub const TESTS: [&str; 4] = [
    "region_map::addresses::is_open",
    "region_map::addresses::permitted_until",
    "region_map::addresses::reserved_from",
    "loader::judging::stretch_to",
];

/// The published calls that test addresses. What they call may hold no array
/// and may not call itself either, whether it is one of the four or not; only
/// the list of declared types is longer.
pub const CALLS: [&str; 2] = ["loader::judge", "loader::load"];

/// The declared types that a test of addresses, and what it calls, may hold by
/// value, each with what it holds: numbers or one of a few cases, and no map
/// record, which is a mark, a kind, a first address and a length.
pub const TEST_TYPES: [(&str, &str); 2] = [
    // One of the kinds that a record can have.
    (
        "region_map::records::Kind",
        "Permitted = 1, Reserved = 2, OneWrite = 3",
    ),
    // An open stretch of addresses, and how far after it none is reserved.
    (
        "loader::judging::Stretch",
        "from: u64, until: u64, clear: u64",
    ),
];

/// Those that the rest of judging and loading may hold besides.
pub const CALL_TYPES: [(&str, &str); 10] = [
    // The byte order of a table's header words.
    ("words::ByteOrder", "HighFirst, LowFirst"),
    // Why a call refuses.
    (
        "words::refusal::Refusal",
        "MapLength, MapRecord { place: usize }, MemoryLength, TableLong, TableCut { place: usize }, BytesAfter { place: usize }, PastTop { place: usize }, NotOpen { place: usize, address: u32 }, ResultLong, OutputShort, RegistersUnfit, ConfigLong, ConfigCut { place: usize }, ConfigAfter { place: usize }, NoRegister { place: usize }, Branch { place: usize }, StrapLong, StrapReserved, PastData { place: usize }, SizeZero { place: usize }, StoredTwice { place: usize }",
    ),
    // Where the addresses of the permitted records so far begin and end.
    ("region_map::records::Span", "low: u64, high: u64"),
    // The addresses of a permitted record, and the place in memory of the
    // first. Storing holds it, for an address that is known to be open.
    (
        "region_map::places::Region",
        "first: u64, end: u64, place: usize",
    ),
    // A section of a table, how many sections and data bytes a table has, and
    // where a walk stands.
    (
        "boot_table::Section",
        "address: u32, size: usize, start: usize, next: usize",
    ),
    ("boot_table::Counts", "sections: usize, bytes: usize"),
    (
        "loader::judging::Walk",
        "offset: usize, sections: usize, bytes: usize",
    ),
    // The addresses of a section, and the sections before one: how many, and
    // where their addresses begin and end.
    ("one_write::Span", "first: u64, end: u64"),
    (
        "one_write::Earlier",
        "sections: usize, low: u64, high: u64",
    ),
    // The answer of judging and loading for an accepted table.
    (
        "loader::Summary",
        "entry: u32, entry_open: bool, sections: usize, bytes: usize",
    ),
];

/// The types of the library that a test of addresses, and what it calls, may
/// hold, over types that it may hold, each with its cases: a value or none.
pub const TEST_LIBRARY_TYPES: [(&str, &str); 1] = [("core::option::Option", "None, Some")];

/// Those that the rest of judging and loading may hold besides: a value or a
/// refusal, and the two that `?` makes of it.
pub const CALL_LIBRARY_TYPES: [(&str, &str); 3] = [
    ("core::result::Result", "Ok, Err"),
    ("core::result::ErrResidual", "ErrResidual"),
    ("core::ops::ControlFlow", "Continue, Break"),
];

/// A function of the library that may be called, by the name that the MIR has.
pub struct LibraryFunction {
    pub name: &'static str,
    /// What is written for a call of it.
    pub written: &'static str,
    /// Where it stands in the library's source: the file, and the head of the impl.
    pub file: &'static str,
    pub head: &'static str,
}

/// The functions of the library that a test of addresses, and what it calls,
/// may call: the lower and the higher of two numbers. They may hold numbers and
/// bools, and call none.
pub const TEST_LIBRARY_FUNCTIONS: [LibraryFunction; 2] = [
    LibraryFunction {
        name: "core::int::u64::min",
        written: ".min",
        file: "core/src/int/u64.rt",
        head: "impl u64",
    },
    LibraryFunction {
        name: "core::int::u64::max",
        written: ".max",
        file: "core/src/int/u64.rt",
        head: "impl u64",
    },
];

/// Those that the rest of judging and loading may call besides: the two that
/// `?` stands for, and the conversion that it is given to call, which leaves a
/// refusal as it is. They may hold values of the types that their impls are over
/// besides, which their callers choose and hold, and the types of the library
/// over these; and they may call the conversion.
pub const CALL_LIBRARY_FUNCTIONS: [LibraryFunction; 3] = [
    LibraryFunction {
        name: "std::prelude::ResultTry::branch",
        written: "?",
        file: "core/src/result.rt",
        head: "impl<T, E> Try for Result<T, E>",
    },
    LibraryFunction {
        name: "std::prelude::ResultFromResidualErrResidual::from_residual",
        written: "?",
        file: "core/src/result.rt",
        head: "impl<T, E, F: From<E>> FromResidual<ErrResidual<E>> for Result<T, F>",
    },
    LibraryFunction {
        name: "core::convert::AnyFrom::from",
        written: "?",
        file: "core/src/convert/mod.rt",
        head: "impl<T> From<T> for T",
    },
];

/// What the body of a function of the library may have besides its values and
/// their parts, numbers, calls, and the cases of the types that are listed: it
/// may choose, by comparing values or by a case.
const CHOICES: [&str; 11] = [
    "if", "else", "match", "<", ">", "=", "{", "}", "(", ")", ",",
];

/// A type, as far as the check tells types apart.
#[derive(PartialEq)]
enum Type {
    /// A number of so many bits.
    Number(u32),
    Bool,
    /// Nothing, as a result.
    Unit,
    /// A slice of bytes that is lent to be read.
    Slice,
    /// A slice of bytes that is lent to be written.
    WrittenSlice,
    /// A pointer to a byte of a slice. An index is compiled to one, whether the
    /// byte is read or written.
    Place,
    /// A pointer to the first byte of a part that is written.
    WrittenPlace,
    /// An array: what it holds, and how many of them.
    Array(Box<Type>, String),
    /// A reference to an array, as to a constant one.
    Lent(Box<Type>),
    /// A declared type.
    Named(String),
    /// A type over others, as the library has them.
    Over(String, Vec<Type>),
    /// One of the types that such a type is over, as its declaration has it.
    Parameter,
    Other(String),
}

/// The two readings of the crates, and the functions of the library that are
/// listed and found, by the full names of the functions.
pub struct Program {
    source: Source,
    mir: BTreeMap<String, mir::Function>,
    library: BTreeMap<&'static str, Method>,
}

/// What the check shows where it finds no fault.
pub struct Shown {
    /// The tests and all that they call.
    pub tests: BTreeSet<String>,
    /// The published calls and all that they call.
    pub calls: BTreeSet<String>,
    /// The longest chain of calls that begins with a test.
    pub chain: Vec<String>,
}

/// What is wrong with a function.
#[derive(PartialEq)]
pub struct Fault {
    pub function: String,
    pub what: String,
}

/// Faults in the order in which they were found.
#[derive(Default)]
struct Faults(Vec<Fault>);

// ---- reading

/// The crates of the tests and of the calls, and all that they stand on by
/// crates.txt.
fn crates(root: &Path) -> BTreeSet<String> {
    let listed = fs::read_to_string(root.join("crates.txt")).expect("crates.txt can be read");
    let lines = listed.lines().filter_map(|line| line.split_once(':'));
    let below: BTreeMap<&str, &str> = lines.collect();
    let names = TESTS.iter().chain(&CALLS);
    let mut waiting: Vec<&str> = names.filter_map(|name| name.split("::").next()).collect();
    let mut found = BTreeSet::new();
    while let Some(name) = waiting.pop() {
        if found.insert(name.to_string()) {
            waiting.extend(below.get(name).unwrap_or(&"").split_whitespace());
        }
    }
    found
}

/// The MIR of a crate as it is printed.
#[derive(Clone)]
pub struct Printed {
    /// A text for each function, by its full name.
    functions: BTreeMap<String, String>,
    /// The names that it may have for functions of the crates below, with their
    /// own.
    exports: BTreeMap<String, String>,
}

/// Has the kit print the MIR of a crate's functions. They need not be proved;
/// the crates below are proved first. The kit writes into a folder outside the
/// repository, where it wants no file of antt that is not a crate's.
pub fn printed(root: &Path, name: &str) -> Printed {
    let mut source = Source::default();
    for name in crates(root) {
        source.read_folder(root, &format!("crates/{name}/src"), &name);
    }
    let own = format!("{name}::");
    let functions = source.functions.into_iter();
    let functions = functions.filter(|(full, _)| full.starts_with(&own));
    let functions = functions.filter(|(_, function)| function.has_body);
    let names: Vec<String> = functions.map(|(full, _)| full).collect();

    let folder = Folder::new(&format!("mir-{name}"));
    // A call of C is reported here, so that the kit need not refuse it.
    let mut command = Command::new("rt");
    command.env("RT_ALLOW_C", "1");
    command.args(["check", "--generated"]).arg(folder.path());
    for full in &names {
        command.args(["--start", within(full)]);
    }
    let run = command.current_dir(root.join("crates").join(name)).output();
    let run = run.expect("rt can be run");
    let said = String::from_utf8_lossy(&run.stdout) + String::from_utf8_lossy(&run.stderr);
    assert!(run.status.success(), "rt check --generated, {name}: {said}");

    let proofs = folder.path().join(format!("Rattle-{name}-proofs"));
    let texts = names.into_iter().map(|full| {
        let path = proofs.join(within(&full).replace("::", "/"));
        let text = find_printed(&path).unwrap_or_else(|| panic!("no MIR of {full}: {said}"));
        (full, text)
    });
    Printed {
        functions: texts.collect(),
        exports: source.exports,
    }
}

/// The MIR of a function, which has a folder, or stands in one for the
/// functions that call one another.
fn find_printed(function: &Path) -> Option<String> {
    if let Ok(text) = fs::read_to_string(function.join("Code/Mir.antt")) {
        return Some(text);
    }
    let file = format!("Code/+{}.antt", function.file_name()?.to_str()?);
    let folders = fs::read_dir(function.parent()?).ok()?;
    let rings = folders.filter_map(|entry| Some(entry.ok()?.path()));
    let mut rings = rings.filter(|path| path.to_string_lossy().contains("/+"));
    rings.find_map(|ring| fs::read_to_string(ring.join(&file)).ok())
}

/// The MIR of all the crates, as it is printed, side by side.
pub fn all_printed(root: &Path) -> BTreeMap<String, Printed> {
    let names = crates(root);
    thread::scope(|scope| {
        let mut running = Vec::new();
        for name in &names {
            running.push((name, scope.spawn(move || printed(root, name))));
        }
        let ended = running.into_iter().map(|(name, text)| (name, text.join()));
        let texts = ended.map(|(name, text)| (name.clone(), text.expect("its MIR is printed")));
        texts.collect()
    })
}

/// The files of the library's source in which listed functions stand, by their
/// paths in it. It is a folder beside the page that the kit names.
pub fn library() -> BTreeMap<String, String> {
    let run = Command::new("rt").arg("doc").output();
    let run = run.expect("rt can be run");
    assert!(run.status.success(), "rt doc names no page");
    let page = String::from_utf8_lossy(&run.stdout).trim().to_string();
    let folder = Path::new(&page).with_file_name("rattle");
    let functions = TEST_LIBRARY_FUNCTIONS.iter().chain(&CALL_LIBRARY_FUNCTIONS);
    let texts = functions.filter_map(|function| {
        let text = fs::read_to_string(folder.join(function.file)).ok()?;
        Some((function.file.to_string(), text))
    });
    texts.collect()
}

/// A name without that of its crate.
fn within(name: &str) -> &str {
    name.split_once("::").map_or(name, |(_, rest)| rest)
}

/// A folder of this process among the temporary files, which goes with the
/// value.
pub struct Folder(PathBuf);

impl Folder {
    pub fn new(label: &str) -> Folder {
        static COUNT: AtomicUsize = AtomicUsize::new(0);
        let number = COUNT.fetch_add(1, Ordering::Relaxed);
        let name = format!("source_check-{}-{number}-{label}", process::id());
        let path = env::temp_dir().join(name);
        fs::create_dir(&path).expect("a folder can be made");
        Folder(path)
    }

    pub fn path(&self) -> &Path {
        &self.0
    }
}

impl Drop for Folder {
    fn drop(&mut self) {
        let _ = fs::remove_dir_all(&self.0);
    }
}

impl Program {
    /// Reads the crates of a repository, with the MIR of each, and the listed
    /// functions in the files of the library.
    pub fn read(
        root: &Path,
        printed: &BTreeMap<String, Printed>,
        library: &BTreeMap<String, String>,
    ) -> Program {
        let mut program = Program {
            source: Source::default(),
            mir: BTreeMap::new(),
            library: BTreeMap::new(),
        };
        for (name, printed) in printed {
            for (full, text) in &printed.functions {
                let function = mir::read(text, &printed.exports);
                program.mir.insert(full.clone(), function);
            }
            let folder = format!("crates/{name}/src");
            program.source.read_folder(root, &folder, name);
        }
        for function in TEST_LIBRARY_FUNCTIONS.iter().chain(&CALL_LIBRARY_FUNCTIONS) {
            let LibraryFunction {
                name, file, head, ..
            } = function;
            let text = library.get(*file);
            let method = text.and_then(|text| source::method(file, text, head, last(name)));
            program.library.extend(method.map(|method| (*name, method)));
        }
        program
    }

    /// The file and the line of a function.
    pub fn file_and_line(&self, name: &str) -> Option<String> {
        if let Some(method) = self.library.get(name) {
            return Some(format!("{}:{}", method.file, method.line));
        }
        let function = self.source.functions.get(name)?;
        Some(format!("{}:{}", function.file, function.line))
    }
}

// ---- the check

impl Program {
    pub fn check(&self) -> Result<Shown, Vec<Fault>> {
        let mut faults = Faults::default();
        let tests = self.reach(&TESTS, true, &mut faults);
        let calls = self.reach(&CALLS, false, &mut faults);
        for name in tests.union(&calls) {
            self.check_readings(name, &mut faults);
            self.check_types(name, tests.contains(name), &mut faults);
            self.check_itself(name, &mut faults);
        }
        for test in TESTS.iter().filter(|test| tests.contains(**test)) {
            self.check_lent(test, &mut faults);
            if !calls.contains(*test) {
                faults.report(test, "neither judging nor loading calls it");
            }
        }
        for function in &TEST_LIBRARY_FUNCTIONS {
            self.check_library(function, true, &mut faults);
        }
        for function in &CALL_LIBRARY_FUNCTIONS {
            self.check_library(function, false, &mut faults);
        }
        if !faults.0.is_empty() {
            return Err(faults.0);
        }
        let chains = TESTS.iter().map(|test| self.longest(test));
        let chain = chains.max_by_key(Vec::len).unwrap_or_default();
        Ok(Shown {
            tests,
            calls,
            chain,
        })
    }

    // ---- calls

    /// Some functions and all that they call, in other crates too.
    fn reach(&self, from: &[&str], in_test: bool, faults: &mut Faults) -> BTreeSet<String> {
        let mut reached = BTreeSet::new();
        let (mut waiting, missing): (Vec<&str>, Vec<&str>) =
            from.iter().partition(|name| self.knows(name));
        for name in missing {
            faults.report(name, "there is no such function to start from");
        }
        while let Some(name) = waiting.pop() {
            if reached.insert(name.to_string()) {
                for callee in self.unresolved(name, in_test) {
                    faults.report(name, &format!("the call of {callee} is not resolved"));
                }
                waiting.extend(self.callees(name));
            }
        }
        reached
    }

    /// Whether both readings have a function.
    fn knows(&self, name: &str) -> bool {
        self.source.functions.contains_key(name) && self.mir.contains_key(name)
    }

    /// What a function calls that is known. One of the library, of which there
    /// is no MIR, may call each listed one that has the name of what it calls.
    fn callees(&self, name: &str) -> Vec<&str> {
        if let Some(method) = self.library.get(name) {
            let names = method
                .calls
                .iter()
                .map(|call| last(call).trim_start_matches('.'));
            let names: BTreeSet<&str> = names.collect();
            let called = |callee: &&str| names.contains(last(callee));
            return self.library.keys().copied().filter(called).collect();
        }
        let calls = self.mir[name].calls.iter().map(String::as_str);
        calls.filter(|callee| self.knows(callee)).collect()
    }

    /// The calls of functions that are neither known nor listed, and those that
    /// only one reading has.
    fn unresolved(&self, name: &str, in_test: bool) -> BTreeSet<String> {
        let written = &self.source.functions[name].calls;
        let mut words = BTreeSet::new();
        let mut unresolved = BTreeSet::new();
        for callee in &self.mir[name].calls {
            let listed = written_for(callee, in_test);
            let word = listed.unwrap_or(last(callee));
            words.insert(word);
            if !written.contains(word) || listed.is_none() && !self.knows(callee) {
                unresolved.insert(callee.clone());
            }
        }
        let only_written = written.iter().filter(|word| !words.contains(word.as_str()));
        unresolved.extend(only_written.cloned());
        unresolved
    }

    /// No function reaches itself.
    fn check_itself(&self, name: &str, faults: &mut Faults) {
        if let Some(way) = self.way(name, name, &mut BTreeSet::new()) {
            faults.report(name, &format!("reaches itself: {}", way.join(", ")));
        }
    }

    /// The calls that lead from one function to another.
    fn way(&self, from: &str, to: &str, seen: &mut BTreeSet<String>) -> Option<Vec<String>> {
        for callee in self.callees(from) {
            if callee == to {
                return Some(vec![from.to_string(), to.to_string()]);
            }
            if seen.insert(callee.to_string()) {
                if let Some(mut way) = self.way(callee, to, seen) {
                    way.insert(0, from.to_string());
                    return Some(way);
                }
            }
        }
        None
    }

    /// The longest chain of calls that begins with a function, where none
    /// reaches itself.
    fn longest(&self, name: &str) -> Vec<String> {
        let callees = self.callees(name).into_iter();
        let chains = callees.map(|callee| self.longest(callee));
        let mut chain = chains.max_by_key(Vec::len).unwrap_or_default();
        chain.insert(0, name.to_string());
        chain
    }

    // ---- types

    /// A test is lent one slice, the map, to be read. What it calls has no
    /// other: where no array is held, there is nothing else that a slice could
    /// be taken from.
    fn check_lent(&self, name: &str, faults: &mut Faults) {
        let parameters = self.source.functions[name].parameters.iter();
        let slices = parameters.filter(|(_, ty)| matches!(ty, Type::Slice | Type::WrittenSlice));
        let lent: Vec<&str> = slices.map(|(parameter, _)| parameter.as_str()).collect();
        if lent != ["map"] {
            let lent = lent.join(" and ");
            faults.report(name, &format!("is lent {lent}, and not the map alone"));
        }
    }

    /// The source and the MIR have the same parameters and the same result.
    fn check_readings(&self, name: &str, faults: &mut Faults) {
        let (written, compiled) = (&self.source.functions[name], &self.mir[name]);
        let parameters = written.parameters.iter().map(|(_, ty)| ty);
        let same = parameters.len() == compiled.parameters.len()
            && parameters
                .zip(&compiled.parameters)
                .all(|(ty, other)| ty.same_as(other))
            && written.result.same_as(&compiled.result);
        if !same {
            faults.report(
                name,
                "the source and the MIR differ in its parameters or its result",
            );
        }
    }

    /// Every parameter, local and result is of a type that is allowed.
    fn check_types(&self, name: &str, in_test: bool, faults: &mut Faults) {
        let (written, compiled) = (&self.source.functions[name], &self.mir[name]);
        let mut all = vec![("the result".to_string(), &compiled.result)];
        for ((parameter, _), ty) in written.parameters.iter().zip(&compiled.parameters) {
            all.push((format!("the parameter {parameter}"), ty));
        }
        all.extend(compiled.locals.iter().map(|ty| ("a local".to_string(), ty)));
        for (what, ty) in all {
            if !self.allows(ty, in_test, &compiled.types) {
                faults.report(name, &format!("{what} is {}", self.described(ty)));
            }
        }
    }

    /// Whether a type is allowed. A declared one is listed, and holds what the
    /// list says, in the source and in the MIR. One of the library is listed, and
    /// holds nothing but the types that it is over, which are allowed.
    fn allows(&self, ty: &Type, in_test: bool, compiled: &BTreeMap<String, Vec<Type>>) -> bool {
        match ty {
            Type::Number(_) | Type::Bool | Type::Slice | Type::Place => true,
            Type::WrittenSlice | Type::WrittenPlace | Type::Unit => !in_test,
            Type::Named(name) => {
                let written = self.source.types.get(name).map(String::as_str);
                let mut listed = listed(in_test, &TEST_TYPES, &CALL_TYPES);
                listed.any(|(listed_name, held)| {
                    listed_name == name
                        && written == Some(*held)
                        && compiled.get(name) == Some(&source::plain_types(held))
                })
            }
            Type::Over(name, types) => {
                let mut listed = listed(in_test, &TEST_LIBRARY_TYPES, &CALL_LIBRARY_TYPES);
                let held = compiled.get(name);
                listed.any(|(listed_name, _)| listed_name == name)
                    && held.is_some_and(|held| held.iter().all(|ty| *ty == Type::Parameter))
                    && types.iter().all(|ty| self.allows(ty, in_test, compiled))
            }
            Type::Array(..) | Type::Lent(_) | Type::Parameter | Type::Other(_) => false,
        }
    }

    fn described(&self, ty: &Type) -> String {
        let held = match ty {
            Type::Named(name) => self.source.types.get(name),
            _ => None,
        };
        match held {
            Some(held) => format!("{ty}, which holds {held}"),
            None => ty.to_string(),
        }
    }

    // ---- the library

    /// A listed function of the library stands where the list says. What it is
    /// given and answers is allowed, it holds nothing else, and it calls nothing
    /// but what is listed, and not itself.
    fn check_library(&self, function: &LibraryFunction, in_test: bool, faults: &mut Faults) {
        let LibraryFunction {
            name, file, head, ..
        } = function;
        let Some(method) = self.library.get(name) else {
            let what = format!("there is no such function in {head} of {file}");
            return faults.report(name, &what);
        };
        let mut all = vec![("the result".to_string(), &method.result)];
        for (parameter, ty) in &method.parameters {
            all.push((format!("the parameter {parameter}"), ty));
        }
        for (what, ty) in all {
            if !allows_in_library(ty, &method.open, in_test) {
                faults.report(name, &format!("{what} is {ty}"));
            }
        }
        let words = method.words.iter().map(String::as_str);
        let more = words.filter(|word| !CHOICES.contains(word) && !is_case(word, in_test));
        let more: Vec<&str> = more.collect();
        if !more.is_empty() {
            faults.report(name, &format!("its body has {}", more.join(" ")));
        }
        for callee in &method.calls {
            if !is_given(callee, &method.open, in_test) {
                faults.report(name, &format!("the call of {callee} is not resolved"));
            }
        }
        self.check_itself(name, faults);
    }
}

impl Faults {
    /// A fault is kept once: two locals of one type give the same words.
    fn report(&mut self, name: &str, what: &str) {
        let fault = Fault {
            function: name.to_string(),
            what: what.to_string(),
        };
        if !self.0.contains(&fault) {
            self.0.push(fault);
        }
    }
}

/// What is listed for the tests, and for the rest of judging and loading besides.
fn listed<T>(
    in_test: bool,
    tests: &'static [T],
    besides: &'static [T],
) -> impl Iterator<Item = &'static T> {
    tests.iter().chain(if in_test { &[] } else { besides })
}

/// What is written for a call of a function of the library, if that is listed.
fn written_for(callee: &str, in_test: bool) -> Option<&'static str> {
    let mut listed = listed(in_test, &TEST_LIBRARY_FUNCTIONS, &CALL_LIBRARY_FUNCTIONS);
    let found = listed.find(|function| function.name == callee);
    found.map(|function| function.written)
}

/// Whether a function of the library may hold a type: a number or a bool, and
/// for the rest of judging and loading one that its impl is over, or a listed one
/// over such. The MIR of its callers has their full names, and what the impl is
/// over there.
fn allows_in_library(ty: &Type, open: &[String], in_test: bool) -> bool {
    match ty {
        Type::Number(_) | Type::Bool => true,
        Type::Named(name) => !in_test && open.contains(name),
        Type::Over(name, types) => {
            let mut listed = listed(in_test, &TEST_LIBRARY_TYPES, &CALL_LIBRARY_TYPES);
            !in_test
                && listed.any(|(full, _)| last(full) == name)
                && types.iter().all(|ty| allows_in_library(ty, open, in_test))
        }
        _ => false,
    }
}

/// Whether a word is a case of a listed type of the library, alone or after the
/// type's name. A function for the tests makes none: it holds numbers and bools.
fn is_case(word: &str, in_test: bool) -> bool {
    let mut listed = listed(in_test, &TEST_LIBRARY_TYPES, &CALL_LIBRARY_TYPES);
    !in_test
        && listed.any(|(full, cases)| {
            let after_type = word.strip_prefix(&format!("{}::", last(full)));
            let case = after_type.unwrap_or(word);
            cases.split(", ").any(|listed_case| listed_case == case)
        })
}

/// Whether a function of the library calls a listed one of a type that its impl
/// is over, as `F::from`. The MIR of its callers has which function that is.
fn is_given(callee: &str, open: &[String], in_test: bool) -> bool {
    let mut listed = listed(in_test, &TEST_LIBRARY_FUNCTIONS, &CALL_LIBRARY_FUNCTIONS);
    let (ty, name) = callee.split_once("::").unwrap_or(("", callee));
    open.iter().any(|open| open == ty) && listed.any(|function| last(function.name) == name)
}

/// A name without its path.
fn last(name: &str) -> &str {
    name.rsplit("::").next().unwrap_or(name)
}

impl Type {
    /// Whether a type of the source is the same as the MIR's. The source may
    /// leave the path of a declared type out.
    fn same_as(&self, compiled: &Type) -> bool {
        match (self, compiled) {
            (Type::Named(name), Type::Named(full)) => last(name) == last(full),
            (Type::Over(name, types), Type::Over(full, others)) => {
                last(name) == last(full)
                    && types.len() == others.len()
                    && types
                        .iter()
                        .zip(others)
                        .all(|(ty, other)| ty.same_as(other))
            }
            // Neither is allowed, and that is reported by itself.
            (Type::Other(_), Type::Other(_) | Type::Lent(_) | Type::Array(..)) => true,
            _ => self == compiled,
        }
    }
}

impl fmt::Display for Type {
    fn fmt(&self, f: &mut fmt::Formatter) -> fmt::Result {
        match self {
            Type::Number(bits) => write!(f, "a number of {bits} bits"),
            Type::Bool => write!(f, "a bool"),
            Type::Unit => write!(f, "nothing"),
            Type::Slice => write!(f, "a lent slice"),
            Type::WrittenSlice => write!(f, "a lent slice to be written"),
            Type::Place => write!(f, "a pointer to a byte"),
            Type::WrittenPlace => write!(f, "a pointer to bytes to be written"),
            Type::Array(ty, count) => write!(f, "an array of {count}, each {ty}"),
            Type::Lent(ty) => write!(f, "a reference to {ty}"),
            Type::Named(name) => write!(f, "{name}"),
            Type::Over(name, types) => {
                let types: Vec<String> = types.iter().map(Type::to_string).collect();
                write!(f, "{name} over {}", types.join(" and "))
            }
            Type::Parameter => write!(f, "of a type that is left open"),
            Type::Other(text) => write!(f, "of another type: {text}"),
        }
    }
}
