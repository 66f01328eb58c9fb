//! The check finds no fault in the repository as it stands, and in a copy with
//! one of the edits of `edits/` exactly the faults that the edit names. Copies of
//! the library's source are changed in the tests themselves.
//!
//! An edit is written as those under `must-fail/`, with the crate that it
//! changes, with any number of lines `new:` after an `old:`, with a line
//! `folder:` for a folder that it adds, and with a line `report:` for each
//! fault. One that is allowed has none.

use source_check::{all_printed, library, printed, Folder, Printed, Program};
use std::collections::BTreeMap;
use std::fs;
use std::path::{Path, PathBuf};
use std::process::Command;
use std::sync::OnceLock;
use std::thread;

const REPORTED: [&str; 29] = [
    "array_local",
    "array_constant",
    "array_passed_on",
    "array_in_an_allowed_type",
    "array_in_another_crate",
    "array_in_judging",
    "array_in_an_option",
    "record_by_value",
    "record_in_an_allowed_type",
    "record_in_a_listed_enum",
    "record_in_another_crate",
    "record_in_a_result",
    "type_in_a_comment",
    "type_of_judging",
    "result_in_a_test",
    "calls_itself",
    "calls_itself_in_another_crate",
    "two_call_each_other",
    "three_in_a_ring",
    "test_beside_the_tests",
    "test_in_loading",
    "test_lent_more",
    "no_test",
    "no_judging",
    "call_of_a_method",
    "call_of_a_conversion",
    "call_of_the_kit",
    "call_of_c",
    "call_of_no_function",
];

const ALLOWED: [&str; 1] = ["part_of_the_map"];

/// An edit: the crate that it changes, the folders that it adds to it, its
/// lines by their first words, and the faults to be found.
struct Edit {
    label: &'static str,
    crate_name: String,
    folders: Vec<String>,
    lines: Vec<(String, String)>,
    reports: Vec<String>,
}

/// What is reported where a copy of the repository has an edit: of the copy, of
/// the copy's source with the MIR of the repository, and of the source of the
/// repository with the copy's MIR.
struct Answer {
    of_copy: Vec<String>,
    of_source: Vec<String>,
    of_mir: Vec<String>,
}

fn package() -> &'static Path {
    Path::new(env!("CARGO_MANIFEST_DIR"))
}

fn root() -> PathBuf {
    package().join("..")
}

/// The MIR of each crate as it stands.
fn as_it_stands() -> &'static BTreeMap<String, Printed> {
    static PRINTED: OnceLock<BTreeMap<String, Printed>> = OnceLock::new();
    PRINTED.get_or_init(|| all_printed(&root()))
}

/// The library's source as it stands.
fn library_as_it_stands() -> &'static BTreeMap<String, String> {
    static LIBRARY: OnceLock<BTreeMap<String, String>> = OnceLock::new();
    LIBRARY.get_or_init(library)
}

/// The repository with the MIR as it stands, and with a source of the library.
fn with_library(library: &BTreeMap<String, String>) -> Program {
    Program::read(&root(), as_it_stands(), library)
}

fn edit(label: &'static str) -> Edit {
    let path = package().join("edits").join(format!("{label}.edit"));
    let text = fs::read_to_string(path).expect("the edit can be read");
    let mut edit = Edit {
        label,
        crate_name: String::new(),
        folders: Vec::new(),
        lines: Vec::new(),
        reports: Vec::new(),
    };
    for line in text.lines().filter(|line| !line.starts_with('#')) {
        let (word, rest) = line.split_once(':').expect("a line begins with a word");
        let rest = rest.strip_prefix(' ').unwrap_or(rest).to_string();
        match word {
            "crate" => edit.crate_name = rest,
            "folder" => edit.folders.push(rest),
            "report" => edit.reports.push(rest),
            _ => edit.lines.push((word.to_string(), rest)),
        }
    }
    edit
}

/// Makes the changes of an edit in a crate's folder. An old line stands in its
/// file once.
fn change(edit: &Edit, folder: &Path) {
    for added in &edit.folders {
        fs::create_dir(folder.join(added)).expect("a folder can be made");
    }
    for file in edit.lines.chunk_by(|_, (word, _)| word != "file") {
        let path = folder.join(&file[0].1);
        let text = fs::read_to_string(&path).expect("the file to edit is there");
        let mut lines: Vec<&str> = text.lines().collect();
        let mut at = 0;
        for (word, line) in &file[1..] {
            if word == "old" {
                let found = lines.iter().filter(|other| **other == line);
                assert_eq!(found.count(), 1, "{}: {line}", edit.label);
                at = lines
                    .iter()
                    .position(|other| other == line)
                    .expect("it is there");
                lines.remove(at);
            } else {
                assert_eq!(word, "new", "{}", edit.label);
                lines.insert(at, line);
                at += 1;
            }
        }
        fs::write(&path, lines.join("\n") + "\n").expect("the copy can be edited");
    }
}

/// Copies the crates and makes the edit there. The proofs of the functions that
/// may have changed are left out: the kit would hold them to the edited code.
fn copy(edit: &Edit, to: &Path) {
    let crates = root().join("crates");
    for entry in fs::read_dir(&crates).expect("there are crates") {
        let name = entry.expect("there are crates").file_name();
        let folder = to.join("crates").join(&name);
        fs::create_dir_all(&folder).expect("a folder can be made");
        for part in ["src", "specs", "proofs"] {
            let from = crates.join(&name).join(part);
            if from.is_dir() {
                let status = Command::new("cp").arg("-r").arg(from).arg(&folder).status();
                assert!(status.expect("cp can be run").success());
            }
        }
    }
    fs::copy(root().join("crates.txt"), to.join("crates.txt")).expect("a file can be copied");
    let edited = to.join("crates").join(&edit.crate_name);
    for entry in fs::read_dir(edited.join("proofs")).expect("there are proofs") {
        let path = entry.expect("there are proofs").path();
        if path.is_dir() {
            fs::remove_dir_all(path).expect("a copy can be removed");
        }
    }
    change(edit, &edited);
}

fn reports(program: &Program) -> Vec<String> {
    let faults = program.check().err().unwrap_or_default().into_iter();
    let texts = faults.map(|fault| format!("{}: {}", fault.function, fault.what));
    texts.collect()
}

fn answer(edit: &Edit) -> Answer {
    let folder = Folder::new(edit.label);
    copy(edit, folder.path());
    let mut edited = as_it_stands().clone();
    let own = printed(folder.path(), &edit.crate_name);
    edited.insert(edit.crate_name.clone(), own);
    let library = library_as_it_stands();
    Answer {
        of_copy: reports(&Program::read(folder.path(), &edited, library)),
        of_source: reports(&Program::read(folder.path(), as_it_stands(), library)),
        of_mir: reports(&Program::read(&root(), &edited, library)),
    }
}

/// What is answered to some edits, by their names.
fn answers_to(labels: &[&'static str]) -> BTreeMap<&'static str, Answer> {
    let answers = labels.iter().map(|label| (*label, answer(&edit(label))));
    answers.collect()
}

/// What is answered to each edit. A few are tried side by side.
fn answers() -> &'static BTreeMap<&'static str, Answer> {
    static ANSWERS: OnceLock<BTreeMap<&'static str, Answer>> = OnceLock::new();
    ANSWERS.get_or_init(|| {
        // Printing them proves what the edited crates stand on.
        as_it_stands();
        let labels: Vec<&'static str> = REPORTED.into_iter().chain(ALLOWED).collect();
        let lanes = thread::available_parallelism().map_or(1, |count| count.get().min(4));
        thread::scope(|scope| {
            let mut running = Vec::new();
            for part in labels.chunks(labels.len().div_ceil(lanes)) {
                running.push(scope.spawn(move || answers_to(part)));
            }
            let ended = running.into_iter().map(|lane| lane.join());
            let found = ended.flat_map(|found| found.expect("each edit is answered"));
            found.collect()
        })
    })
}

#[test]
fn no_fault_as_it_stands() {
    assert_eq!(reports(&with_library(library_as_it_stands())), [""; 0]);
}

#[test]
fn each_edit_is_answered() {
    let mut wrong = Vec::new();
    for label in REPORTED.iter().chain(&ALLOWED) {
        let edit = edit(label);
        assert_eq!(edit.reports.is_empty(), ALLOWED.contains(label), "{label}");
        let found = &answers()[label].of_copy;
        if *found != edit.reports {
            wrong.push((label, found));
        }
    }
    assert!(wrong.is_empty(), "not as the edits name it: {wrong:#?}");
    let files = fs::read_dir(package().join("edits")).expect("there are edits");
    assert_eq!(files.count(), REPORTED.len() + ALLOWED.len());
}

/// The source of an edited copy, and the MIR of the repository.
#[test]
fn another_source() {
    let reports_of = |label: &str| &answers()[label].of_source;
    assert_eq!(
        *reports_of("calls_itself"),
        ["region_map::addresses::touching_after: the call of touching_after is not resolved"],
    );
    let what = "the source and the MIR differ in its parameters or its result";
    let report = format!("region_map::addresses::reserved_from: {what}");
    assert!(reports_of("test_lent_more").contains(&report));
}

/// The source of the repository, and the MIR of an edited copy.
#[test]
fn another_mir() {
    let reports_of = |label: &str| &answers()[label].of_mir;
    let report =
        "region_map::records::is_kind: the call of region_map::records::head_of is not resolved";
    assert!(reports_of("array_passed_on").contains(&report.to_string()));
    let held = "loader::judging::Stretch, which holds from: u64, until: u64, clear: u64";
    let report = format!("loader::judging::lengthen: the result is {held}");
    assert!(reports_of("type_in_a_comment").contains(&report));
}

// ---- the library

const NUMBERS: &str = "core/src/int/u64.rt";
const RESULTS: &str = "core/src/result.rt";
const CONVERSIONS: &str = "core/src/convert/mod.rt";

/// The library with another text for one that stands in a file once.
fn exchanged(file: &str, old: &str, new: &str) -> BTreeMap<String, String> {
    let mut library = library_as_it_stands().clone();
    let text = library.get_mut(file).expect("the library has the file");
    assert_eq!(text.matches(old).count(), 1, "{file}: {old}");
    *text = text.replace(old, new);
    library
}

/// The library with more at the beginning of a function's body, which opens at
/// the first end of a line with a bracket.
fn begun(file: &str, function: &str, more: &str) -> BTreeMap<String, String> {
    let text = &library_as_it_stands()[file];
    let (_, after) = text.split_once(function).expect("the function is there");
    let (between, _) = after.split_once("{\n").expect("it has a body");
    let head = format!("{function}{between}{{\n");
    exchanged(file, &head, &format!("{head}{more}\n"))
}

/// The library without a file.
fn without(file: &str) -> BTreeMap<String, String> {
    let mut library = library_as_it_stands().clone();
    library.remove(file).expect("the library has the file");
    library
}

/// What is reported where the library has another source.
fn answers_of(library: &BTreeMap<String, String>) -> Vec<String> {
    reports(&with_library(library))
}

#[test]
fn a_function_of_the_library_is_not_there() {
    let [min, max] = ["min", "max"].map(|name| {
        format!("core::int::u64::{name}: there is no such function in impl u64 of {NUMBERS}")
    });
    let of_another_name = exchanged(NUMBERS, "fn min(", "fn least(");
    assert_eq!(answers_of(&of_another_name), std::slice::from_ref(&min));
    let of_another_impl = exchanged(NUMBERS, "impl u64 {", "impl u32 {");
    assert_eq!(answers_of(&of_another_impl), [min, max]);
    let from = "there is no such function in impl<T> From<T> for T of core/src/convert/mod.rt";
    assert_eq!(
        answers_of(&without(CONVERSIONS)),
        [format!("core::convert::AnyFrom::from: {from}")],
    );
}

#[test]
fn a_function_of_the_library_holds_more() {
    let array = begun(NUMBERS, "fn min(", "let both = [self, other];");
    assert_eq!(
        answers_of(&array),
        ["core::int::u64::min: its body has let both [ ] ;"],
    );
    let cases = begun(NUMBERS, "fn max(", "if Err(self) < Ok(other) { self } else");
    assert_eq!(
        answers_of(&cases),
        ["core::int::u64::max: its body has Err Ok"],
    );
    let option = begun(
        NUMBERS,
        "fn min(",
        "if Some(self) < Some(other) { self } else",
    );
    assert_eq!(
        answers_of(&option),
        ["core::int::u64::min: its body has Some Some"],
    );
    let branch = "std::prelude::ResultTry::branch";
    let kept = exchanged(RESULTS, "ErrResidual(e)", "Kept(e)");
    assert_eq!(answers_of(&kept), [format!("{branch}: its body has Kept")]);
    let pair = exchanged(RESULTS, "ErrResidual(e)", "ErrResidual((e, e))");
    assert_eq!(answers_of(&pair), [format!("{branch}: its body has ( (")]);
}

#[test]
fn a_function_of_the_library_has_another_type() {
    let answer = exchanged(
        NUMBERS,
        "min(self, other: u64) -> u64",
        "min(self, other: u64) -> Option<u64>",
    );
    assert_eq!(
        answers_of(&answer),
        ["core::int::u64::min: the result is Option over a number of 64 bits"],
    );
    let lent = exchanged(RESULTS, "fn branch(self)", "fn branch(&self)");
    assert_eq!(
        answers_of(&lent),
        ["std::prelude::ResultTry::branch: the parameter self is of another type: &self"],
    );
    let function = "std::prelude::ResultFromResidualErrResidual::from_residual";
    let old = "(residual: ErrResidual<E>)";
    let array = exchanged(RESULTS, old, "(residual: [E; 2])");
    let what = "the parameter residual is of another type: [E; 2]";
    assert_eq!(answers_of(&array), [format!("{function}: {what}")]);
    let kept = exchanged(RESULTS, old, "(residual: ErrResidual<Kept>)");
    let what = "the parameter residual is ErrResidual over Kept";
    assert_eq!(answers_of(&kept), [format!("{function}: {what}")]);
}

#[test]
fn a_function_of_the_library_calls_another() {
    let lower = begun(
        NUMBERS,
        "fn min(",
        "if self < lower(self, other) { self } else",
    );
    assert_eq!(
        answers_of(&lower),
        ["core::int::u64::min: the call of lower is not resolved"],
    );
    let kept = exchanged(RESULTS, "F::from(", "Kept::from(");
    let function = "std::prelude::ResultFromResidualErrResidual::from_residual";
    assert_eq!(
        answers_of(&kept),
        [format!(
            "{function}: the call of Kept::from is not resolved"
        )],
    );
}

/// A call of a method is not resolved, and may be of the function itself.
#[test]
fn a_function_of_the_library_calls_itself() {
    let min = "core::int::u64::min";
    let itself = begun(
        NUMBERS,
        "fn min(",
        "if self < self.min(other) { self } else",
    );
    assert_eq!(
        answers_of(&itself),
        [
            format!("{min}: the call of .min is not resolved"),
            format!("{min}: reaches itself: {min}, {min}"),
        ],
    );
    let ring = exchanged(
        CONVERSIONS,
        "fn from(value: T) -> T {",
        "fn from(value: T) -> T { T::from_residual(value) } fn same(value: T) -> T {",
    );
    let function = "std::prelude::ResultFromResidualErrResidual::from_residual";
    let from = "core::convert::AnyFrom::from";
    assert_eq!(
        answers_of(&ring),
        [
            format!("{function}: reaches itself: {function}, {from}, {function}"),
            format!("{from}: reaches itself: {from}, {function}, {from}"),
        ],
    );
}
