//! Runs the check over the repository that it stands in, and prints what it
//! shows.

use source_check::{
    all_printed, library, LibraryFunction, Program, Shown, CALLS, CALL_LIBRARY_FUNCTIONS,
    CALL_LIBRARY_TYPES, CALL_TYPES, TESTS, TEST_LIBRARY_FUNCTIONS, TEST_LIBRARY_TYPES, TEST_TYPES,
};
use std::path::Path;
use std::process::ExitCode;

fn main() -> ExitCode {
    let root = Path::new(env!("CARGO_MANIFEST_DIR")).join("..");
    let program = Program::read(&root, &all_printed(&root), &library());
    match program.check() {
        Ok(shown) => {
            print(&program, &shown);
            ExitCode::SUCCESS
        }
        Err(faults) => {
            for fault in faults {
                println!("{}: {}", located(&program, &fault.function), fault.what);
            }
            ExitCode::FAILURE
        }
    }
}

/// The name of a function, after its file and line.
fn located(program: &Program, name: &str) -> String {
    match program.file_and_line(name) {
        Some(place) => format!("{place}: {name}"),
        None => name.to_string(),
    }
}

/// The names of the library's types in a list, after one another.
fn names(listed: &[(&str, &str)]) -> String {
    let names: Vec<&str> = listed.iter().map(|(name, _)| *name).collect();
    names.join(", ")
}

fn print_functions(program: &Program, listed: &[LibraryFunction]) {
    for function in listed {
        println!("  {}", located(program, function.name));
    }
}

fn print(program: &Program, shown: &Shown) {
    println!("The address test begins with");
    for name in TESTS {
        println!("  {name}");
    }
    println!("and reaches {} functions:", shown.tests.len());
    for name in &shown.tests {
        println!("  {}", located(program, name));
    }
    println!("Each of their parameters, locals and results is one of");
    println!("  a number");
    println!("  a bool");
    println!("  a lent slice of the map, or a pointer to a byte of it");
    for (name, held) in TEST_TYPES {
        println!("  {name}, which holds {held}");
    }
    println!("  {} over some of these", names(&TEST_LIBRARY_TYPES));
    println!("None of them reaches itself. Of the library they call none but");
    print_functions(program, &TEST_LIBRARY_FUNCTIONS);
    println!("of which the same holds.");
    let more = shown.calls.difference(&shown.tests).count();
    println!(
        "The same holds of {more} more functions that {} reach, with",
        CALLS.join(" and ")
    );
    println!("  a lent slice of the table, or a pointer to a byte of it");
    println!("  a lent slice of memory, or a pointer to a byte of it");
    println!("  nothing, as a result");
    for (name, held) in CALL_TYPES {
        println!("  {name}, which holds {held}");
    }
    println!("  {} over some of these", names(&CALL_LIBRARY_TYPES));
    println!("and calls of the library's");
    print_functions(program, &CALL_LIBRARY_FUNCTIONS);
    println!("of which the same holds, with the types that they are called for.");
    println!(
        "The longest chain of calls of the address test has {} functions: {}.",
        shown.chain.len(),
        shown.chain.join(", ")
    );
}
