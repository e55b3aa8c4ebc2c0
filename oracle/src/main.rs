//! The oracle: makes cases for the probe and holds its answers against the Rust crate and the documents.

// The crate's own files, unchanged, and never to be formatted from here. What they have beyond the
// lexer and the layout goes unused.
#[path = "../../../shared/docs/src/src/ast.rs"]
#[allow(dead_code, unused, unfulfilled_lint_expectations)]
#[rustfmt::skip]
mod ast;
#[path = "../../../shared/docs/src/src/error.rs"]
#[allow(dead_code, unused)]
#[rustfmt::skip]
mod error;
#[path = "../../../shared/docs/src/src/files.rs"]
#[allow(dead_code, unused, unfulfilled_lint_expectations)]
#[rustfmt::skip]
mod files;
#[path = "../../../shared/docs/src/src/lexer.rs"]
#[allow(dead_code, unused)]
#[rustfmt::skip]
mod lexer;
#[path = "../../../shared/docs/src/src/log.rs"]
#[allow(dead_code, unused)]
mod log;
#[path = "../../../shared/docs/src/src/printer.rs"]
#[allow(dead_code, unused)]
#[rustfmt::skip]
mod printer;

mod answer;
mod cases;
mod codegen;
mod compare;
mod crate_side;
mod cuts;
mod document;
mod drive;
mod frame;
mod options;
mod rng;
mod sample;
mod stand_in;
mod token;
mod tree;
mod windows;
mod worked;

use std::process::ExitCode;

fn main() -> ExitCode {
    let words: Vec<String> = std::env::args().skip(1).collect();
    let done = match words.split_first() {
        Some((command, rest)) if command == "compare" => compare::run(rest),
        Some((command, rest)) if command == "sample" => sample::run(rest),
        Some((command, _)) if command == "answer" => stand_in::serve(),
        _ => Err(options::USAGE.to_string()),
    };
    match done {
        Ok(()) => ExitCode::SUCCESS,
        Err(why) => {
            println!("{why}");
            ExitCode::FAILURE
        }
    }
}
