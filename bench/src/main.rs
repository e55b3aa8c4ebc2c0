//! Measures the proved library and the unchanged crate on one input: instructions, time, and growth with the input.

// The crate's own files, unchanged, and never to be formatted from here.
#[path = "../../../shared/docs/src/src/ast.rs"]
#[allow(dead_code, unused, unfulfilled_lint_expectations)]
#[rustfmt::skip]
mod ast;
#[path = "../../oracle/src/codegen.rs"]
mod codegen;
#[path = "../../../shared/docs/src/src/error.rs"]
#[allow(dead_code, unused)]
#[rustfmt::skip]
mod error;
#[path = "../../../shared/docs/src/src/files.rs"]
#[allow(dead_code, unused, unfulfilled_lint_expectations)]
#[rustfmt::skip]
mod files;
#[path = "../../../shared/docs/src/src/lexer.rs"]
#[allow(dead_code, unused)]
#[rustfmt::skip]
mod lexer;
#[path = "../../../shared/docs/src/src/log.rs"]
#[allow(dead_code, unused)]
mod log;
#[path = "../../../shared/docs/src/src/printer.rs"]
#[allow(dead_code, unused)]
#[rustfmt::skip]
mod printer;
#[path = "../../oracle/src/rng.rs"]
#[allow(dead_code)]
mod rng;

#[path = "../../host/rust/src/ffi.rs"]
#[allow(dead_code)]
mod ffi;
mod generate;
mod input;
mod measured;
mod report;

use std::io::{Read, Write};
use std::process::ExitCode;

const USAGE: &str = "bench is run by the script bench/run";

fn main() -> ExitCode {
    let words: Vec<String> = std::env::args().skip(1).collect();
    let words: Vec<&str> = words.iter().map(String::as_str).collect();
    let done = match words[..] {
        ["input", from, folder] => input::write(from, folder),
        ["names"] => measured::names(),
        ["all", file] => measured::all(file),
        ["one", name, file] => measured::one(name, file, true),
        ["idle", name, file] => measured::one(name, file, false),
        ["time", file] => measured::time(file),
        ["looked", file, ref widths @ ..] => measured::looked(file, widths),
        ["program"] => program(),
        ["table", folder] => report::table(folder),
        _ => Err(USAGE.to_string()),
    };
    match done {
        Ok(()) => ExitCode::SUCCESS,
        Err(why) => {
            eprintln!("bench: {why}");
            ExitCode::FAILURE
        }
    }
}

/// What the program `isle` does, by the crate: standard input to its layout at width 100.
fn program() -> Result<(), String> {
    let mut text = String::new();
    std::io::stdin().read_to_string(&mut text).map_err(|error| error.to_string())?;
    let mut out = Vec::new();
    measured::print_by_crate(&input::trees(&text)?, 100, &mut out);
    std::io::stdout().write_all(&out).map_err(|error| error.to_string())
}
