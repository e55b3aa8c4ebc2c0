//! Holds the wrapper, the C functions in guarded memory and the C example against the unchanged crate, in one process.

// The crate's own files, unchanged, and never to be formatted from here.
#[path = "../../../shared/docs/src/src/ast.rs"]
#[allow(dead_code, unused, unfulfilled_lint_expectations)]
#[rustfmt::skip]
mod ast;
#[path = "../../../shared/docs/src/src/error.rs"]
#[allow(dead_code, unused)]
#[rustfmt::skip]
mod error;
#[path = "../../../shared/docs/src/src/files.rs"]
#[allow(dead_code, unused, unfulfilled_lint_expectations)]
#[rustfmt::skip]
mod files;
#[path = "../../../shared/docs/src/src/lexer.rs"]
#[allow(dead_code, unused)]
#[rustfmt::skip]
mod lexer;
#[path = "../../../shared/docs/src/src/log.rs"]
#[allow(dead_code, unused)]
mod log;
#[path = "../../../shared/docs/src/src/printer.rs"]
#[allow(dead_code, unused)]
#[rustfmt::skip]
mod printer;

// The oracle's cases and its answers, from the crate and, where the crate has none, from document 01.
#[path = "../../oracle/src/answer.rs"]
mod answer;
#[path = "../../oracle/src/cases/mod.rs"]
mod cases;
#[path = "../../oracle/src/codegen.rs"]
mod codegen;
#[path = "../../oracle/src/crate_side.rs"]
mod crate_side;
#[path = "../../oracle/src/document/mod.rs"]
mod document;
#[path = "../../oracle/src/drive.rs"]
mod drive;
#[path = "../../oracle/src/frame.rs"]
#[allow(dead_code)]
mod frame;
#[path = "../../oracle/src/rng.rs"]
mod rng;
#[path = "../../oracle/src/token.rs"]
mod token;
#[path = "../../oracle/src/tree.rs"]
mod tree;
#[path = "../../oracle/src/windows.rs"]
mod windows;
#[path = "../../oracle/src/worked.rs"]
mod worked;

mod doors;
#[path = "../rust/src/ffi.rs"]
#[allow(dead_code)]
mod ffi;
// the settings files that bench measures
#[path = "../../bench/src/generate.rs"]
#[allow(dead_code)]
mod generate;
mod guarded;
mod settings_doors;
mod stack;
mod windowed;

use std::process::ExitCode;

fn main() -> ExitCode {
    let each: u64 = std::env::args().nth(1).and_then(|word| word.parse().ok()).unwrap_or(3000);
    let cases = cases::Cases::new(1, &[], false).expect("no families are chosen");
    let (mut passed, mut failed) = (0, 0);
    match stack::most() {
        Some(most) => {
            println!("host: a call takes up to {most} bytes of stack");
            passed += 1;
        }
        None => {
            println!("host: a call takes more stack than the header says");
            failed += 1;
        }
    }
    for same in windowed::long() {
        passed += u64::from(same);
        failed += u64::from(!same);
    }
    let (right, wrong) = settings_doors::compared(&cases, each);
    (passed, failed) = (passed + right, failed + wrong);
    // the doors have no check of a table by itself, op K; settings (S, T, t) were compared above
    for &op in frame::OPS.iter().filter(|op| !b"KSTt".contains(op)) {
        for number in 0..each {
            let case = cases.frame(op, number);
            // the C example prints at width 100 alone
            let wide = (op == b'W').then(|| frame::Frame { a: 100, ..case.clone() });
            for case in std::iter::once(case).chain(wide) {
                let mut expected = Vec::new();
                answer::answer(&crate_side::CrateSide, &case, &mut expected);
                for (way, got) in doors::answers(&case) {
                    if got == expected {
                        passed += 1;
                        continue;
                    }
                    failed += 1;
                    if failed <= 5 {
                        println!("op {} case {number} by {way}: a {} b {}", op as char, case.a, case.b);
                        println!("{}", case.bytes[..case.bytes.len().min(2000)].escape_ascii());
                        println!("expected:\n{}got:\n{}", shown(&expected), shown(&got));
                    }
                }
            }
        }
    }
    // the tables of two cases, for a print that is given the one and then the other; a call that goes wrong here ends the process
    let mut fence = guarded::Fenced::new();
    for number in 0..each {
        let [one, other] = [number, number + 1].map(|number| cases.frame(b'P', number).bytes);
        windowed::astray([&one, &other], &mut fence, &mut rng::Rng::of(&[b'w' as u64, number]));
        passed += 1;
    }
    println!("{passed} passed, {failed} failed");
    if failed == 0 { ExitCode::SUCCESS } else { ExitCode::FAILURE }
}

/// A megabyte is of no use on a screen.
fn shown(lines: &[u8]) -> String {
    String::from_utf8_lossy(&lines[..lines.len().min(2000)]).into_owned()
}
