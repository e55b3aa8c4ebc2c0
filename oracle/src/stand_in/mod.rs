//! A stand-in for the probe, from the documents alone and by other routes than the expectations take:
//! the comparison run on it checks the harness, and the documents' side of it against the crate.

mod counting;
mod descent;
mod machine;
mod settled;

use std::io::{Read, Write, stdin, stdout};

use crate::answer::{Printed, Side, answer};
use crate::document::{layout, lex, settings::Setting};
use crate::drive::Feeder;
use crate::frame;
use crate::token::{Lexed, Refusal};
use crate::tree::{Tree, table_of};

pub struct StandIn;

impl Side for StandIn {
    fn lex(&self, source: &[u8], from: usize) -> Lexed {
        lex::tokens(source, from)
    }

    fn feeder(&self, _source: &[u8]) -> Box<dyn Feeder> {
        Box::new(machine::Machine::fresh())
    }

    fn read(&self, source: &[u8]) -> Result<Vec<u8>, Refusal> {
        Ok(table_of(&descent::source_trees(source)?))
    }

    fn check(&self, table: &[u8]) -> Result<Vec<Tree>, Refusal> {
        descent::table_trees(table)
    }

    fn lay_out(&self, trees: &[Tree], width: usize) -> Printed {
        Printed { text: layout::page(trees, width).out, looked: counting::looked(trees, width) }
    }

    fn settings(&self, file: &[u8]) -> Result<Vec<Setting>, usize> {
        settled::settings(file)
    }
}

/// Frames from standard input, answers to standard output.
pub fn serve() -> Result<(), String> {
    let mut input = Vec::new();
    stdin().read_to_end(&mut input).map_err(|error| error.to_string())?;
    let (mut rest, mut out) = (&input[..], Vec::new());
    while let Some((frame, after)) = frame::take(rest) {
        answer(&StandIn, &frame, &mut out);
        rest = after;
        if out.len() > 1 << 20 {
            stdout().write_all(&out).map_err(|error| error.to_string())?;
            out.clear();
        }
    }
    stdout().write_all(&out).map_err(|error| error.to_string())
}
