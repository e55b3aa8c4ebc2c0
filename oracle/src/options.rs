//! The command line: options, then after `--` the probe's command.

use crate::frame::OPS;

pub const USAGE: &str = "usage:
  oracle compare [--ops L,F,f,C,c,R,P,W,K,V,v,Q,S,T,t] [--cases N] [--first K] [--seed S] [--families A,B] [--batch N] [--patience SECONDS] -- PROBE [WORDS...]
      runs N cases of each op (else 200,000, of S 1,000,000, of T and t 400,000), from number K on, through the probe and stops at the first difference
  oracle sample [--ops ...] [--cases N] [--seed S] [--families A,B] FRAMES EXPECTED
      writes a fixed sample of N cases of each op: the frames to one file, the answers to the other
families: pieces literals comments text damaged bytes trees real limit (sources), small tables broken looks costs (tables), lowest (tables, and sources of W), orders cuts changed files (settings)";

pub struct Options {
    pub ops: Vec<u8>,
    /// Where it is said, how many cases of each op.
    pub cases: Option<u64>,
    /// The number of the first case, to run one again that differed.
    pub first: u64,
    pub seed: u64,
    /// Names of families to draw from; empty means all.
    pub families: Vec<String>,
    pub batch: usize,
    pub patience: u64,
    /// What follows the options: the probe's command, or the sample's files.
    pub rest: Vec<String>,
}

pub fn parse(words: &[String]) -> Result<Options, String> {
    let mut options = Options {
        ops: OPS.to_vec(),
        cases: None,
        first: 0,
        seed: 1,
        families: Vec::new(),
        batch: 20_000,
        patience: 300,
        rest: Vec::new(),
    };
    let mut words = words.iter();
    while let Some(word) = words.next() {
        if !word.starts_with("--") {
            options.rest.push(word.clone());
            continue;
        }
        if word == "--" {
            options.rest.extend(words.cloned());
            break;
        }
        let value = words.next().ok_or_else(|| format!("{word} wants a value\n{USAGE}"))?;
        let number = || value.parse::<u64>().map_err(|_| format!("{word} wants a number, not {value}"));
        match word.as_str() {
            "--ops" => options.ops = ops(value)?,
            "--cases" => options.cases = Some(number()?),
            "--first" => options.first = number()?,
            "--seed" => options.seed = number()?,
            "--families" => options.families = value.split(',').map(str::to_string).collect(),
            "--batch" => options.batch = number()?.max(1) as usize,
            "--patience" => options.patience = number()?,
            _ => return Err(format!("no option {word}\n{USAGE}")),
        }
    }
    Ok(options)
}

fn ops(value: &str) -> Result<Vec<u8>, String> {
    let known = |op: &str| op.len() == 1 && OPS.contains(&op.as_bytes()[0]);
    match value.split(',').find(|op| !known(op)) {
        Some(op) => Err(format!("no op {op}\n{USAGE}")),
        None => Ok(value.split(',').map(|op| op.as_bytes()[0]).collect()),
    }
}
