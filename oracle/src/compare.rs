//! Runs cases through the probe in batches and shows the first answer that differs.

use std::io::{Read, Write};
use std::process::{Command, Stdio};
use std::sync::mpsc;
use std::thread;
use std::time::Duration;

use crate::answer::answer;
use crate::cases::Cases;
use crate::crate_side::CrateSide;
use crate::frame::Frame;
use crate::options;

/// A batch ends early once it is this long, so that sources at the limit don't pile up.
const BATCH_BYTES: usize = 24 << 20;

pub fn run(words: &[String]) -> Result<(), String> {
    let options = options::parse(words)?;
    if options.rest.is_empty() {
        return Err(format!("compare wants the probe's command after --\n{}", options::USAGE));
    }
    let cases = Cases::new(options.seed, &options.families, false)?;
    let mut compared = 0;
    for &op in &options.ops {
        let (mut number, end) = (options.first, options.first + options.cases.unwrap_or(usual(op)));
        while number < end {
            let (mut batch, mut input) = (Vec::new(), Vec::new());
            while number < end && batch.len() < options.batch && input.len() < BATCH_BYTES {
                let frame = cases.frame(op, number);
                frame.put(&mut input);
                batch.push(frame);
                number += 1;
            }
            let first = number - batch.len() as u64;
            run_batch(&options, &batch, input).map_err(|(at, why)| {
                format!("case {} of op {} (seed {})\n{why}", first + at as u64, op as char, options.seed)
            })?;
            compared += batch.len();
        }
    }
    println!("compared {compared} cases: no difference");
    Ok(())
}

/// Settings files are short, and every order of up to four records is to be among them.
fn usual(op: u8) -> u64 {
    match op {
        b'S' => 1_000_000,
        b'T' | b't' => 400_000,
        _ => 200_000,
    }
}

/// The number of the frame that differs within the batch, and what to show.
type Difference = (usize, String);

fn run_batch(options: &options::Options, batch: &[Frame], input: Vec<u8>) -> Result<(), Difference> {
    let no_probe =
        |error: std::io::Error| (0, format!("the probe {:?} did not run: {error}", options.rest[0]));
    let mut probe = Command::new(&options.rest[0])
        .args(&options.rest[1..])
        .stdin(Stdio::piped())
        .stdout(Stdio::piped())
        .spawn()
        .map_err(no_probe)?;
    let (mut to, mut from) = (probe.stdin.take().expect("piped"), probe.stdout.take().expect("piped"));
    // a probe that stops reading is found out by its answers, so a failed write is no error here
    let writer = thread::spawn(move || drop(to.write_all(&input)));
    let (done, got) = mpsc::channel();
    thread::spawn(move || {
        let mut all = Vec::new();
        let read = from.read_to_end(&mut all).map(|_| all);
        drop(done.send(read));
    });
    let mut expected = Vec::new();
    let mut ends = Vec::new();
    for frame in batch {
        answer(&CrateSide, frame, &mut expected);
        ends.push(expected.len());
    }
    let got = match got.recv_timeout(Duration::from_secs(options.patience)) {
        Ok(got) => got.map_err(no_probe)?,
        Err(_) => {
            drop(probe.kill());
            drop(probe.wait());
            return Err((0, format!("the probe gave no end within {} seconds", options.patience)));
        }
    };
    drop(writer.join());
    let status = probe.wait().map_err(no_probe)?;
    if got == expected {
        return if status.success() {
            Ok(())
        } else {
            Err((0, format!("right answers, but the probe ended with {status}")))
        };
    }
    Err(first_difference(batch, &expected, &ends, &got, &status.to_string()))
}

fn first_difference(
    batch: &[Frame],
    expected: &[u8],
    ends: &[usize],
    got: &[u8],
    status: &str,
) -> Difference {
    let (mut start, mut rest) = (0, got);
    for (at, frame) in batch.iter().enumerate() {
        let want = &expected[start..ends[at]];
        let (answer, after) = take_answer(rest);
        if answer != want {
            let got = if answer.is_empty() {
                format!("nothing; the probe ended with {status}\n").into_bytes()
            } else {
                answer.to_vec()
            };
            return (at, shown(frame, want, &got));
        }
        (start, rest) = (ends[at], after);
    }
    (batch.len() - 1, format!("the probe went on after the last answer: {}", escaped(rest)))
}

/// Lines up to and with a line that is a dot.
fn take_answer(rest: &[u8]) -> (&[u8], &[u8]) {
    let mut at = 0;
    while let Some(len) = rest[at..].iter().position(|byte| *byte == b'\n') {
        let line = &rest[at..at + len];
        at += len + 1;
        if line == b"." {
            return rest.split_at(at);
        }
    }
    (rest, &[])
}

fn shown(frame: &Frame, want: &[u8], got: &[u8]) -> String {
    format!(
        "op {}  a {}  b {}  {} bytes\nbytes: {}\nhex:   {}\nexpected:\n{}got:\n{}",
        frame.op as char,
        frame.a,
        frame.b,
        frame.bytes.len(),
        escaped(&frame.bytes),
        cut(&frame.bytes.iter().map(|byte| format!("{byte:02x}")).collect::<String>()),
        cut_lines(want),
        cut_lines(got),
    )
}

fn escaped(bytes: &[u8]) -> String {
    cut(&bytes.escape_ascii().to_string())
}

/// A megabyte is of no use on a screen; both ends are.
fn cut(text: &str) -> String {
    if text.len() <= 4000 {
        return text.to_string();
    }
    format!("{} ... {}", &text[..2000], &text[text.len() - 2000..])
}

fn cut_lines(answer: &[u8]) -> String {
    let text = String::from_utf8_lossy(answer);
    let lines: Vec<String> = text.lines().map(cut_line).collect();
    let (head, tail) = if lines.len() <= 60 {
        (&lines[..], &lines[..0])
    } else {
        (&lines[..30], &lines[lines.len() - 30..])
    };
    let gap = if tail.is_empty() { String::new() } else { "  ...\n".to_string() };
    let block = |lines: &[String]| lines.iter().map(|line| format!("  {line}\n")).collect::<String>();
    block(head) + &gap + &block(tail)
}

fn cut_line(line: &str) -> String {
    if line.is_ascii() { cut(line) } else { line.to_string() }
}
