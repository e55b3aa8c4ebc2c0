//! The measured functions, each kept whole and under a plain name, so that callgrind can be asked for it.

use std::hint::black_box;
use std::panic::{AssertUnwindSafe, catch_unwind};
use std::time::{Duration, Instant};

use crate::ffi::{self, kind};
use crate::generate::{self, DEEP_WIDTH};
use crate::input::{self, Tree};
use crate::lexer::Lexer;
use crate::printer::{SExpr, ToSExpr, print_node};

/// What the functions work on. All rooms are there and cleared before a function is measured.
pub struct Job {
    text: String,
    room: Vec<u8>,
    page: Vec<u8>,
    prints: Vec<Print>,
    settings: Vec<Vec<u8>>,
}

/// The trees that are printed at a width: those that the crate can print there.
struct Print {
    width: u32,
    trees: Vec<SExpr>,
    table: Vec<u8>,
    left_out: usize,
    /// The lists that the fits test looks at.
    looked: u64,
}

pub const WIDTHS: [u32; 5] = [0, 40, 100, u32::MAX, DEEP_WIDTH];

/// The lengths of settings files that are checked: half the limit, and the limit.
const SETTINGS: [usize; 2] = [32_768, 65_536];

impl Job {
    pub fn new(file: &str, only: Option<&str>) -> Result<Job, String> {
        let text = std::fs::read_to_string(file).map_err(|error| format!("{file}: {error}"))?;
        let settings = SETTINGS.map(generate::settings).into();
        let mut job = Job { text, room: Vec::new(), page: Vec::new(), prints: Vec::new(), settings };
        let wants = |part: &str| only.is_none_or(|name| name.contains(part));
        let mut room = 0;
        if wants("read") {
            room = tulbazhik::read(job.text.as_bytes()).map_err(|error| error.to_string())?.len();
        }
        for width in WIDTHS {
            if wants(&format!("print_{width}_")) {
                let mut print = Print::new(&job.text, width)?;
                let text = tulbazhik::print(&print.table, width).map_err(|error| error.to_string())?;
                let mut same = Vec::new();
                print_by_crate(&print.trees, width, &mut same);
                if text.bytes != same {
                    return Err(format!("the two sides print other bytes at width {width}"));
                }
                if !same_by_windows(&print.table, width, &text) {
                    return Err(format!("the windows joined are another print at width {width}"));
                }
                room = room.max(text.bytes.len());
                print.looked = text.looked;
                job.prints.push(print);
            }
        }
        job.room = vec![0; room.max(512)];
        job.page = vec![0; room];
        Ok(job)
    }

    /// A line for each width: how many trees are not printed there.
    fn left_out(&self) {
        for print in &self.prints {
            println!("left_out_{} {}", print.width, print.left_out);
        }
    }
}

impl Print {
    fn new(text: &str, width: u32) -> Result<Print, String> {
        let all = input::placed(text)?;
        let ends: Vec<usize> = all.iter().skip(1).map(|tree| tree.start).chain([text.len()]).collect();
        let quiet = std::panic::take_hook();
        std::panic::set_hook(Box::new(|_| {}));
        let (mut trees, mut source, mut left_out) = (Vec::new(), String::new(), 0);
        for (Tree { start, tree }, end) in all.into_iter().zip(ends) {
            let printed = catch_unwind(AssertUnwindSafe(|| {
                print_by_crate(std::slice::from_ref(&tree), width, &mut Vec::new())
            }));
            match printed {
                Ok(()) => {
                    source.push_str(&text[start..end]);
                    trees.push(tree);
                }
                Err(_) => left_out += 1,
            }
        }
        std::panic::set_hook(quiet);
        let table = tulbazhik::read(source.as_bytes()).map_err(|error| error.to_string())?;
        Ok(Print { width, trees, table, left_out, looked: 0 })
    }

    /// How many lists the table has, which are of kind 5: each record begins with its length and its kind.
    fn lists(&self) -> usize {
        let (mut rest, mut count) = (&self.table[..], 0);
        while let Some((length, after)) = rest.split_first_chunk() {
            count += usize::from(after.starts_with(&[5, 0]));
            rest = &rest[u32::from_le_bytes(*length) as usize..];
        }
        count
    }
}

fn same_by_windows(table: &[u8], width: u32, text: &tulbazhik::Text) -> bool {
    let (mut printing, mut window) = (tulbazhik::Printing::new(table, width), [0; 512]);
    let mut rest = &text.bytes[..];
    loop {
        match printing.fill(&mut window) {
            Ok(Some(n)) if rest.starts_with(&window[..n]) => rest = &rest[n..],
            answer => {
                return answer == Ok(None) && rest.is_empty() && printing.looked() == Some(text.looked);
            }
        }
    }
}

/// A node that gives the tree it holds: `print_node` takes a tree by a clone of it.
struct Node<'t>(&'t SExpr);

impl ToSExpr for Node<'_> {
    fn to_sexpr(&self) -> SExpr {
        self.0.clone()
    }
}

/// The framing of the crate's own `print`, which takes its syntax trees alone.
pub fn print_by_crate(trees: &[SExpr], width: u32, out: &mut Vec<u8>) {
    for (i, tree) in trees.iter().enumerate() {
        if i > 0 {
            out.push(b'\n');
        }
        print_node(&Node(tree), width as usize, out).expect("a vector takes every byte");
        out.push(b'\n');
    }
}

/// The library's own function, as a host in C calls it.
fn lex(job: &mut Job) -> usize {
    let (source, mut at, mut words) = (job.text.as_bytes(), 0, [0; 8]);
    loop {
        // SAFETY: the pointer and the length are a slice's, and the words are this function's own.
        unsafe { ffi::tulbazhik_next_token(source.as_ptr(), source.len(), at, &mut words) };
        let [kind, start, len, ..] = words;
        match kind {
            kind::LPAREN..=kind::INT => at = (start + len) as usize,
            _ => break,
        }
    }
    assert_eq!(words[0], kind::END, "the input lexes");
    job.text.len()
}

/// The same by the wrapper's iterator.
fn lex_wrapper(job: &mut Job) -> usize {
    for token in tulbazhik::tokens(job.text.as_bytes()) {
        black_box(token.expect("the input lexes"));
    }
    job.text.len()
}

fn lex_crate(job: &mut Job) -> usize {
    let mut lexer = Lexer::new(0, &job.text).expect("the input lexes");
    while let Some(token) = lexer.next().expect("the input lexes") {
        black_box(token);
    }
    job.text.len()
}

fn feed(job: &mut Job, size: usize) -> usize {
    let (mut state, mut words) = ([0; 8], [0; 8]);
    for piece in job.text.as_bytes().chunks(size) {
        let mut rest = piece;
        while !rest.is_empty() {
            // SAFETY: the pointer and the length are a slice's, and the state and the words are this function's own.
            unsafe { ffi::tulbazhik_feed(&mut state, rest.as_ptr(), rest.len(), &mut words) };
            let [kind, _, _, _, _, used, ..] = words;
            assert!(kind != kind::REFUSED, "the input lexes");
            rest = &rest[used as usize..];
        }
    }
    loop {
        // SAFETY: as above.
        unsafe { ffi::tulbazhik_close(&mut state, &mut words) };
        if words[0] == kind::END {
            return job.text.len();
        }
    }
}

fn read(job: &mut Job) -> usize {
    black_box(tulbazhik::read_into(job.text.as_bytes(), &mut job.room).expect("the room is enough"));
    job.text.len()
}

fn print(job: &mut Job, nth: usize) -> usize {
    let print = job.prints.iter().find(|print| print.width == WIDTHS[nth]).expect("it was asked for");
    tulbazhik::print_into(&print.table, print.width, &mut job.room).expect("the room is enough").len
}

/// The same text through windows of so many bytes, as a host in C gets it: each window is written over the one before.
fn windows(job: &mut Job, size: usize) -> usize {
    let print = job.prints.iter().find(|print| print.width == 100).expect("it was asked for");
    let (window, mut state, mut words, mut sum) = (&mut job.room[..size], [0; 72], [0; 8], 0);
    loop {
        let (table, room) = (&print.table, window.as_mut_ptr());
        // SAFETY: the pointers and lengths are slices', and the state and the words are this function's own.
        unsafe { ffi::tulbazhik_fill(table.as_ptr(), table.len(), 100, &mut state, room, size, &mut words) };
        match words {
            [kind::DONE, _, length, ..] => sum += length as usize,
            [kind::END, ..] => return sum,
            _ => panic!("the table is good"),
        }
    }
}

/// A look-up that checks a project's file of the smallest records and the smallest house file, and finds its setting in neither.
fn settings(job: &mut Job, nth: usize) -> usize {
    let (project, house, mut words) = (&job.settings[nth], [8, 0, 0, 0, 1, 0, 1, 0], [0; 8]);
    let (at, size) = (project.as_ptr(), project.len());
    // SAFETY: the pointers and lengths are a vector's and an array's, and the words are this function's own.
    unsafe { ffi::tulbazhik_width(at, size, house.as_ptr(), house.len(), &mut words) };
    assert_eq!(words, [kind::REFUSED, 0, 24, 0, 0, 0, 0, 3], "both files are good and set no width");
    size
}

fn print_crate(job: &mut Job, nth: usize) -> usize {
    let print = job.prints.iter().find(|print| print.width == WIDTHS[nth]).expect("it was asked for");
    job.page.clear();
    print_by_crate(&print.trees, print.width, &mut job.page);
    job.page.len()
}

macro_rules! measured {
    ($($name:ident = $body:expr;)*) => {
        $(#[unsafe(no_mangle)]
        #[inline(never)]
        fn $name(job: &mut Job) -> usize {
            let body: fn(&mut Job) -> usize = $body;
            body(job)
        })*
        /// Each by its name; it returns the bytes that its instructions are divided by.
        pub const ALL: &[(&str, fn(&mut Job) -> usize)] = &[$((stringify!($name), $name)),*];
    };
}

measured! {
    bench_lex_ours = lex;
    bench_lex_wrapper_ours = lex_wrapper;
    bench_lex_crate = lex_crate;
    bench_feed_16_ours = |job| feed(job, 16);
    bench_feed_512_ours = |job| feed(job, 512);
    bench_feed_65536_ours = |job| feed(job, 65536);
    bench_read_ours = read;
    bench_print_0_ours = |job| print(job, 0);
    bench_print_40_ours = |job| print(job, 1);
    bench_print_100_ours = |job| print(job, 2);
    bench_print_4294967295_ours = |job| print(job, 3);
    bench_print_2126_ours = |job| print(job, 4);
    bench_print_100_windows_1_ours = |job| windows(job, 1);
    bench_print_100_windows_64_ours = |job| windows(job, 64);
    bench_print_100_windows_512_ours = |job| windows(job, 512);
    bench_settings_32768_ours = |job| settings(job, 0);
    bench_settings_65536_ours = |job| settings(job, 1);
    bench_print_0_crate = |job| print_crate(job, 0);
    bench_print_40_crate = |job| print_crate(job, 1);
    bench_print_100_crate = |job| print_crate(job, 2);
    bench_print_4294967295_crate = |job| print_crate(job, 3);
}

/// Runs each function once, with a line of its name and its bytes.
pub fn all(file: &str) -> Result<(), String> {
    let mut job = Job::new(file, None)?;
    for (name, function) in ALL {
        println!("{name} {}", function(&mut job));
    }
    job.left_out();
    Ok(())
}

/// Nanoseconds by the fastest of many runs of each function.
pub fn time(file: &str) -> Result<(), String> {
    let mut job = Job::new(file, None)?;
    for (name, function) in ALL {
        let (mut best, mut spent) = (Duration::MAX, Duration::ZERO);
        while spent < Duration::from_millis(300) {
            let start = Instant::now();
            black_box(function(&mut job));
            let took = start.elapsed();
            (best, spent) = (best.min(took), spent + took);
        }
        println!("{name} {}", best.as_nanos());
    }
    Ok(())
}

/// A line for each width: the lists that the fits test looks at, and those in the table.
pub fn looked(file: &str, widths: &[&str]) -> Result<(), String> {
    for width in widths {
        for print in Job::new(file, Some(&format!("print_{width}_")))?.prints {
            println!("{width} {} {}", print.looked, print.lists());
        }
    }
    Ok(())
}

pub fn names() -> Result<(), String> {
    ALL.iter().for_each(|(name, _)| println!("{name}"));
    Ok(())
}

/// One function, or all but its call.
pub fn one(name: &str, file: &str, call: bool) -> Result<(), String> {
    let (name, function) = ALL.iter().find(|(known, _)| *known == name).ok_or("no such function")?;
    let mut job = Job::new(file, Some(name))?;
    let bytes = if call { function(&mut job) } else { 0 };
    println!("{name} {bytes}");
    job.left_out();
    Ok(())
}
