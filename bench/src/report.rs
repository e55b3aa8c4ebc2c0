//! The table: what was counted and timed, each of the library's figures beside the crate's, and the growth with the input.

use std::collections::HashMap;

use crate::generate::DEEP_WIDTH;

/// Lines of a name and numbers, as the script writes them.
type Lines = HashMap<String, Vec<f64>>;

struct Row {
    title: &'static str,
    ours: &'static str,
    /// Whose figure stands beside it, and what of the crate's that is where it is not the same thing.
    beside: &'static str,
    note: &'static str,
}

const fn row(title: &'static str, ours: &'static str, beside: &'static str, note: &'static str) -> Row {
    Row { title, ours, beside, note }
}

const ROWS: &[Row] = &[
    row("lexing", "bench_lex_ours", "bench_lex_crate", ""),
    row("lexing, by the wrapper", "bench_lex_wrapper_ours", "bench_lex_crate", ""),
    row("feeding, pieces of 16", "bench_feed_16_ours", "bench_lex_crate", "the crate's lexing"),
    row("feeding, pieces of 512", "bench_feed_512_ours", "bench_lex_crate", "the crate's lexing"),
    row("feeding, pieces of 65536", "bench_feed_65536_ours", "bench_lex_crate", "the crate's lexing"),
    row("reading", "bench_read_ours", "bench_lex_crate", "the crate's lexing"),
    row("printing, width 0", "bench_print_0_ours", "bench_print_0_crate", "per output byte"),
    row("printing, width 40", "bench_print_40_ours", "bench_print_40_crate", "per output byte"),
    row("printing, width 100", "bench_print_100_ours", "bench_print_100_crate", "per output byte"),
    row(
        "printing, width 4294967295",
        "bench_print_4294967295_ours",
        "bench_print_4294967295_crate",
        "per output byte",
    ),
];

/// A print through windows by the C door: its title, its name, and the counts of the input and of the two lengths for growth.
struct Windows {
    title: &'static str,
    ours: &'static str,
    counts: [&'static str; 3],
}

const fn windows(title: &'static str, ours: &'static str, counts: [&'static str; 3]) -> Windows {
    Windows { title, ours, counts }
}

const INPUT: [&str; 3] = ["whole", "part", "grown"];
const WINDOWS: &[Windows] = &[
    windows("windows of 1", "bench_print_100_windows_1_ours", INPUT),
    windows("windows of 64", "bench_print_100_windows_64_ours", INPUT),
    windows("windows of 512", "bench_print_100_windows_512_ours", INPUT),
    windows("one list, windows of 512", "bench_print_100_windows_512_ours", ["list", "list_part", "list"]),
    windows("60 lists, windows of 512", "bench_print_100_windows_512_ours", ["nest", "nest_part", "nest"]),
];

/// A print whose count is shown: its title, its source, and its width.
const LOOKED: &[(&str, &str, u32)] = &[
    ("the input, width 0", "whole", 0),
    ("the input, width 40", "whole", 40),
    ("the input, width 100", "whole", 100),
    ("the input, width 4294967295", "whole", u32::MAX),
    ("one list, width 100", "list", 100),
    ("60 lists, width 100", "nest", 100),
    ("1 deep, width 2126", "deep_1", DEEP_WIDTH),
    ("16 deep, width 2126", "deep_16", DEEP_WIDTH),
    ("64 deep, width 2126", "deep_64", DEEP_WIDTH),
];

/// The lists that the fits test looks at, beside those in the table; and that a print's work does not grow with their depth.
fn by_lists(folder: &str) -> Result<(), String> {
    println!(
        "\nlists that the fits test looks at in a print, at most those in the table, which stand beside them"
    );
    println!(
        "deep: so many lists, one in the other, around 1,000 symbols; none of them fits at this width\n"
    );
    println!("{:<27} {:>9} {:>9} {:>6}", "", "looked", "lists", "ratio");
    for (title, name, width) in LOOKED {
        let lines = lines(&format!("{folder}/{name}.looked"))?;
        let Some([looked, lists]) = lines.get(&width.to_string()).map(Vec::as_slice) else {
            return Err(format!("{title} was not counted"));
        };
        println!("{title:<27} {looked:>9} {lists:>9} {:>6.2}", looked / lists);
        if looked > lists {
            return Err(format!("{title}: a list was looked at twice"));
        }
    }
    let [one, some, most] = ["deep_1", "deep_16", "deep_64"].map(|name| {
        lines(&format!("{folder}/{name}.counts"))
            .and_then(|counts| per_byte(&counts, "bench_print_2126_ours"))
    });
    println!("1, 16 and 64 deep: {:.1}, {:.1} and {:.1} instructions per output byte", one?, some?, most?);
    Ok(())
}

/// The most that a byte of a settings file may take.
const SETTINGS_MOST: f64 = 60.0;

/// A look-up in files with as many records as can be: at half the limit and at the limit, to show that it is linear.
fn by_settings(whole: &Lines) -> Result<(), String> {
    println!(
        "\nlooking a width up in C, instructions per byte of the project's settings file: as many records as it can have, and 8 bytes of a house file\n"
    );
    println!("{:<27} {:>7} {:>7}", "", "ours", "at most");
    for (title, ours) in [
        ("32768 bytes, 5461 records", "bench_settings_32768_ours"),
        ("65536 bytes, 10922 records", "bench_settings_65536_ours"),
    ] {
        let count = per_byte(whole, ours)?;
        println!("{title:<27} {count:>7.1} {SETTINGS_MOST:>7.1}");
        if count > SETTINGS_MOST {
            return Err(format!("{title}: a look-up takes more than it may"));
        }
    }
    Ok(())
}

/// Each beside the ordinary print of the same text.
fn by_windows(folder: &str) -> Result<(), String> {
    println!(
        "\nprinting through windows in C, width 100, beside the ordinary print, instructions per output byte"
    );
    println!("one list and 60 nested lists: growth from 64 KiB to 1 MiB of source\n");
    println!("{:<27} {:>7} {:>7} {:>6} {:>7} {:>9}", "", "windows", "print", "ratio", "growth", "bytes");
    for Windows { title, ours, counts } in WINDOWS {
        let [of, part, grown] = counts.map(|name| lines(&format!("{folder}/{name}.counts")));
        let (of, part, grown) = (of?, part?, grown?);
        let (count, print) = (per_byte(&of, ours)?, per_byte(&of, "bench_print_100_ours")?);
        let growth = (per_byte(&grown, ours)? / per_byte(&part, ours)? - 1.0) * 100.0;
        let ratio = count / print;
        println!("{title:<27} {count:>7.1} {print:>7.1} {ratio:>6.2} {growth:>6.1}% {:>9}", of[*ours][0]);
    }
    Ok(())
}

pub fn table(folder: &str) -> Result<(), String> {
    let whole = lines(&format!("{folder}/whole.counts"))?;
    let part = lines(&format!("{folder}/part.counts"))?;
    let grown = lines(&format!("{folder}/grown.counts"))?;
    let times = lines(&format!("{folder}/whole.times")).unwrap_or_default();
    let program = lines(&format!("{folder}/program.counts")).unwrap_or_default();
    let bytes = |lines: &Lines| lines.get("bench_lex_ours").map_or(0.0, |found| found[0]);
    println!(
        "input {} bytes; growth from its first {} bytes to {} bytes of the same",
        bytes(&whole),
        bytes(&part),
        bytes(&grown)
    );
    println!("instructions and nanoseconds per byte of the source, or of the output where it says so\n");
    println!(
        "{:<27} {:>7} {:>7} {:>6} {:>7} {:>8} {:>8}  {}",
        "", "ours", "crate", "ratio", "growth", "ours ns", "crate ns", "beside"
    );
    for Row { title, ours, beside, note } in ROWS {
        let (count, theirs) = (per_byte(&whole, ours)?, per_byte(&whole, beside)?);
        let growth = (per_byte(&grown, ours)? / per_byte(&part, ours)? - 1.0) * 100.0;
        let time = |name: &str| {
            let (spent, count) = (times.get(name), whole.get(name));
            spent.zip(count).map_or("-".to_string(), |(spent, count)| format!("{:.2}", spent[0] / count[0]))
        };
        println!(
            "{title:<27} {count:>7.1} {theirs:>7.1} {:>6.2} {growth:>6.1}% {:>8} {:>8}  {note}",
            count / theirs,
            time(ours),
            time(beside)
        );
    }
    if let (Some(isle), Some(by_crate)) = (program.get("isle"), program.get("crate")) {
        let (ours, theirs) = (isle[1] / isle[0], by_crate[1] / by_crate[0]);
        println!(
            "{:<27} {ours:>7.1} {theirs:>7.1} {:>6.2} {:>7} {:>8} {:>8}  on the first {} bytes, whole processes",
            "the program, end to end",
            ours / theirs,
            "-",
            "-",
            "-",
            isle[0]
        );
    }
    let left_out = |width: u32| whole.get(&format!("left_out_{width}")).map_or(0.0, |found| found[0]);
    for width in crate::measured::WIDTHS.into_iter().filter(|width| left_out(*width) > 0.0) {
        println!(
            "width {width}: {} trees left out on both sides, for the crate panics at their empty lists",
            left_out(width)
        );
    }
    by_windows(folder)?;
    by_lists(folder)?;
    by_settings(&whole)
}

/// Instructions for each of the bytes that the function named.
fn per_byte(lines: &Lines, name: &str) -> Result<f64, String> {
    match lines.get(name).map(Vec::as_slice) {
        Some([bytes, instructions]) => Ok(instructions / bytes),
        _ => Err(format!("{name} was not counted")),
    }
}

fn lines(file: &str) -> Result<Lines, String> {
    let text = std::fs::read_to_string(file).map_err(|error| format!("{file}: {error}"))?;
    let line = |line: &str| {
        let mut words = line.split_whitespace();
        let name = words.next()?.to_string();
        Some((name, words.filter_map(|word| word.parse().ok()).collect()))
    };
    Ok(text.lines().filter_map(line).collect())
}
