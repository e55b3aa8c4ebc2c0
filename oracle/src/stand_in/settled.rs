//! A settings file checked with each fault looked for by itself: where records start by their lengths alone, the first bad one, the first second of its kind.

use crate::document::settings::{FIRST_SKIPPED, HEAD, Setting};

/// The places where records start, by their lengths alone; the last may be that of something that is no record.
fn starts(file: &[u8]) -> Vec<usize> {
    let mut starts = vec![0];
    while let Some(at) = starts.last().and_then(|at| Some(at + length(&file[*at..])?)) {
        if at == file.len() {
            break;
        }
        starts.push(at);
    }
    starts
}

/// What its length says, where that is within the file and there is a kind.
fn length(rest: &[u8]) -> Option<usize> {
    let number = rest.iter().take(4).rev().fold(0, |n, byte| n << 8 | *byte as usize);
    (rest.len() >= HEAD && (HEAD..=rest.len()).contains(&number)).then_some(number)
}

fn kind(rest: &[u8]) -> u16 {
    rest[4] as u16 + 256 * rest[5] as u16
}

fn is_bad(rest: &[u8]) -> bool {
    let Some(len) = length(rest) else { return true };
    match kind(rest) {
        1 => len != 8,
        2 => len != 10,
        3 => len < 7 || len > 38,
        kind => kind < FIRST_SKIPPED,
    }
}

/// Its settings in order, or the place of its first fault.
pub fn settings(file: &[u8]) -> Result<Vec<Setting>, usize> {
    let starts = starts(file);
    let bad = starts.iter().copied().find(|at| is_bad(&file[*at..]));
    let whole = starts.iter().copied().take_while(|at| Some(*at) != bad);
    let mut kinds: Vec<(u16, usize)> = whole.map(|at| (kind(&file[at..]), at)).collect();
    if kinds.first().is_none_or(|(kind, _)| *kind != 1) {
        return Err(0);
    }
    let found = kinds.iter().map(|&(kind, at)| Setting {
        kind,
        place: at + HEAD,
        len: length(&file[at..]).expect("it is good") - HEAD,
    });
    let found = found.collect();
    // neighbours of one kind, in their order in the file
    kinds.sort();
    let twice = kinds.windows(2).filter(|two| two[0].0 == two[1].0).map(|two| two[1].1).min();
    bad.into_iter().chain(twice).min().map_or(Ok(found), Err)
}
