//! Windows for the printer: runs of lengths, and a second table after calls that moved nothing (V) or in the middle of a print (v).

use super::{costs, tables};
use crate::answer::print;
use crate::crate_side::CrateSide;
use crate::frame::{Frame, SOURCE_ROOM};
use crate::rng::Rng;
use crate::windows::Calls;

/// Lengths that are telling by themselves: the port of document 02 passes 512 bytes.
const TELLING: &[usize] = &[0, 1, 2, 3, 511, 512, 513];

/// The calls of a frame at most; the text of a table with many records takes some thousand ports full.
fn most_calls(table: &[u8], small: bool) -> usize {
    match table.len() {
        _ if small => 24,
        0..10_000 => 200,
        _ => 12_000,
    }
}

/// One case of V or v on this table.
pub fn frame(op: u8, table: Vec<u8>, width: usize, small: bool, rng: &mut Rng) -> Frame {
    let most = most_calls(&table, small);
    let (b, calls) = if op == b'V' {
        (0, decided(table, width, most, rng))
    } else {
        (if rng.one_in(2) { width } else { super::width(60, rng) }, left_open(table, width, most, rng))
    };
    let bytes = calls.bytes();
    assert!(bytes.len() <= SOURCE_ROOM);
    Frame { op, a: width as u32, b: b as u32, bytes }
}

/// The bytes of the print; None where it is refused.
fn text_len(table: &[u8], width: usize) -> Option<usize> {
    print(&CrateSide, table, width, usize::MAX).ok().map(|printed| printed.text.len())
}

/// Document 02 decides every answer: one table in all calls, or another one first in calls that move nothing.
fn decided(table: Vec<u8>, width: usize, most: usize, rng: &mut Rng) -> Calls {
    let lengths = lengths(text_len(&table, width).unwrap_or(40), most, rng);
    let other = if rng.one_in(2) { other_costs(&table, rng) } else { other(rng) };
    let (first, x, y, before) = match rng.below(8) {
        0..4 => (lengths.len() + rng.below(2), table, other, Vec::new()),
        4 => (rng.below(lengths.len() + 1), table.clone(), table, Vec::new()),
        5 => (0, other, table, Vec::new()),
        _ => {
            let (x, y) = if rng.one_in(2) { (table, other) } else { (other, table) };
            let before = unmoving(&x, width, rng);
            (before.len(), x, y, before)
        }
    };
    Calls { lengths: [before, lengths].concat(), first, x, y }
}

/// Lengths for some calls on a table that leave the state fresh: any where it is refused, 0 where it has a text, and no call on an empty one.
fn unmoving(table: &[u8], width: usize, rng: &mut Rng) -> Vec<u32> {
    let calls = 1 + rng.below(3);
    match text_len(table, width) {
        None => (0..calls).map(|_| length(40, rng)).collect(),
        Some(0) => Vec::new(),
        Some(_) => vec![0; calls],
    }
}

/// The table, the width or both change in the middle of a print, now and then before it or at its end.
fn left_open(table: Vec<u8>, width: usize, most: usize, rng: &mut Rng) -> Calls {
    let refused = text_len(&table, width).is_none();
    let x = if refused && !rng.one_in(4) { tables::random(true, rng).0 } else { table };
    let len = text_len(&x, width).unwrap_or(40);
    let mut given = 0;
    let mut run = lengths(len, most, rng);
    run.retain(|length| {
        given += *length as usize;
        given < len
    });
    run.truncate(rng.below(run.len() + 1));
    if run.is_empty() {
        run.push(rng.below(len + 1) as u32);
    }
    let first = run.len();
    run.extend(lengths(len, most, rng));
    let y = changed(&x, rng);
    Calls { lengths: run, first, x, y }
}

fn changed(table: &[u8], rng: &mut Rng) -> Vec<u8> {
    let mut changed = table.to_vec();
    let at = rng.below(table.len() + 1);
    match rng.below(13) {
        0 | 1 => return table.to_vec(),
        2 => return other(rng),
        3 => changed.truncate(at),
        4 => drop(changed.drain(..at)),
        5 => changed.extend(other(rng)),
        6 => changed.splice(at.., other(rng)).for_each(drop),
        7 => changed
            .iter_mut()
            .skip(at)
            .for_each(|byte| *byte = rng.pick(&[0, 1, 2, 3, 4, 5, 7, 10, 14, 22, 97, 255])),
        8..11 => return other_costs(table, rng),
        _ if table.is_empty() => return vec![rng.below(256) as u8; rng.below(30)],
        _ => (0..1 + rng.below(4)).for_each(|_| tables::damage(&mut changed, rng)),
    }
    changed
}

/// The same table, but for the costs that some of its lists store.
fn other_costs(table: &[u8], rng: &mut Rng) -> Vec<u8> {
    let mut changed = table.to_vec();
    costs::change(&mut changed, rng);
    changed
}

fn other(rng: &mut Rng) -> Vec<u8> {
    if rng.one_in(2) { tables::broken(rng) } else { tables::random(true, rng).0 }
}

/// A single window's length beside a text of so many bytes.
fn length(text: usize, rng: &mut Rng) -> u32 {
    let length = match rng.below(8) {
        0..3 => rng.pick(TELLING),
        3 => text + rng.below(3),
        // as long as a window can be, now and then: it is a lot to fill
        4 if rng.one_in(200) => rng.pick(&[2_097_151, 2_097_152, 2_097_153, u32::MAX as usize]),
        4 => text + 4096,
        _ => rng.below(text + 2),
    };
    length as u32
}

/// Lengths for a text of so many bytes: mostly they reach its end, and some calls follow it.
fn lengths(text: usize, most: usize, rng: &mut Rng) -> Vec<u32> {
    let style = rng.below(8);
    let same = match style {
        0..3 => 1 + rng.below(3),
        3 => rng.pick(&[511, 512, 513]),
        4 => 1 + rng.below(text + 1),
        _ => 0,
    };
    // where a run of short windows would be too long
    let least = text.div_ceil(most);
    let (mut run, mut given) = (Vec::new(), 0);
    while given < text && run.len() < most {
        let next = match same {
            0 if style == 5 => rng.below(10),
            0 => length(text, rng) as usize,
            same => same,
        };
        let next = if rng.one_in(12) { 0 } else { next.max(if style < 6 { least } else { 0 }) };
        given += next;
        run.push(next as u32);
    }
    if rng.one_in(8) {
        run.truncate(1 + rng.below(run.len() + 1));
    }
    let after = rng.below(4);
    run.extend((0..after).map(|_| length(text, rng)));
    if run.is_empty() { vec![length(text, rng)] } else { run }
}

#[cfg(test)]
mod tests {
    use crate::answer::{Side, answer};
    use crate::cases::Cases;
    use crate::crate_side::CrateSide;
    use crate::windows::Calls;

    /// That no case is open and each fits its frame is asserted on the way.
    #[test]
    fn cases_of_v_are_decided() {
        for sample in [false, true] {
            let cases = Cases::new(1, &[], sample).unwrap();
            let mut ends = 0;
            for number in 0..3000 {
                let mut lines = Vec::new();
                answer(&CrateSide, &cases.frame(b'V', number), &mut lines);
                ends += String::from_utf8(lines).unwrap().contains("\nend\n") as usize;
            }
            assert!(ends > 1000, "{ends}");
        }
    }

    /// A good table from which on the stored costs are others, and nothing else is.
    #[test]
    fn cases_of_v_change_costs() {
        for (sample, each, least) in [(false, 3000, 200), (true, 400, 20)] {
            let cases = Cases::new(1, &[], sample).unwrap();
            let changes = (0..each).filter(|number| {
                let Calls { x, y, .. } = Calls::of(&cases.frame(b'v', *number).bytes);
                let wrong = CrateSide.check(&y).is_err_and(|refusal| refusal.number == 25);
                wrong && x.len() == y.len() && CrateSide.check(&x).is_ok()
            });
            let count = changes.count();
            assert!(count >= least, "{count} of {each}");
        }
    }
}
