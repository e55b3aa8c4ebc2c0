//! Literals at every limit in every radix, dressed up and spoilt in the ways that document 01 tells apart.

use crate::rng::Rng;

const RADIXES: [u64; 4] = [10, 16, 8, 2];

/// Limits as three limbs, low first, each less one, as it is, and one more; 0 and 1 come with them.
fn limit(which: u64) -> [u64; 3] {
    let [low, middle, high]: [u64; 3] = match which / 3 {
        0 => [1, 0, 0],
        1 => [1 << 63, 0, 0],
        2 => [0, 1, 0],
        3 => [0, 1 << 63, 0],
        _ => [0, 0, 1],
    };
    match which % 3 {
        0 => {
            let (low, borrow) = low.overflowing_sub(1);
            let (middle, borrow) = middle.overflowing_sub(borrow as u64);
            [low, middle, high.wrapping_sub(borrow as u64)]
        }
        1 => [low, middle, high],
        _ => [low + 1, middle, high],
    }
}
const LIMITS: u64 = 15;

fn digits(value: [u64; 3], radix: u64) -> Vec<u8> {
    let (mut limbs, mut out) = (value, Vec::new());
    while limbs != [0; 3] || out.is_empty() {
        let mut rest = 0u128;
        for limb in limbs.iter_mut().rev() {
            let part = rest << 64 | *limb as u128;
            *limb = (part / radix as u128) as u64;
            rest = part % radix as u128;
        }
        out.push(b"0123456789abcdef"[rest as usize]);
    }
    out.reverse();
    out
}

/// Goes through radix, limit and sign in turn; the dress is drawn anew at each turn.
pub fn source(turn: u64, rng: &mut Rng) -> Vec<u8> {
    let radix = RADIXES[(turn % 4) as usize];
    let minus = turn / 4 % 2 == 1;
    let mut run = digits(limit(turn / 8 % LIMITS), radix);
    match turn / 8 / LIMITS % 4 {
        0 => {}
        1 => spoil(&mut run, radix, rng),
        2 => {
            // above by a digit more; it may then be foreign before or after it is above
            run.push(b"0123456789abcdef"[rng.below(radix as usize)]);
            if rng.one_in(2) {
                spoil(&mut run, radix, rng);
            }
        }
        _ => run.truncate(rng.below(run.len() + 1)),
    }
    let zeros = if rng.one_in(3) { rng.below(140) } else { 0 };
    run.splice(0..0, std::iter::repeat_n(b'0', zeros));
    for _ in 0..if rng.one_in(2) { rng.below(6) } else { 0 } {
        run.insert(rng.below(run.len() + 1), b'_');
    }
    run.iter_mut().for_each(|byte| {
        if rng.one_in(3) {
            byte.make_ascii_uppercase()
        }
    });
    dressed(run, radix, minus, rng)
}

/// A digit that is foreign to the radix, put in or in another's place, at either end or anywhere.
fn spoil(run: &mut Vec<u8>, radix: u64, rng: &mut Rng) {
    let all = b"0123456789abcdef";
    if radix == 16 {
        // nothing in a run is foreign to 16; a stop inside it is the nearest thing
        return run.insert(rng.below(run.len() + 1), b'g');
    }
    let foreign = all[radix as usize + rng.below(16 - radix as usize)];
    let at = rng.pick(&[0, run.len() - 1, run.len() / 2]);
    if rng.one_in(2) { run[at] = foreign } else { run.insert(at + rng.below(2), foreign) }
}

fn dressed(run: Vec<u8>, radix: u64, minus: bool, rng: &mut Rng) -> Vec<u8> {
    let mut source = rng.pick(&["", "", "", "(", " ", "a ", "-", "@", "\u{b}", "1 "]).as_bytes().to_vec();
    if minus {
        source.push(b'-');
    }
    let prefix: &[&str] = match radix {
        16 => &["0x", "0X"],
        8 => &["0o", "0O"],
        2 => &["0b", "0B"],
        _ => &[""],
    };
    source.extend(rng.pick(prefix).bytes());
    source.extend(run);
    let after =
        ["", "", "", ")", " b", "x", "g1", "-", "@", ";c", "\x0c", "\x0b", "é", "\n", "(;", "0x1", ".5"];
    source.extend(rng.pick(&after).bytes());
    source
}
