//! ISLE-like text of any length: rules, declarations and comments, by a fixed seed; and settings files.

use crate::rng::Rng;

const WORDS: &[&str] = &[
    "lower",
    "has_type",
    "fits_in_64",
    "iadd",
    "imm12_from_value",
    "x64_movzx",
    "value_array_2",
    "ty",
    "x",
    "y",
    "_",
    "$I64",
    "OperandSize.Size32",
    "aarch64_uload8",
    "put_in_reg",
    "temp_writable_reg",
    "u64_from_imm64",
    "cc",
];
const COMMENTS: &[&str] = &[
    ";; Lower the whole pattern where an operand is an immediate that fits.\n",
    ";; The high half is zero, so a narrower instruction will do.\n",
    ";;;; Rules for the widening forms ;;;;;;;;;;;;;;;;;;;;;;;;;;;;;;;;;;;;;;;;;\n",
];
const NUMBERS: &[&str] = &["0", "1", "-1", "12", "0xff", "0b1_0000", "0xFFFF_FFFF_FFFF_FFFF"];

/// At most `bytes` bytes, as whole trees.
pub fn text(bytes: usize) -> String {
    let mut rng = Rng::of(&[1]);
    let mut text = String::new();
    loop {
        let before = text.len();
        if rng.one_in(3) {
            text.push_str(rng.pick(COMMENTS));
        }
        match rng.below(5) {
            0 => declaration(&mut text, &mut rng),
            _ => rule(&mut text, &mut rng),
        }
        if text.len() > bytes {
            text.truncate(before);
            return text;
        }
    }
}

/// So many lists, one in the other, and in the innermost as many symbols as `bytes` bytes hold.
pub fn nested(lists: usize, bytes: usize) -> String {
    let mut text = "(".repeat(lists);
    for number in 0.. {
        let item = if number == 0 { "symbol0".to_string() } else { format!(" symbol{number}") };
        if text.len() + item.len() + lists > bytes {
            break;
        }
        text.push_str(&item);
    }
    text + &")".repeat(lists)
}

/// The width at which no list of [`deep`] fits; the innermost wants one more.
pub const DEEP_WIDTH: u32 = 2126;

/// Up to 64 lists, one in the other, and in the innermost 1,000 symbols, all of one byte but the last. List j of n stands at column
/// j - 1, and its cost reaches to 2127 + n - j: a test that went through records would go through all of them for each list.
pub fn deep(lists: usize) -> String {
    ["(".repeat(lists), "a ".repeat(999), "w".repeat(128 - lists), ")".repeat(lists)].concat()
}

/// A settings file of so many bytes with as many records as it can have: an edition, then kinds that are skipped, each with no
/// payload but the last, which fills the file up.
pub fn settings(bytes: usize) -> Vec<u8> {
    let mut file = vec![8, 0, 0, 0, 1, 0, 1, 0];
    for kind in 32768u16.. {
        let left = bytes - file.len();
        if left == 0 {
            break;
        }
        let length = if left < 12 { left } else { 6 };
        file.extend((length as u32).to_le_bytes());
        file.extend(kind.to_le_bytes());
        file.resize(file.len() + length - 6, 0);
    }
    file
}

fn declaration(text: &mut String, rng: &mut Rng) {
    text.push_str(rng.pick(&["(decl ", "(decl pure partial ", "(extern constructor "]));
    text.push_str(rng.pick(WORDS));
    text.push_str(" (");
    for i in 0..1 + rng.below(4) {
        if i > 0 {
            text.push(' ');
        }
        text.push_str(rng.pick(&["Type", "Value", "Reg", "u64", "MInst"]));
    }
    text.push_str(") Reg)\n\n");
}

fn rule(text: &mut String, rng: &mut Rng) {
    text.push_str("(rule ");
    if rng.one_in(3) {
        text.push_str(rng.pick(NUMBERS));
        text.push(' ');
    }
    tree(text, 5, rng);
    text.push_str("\n      ");
    tree(text, 4, rng);
    text.push_str(")\n\n");
}

fn tree(text: &mut String, depth: usize, rng: &mut Rng) {
    if depth == 0 || rng.one_in(3) {
        match rng.below(8) {
            0 => text.push_str(rng.pick(NUMBERS)),
            1 if depth > 0 => {
                text.push_str("x @ ");
                tree(text, depth - 1, rng);
            }
            _ => text.push_str(rng.pick(WORDS)),
        }
        return;
    }
    text.push('(');
    text.push_str(rng.pick(WORDS));
    for _ in 0..1 + rng.below(3) {
        text.push_str(rng.pick(&[" ", " ", " ", "\n          "]));
        tree(text, depth - 1, rng);
    }
    text.push(')');
}
