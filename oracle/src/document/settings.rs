//! Document 02, "Settings per project": a file's settings or its first fault, a look-up in two files, and a copy with one record written.

use std::collections::BTreeSet;

use crate::answer::Side;
use crate::token::{Refusal, refusal};
use crate::tree::put_record;

/// The longest settings file.
pub const LIMIT: usize = 65_536;

pub const EDITION: u16 = 1;
pub const WIDTH: u16 = 2;
pub const STYLE: u16 = 3;
pub const FIRST_SKIPPED: u16 = 32_768;

/// The bytes of a record before its value.
pub const HEAD: usize = 6;

/// A record of a good file: its kind, and the place and length of its value.
#[derive(Clone, Copy, Debug, PartialEq, Eq)]
pub struct Setting {
    pub kind: u16,
    pub place: usize,
    pub len: usize,
}

/// Which of the two files an answer is about.
#[derive(Clone, Copy, Debug, PartialEq, Eq)]
pub enum Whose {
    Project,
    House,
    Neither,
}

/// A value in one of the files.
#[derive(Clone, Debug, PartialEq, Eq)]
pub struct Value {
    pub whose: Whose,
    pub place: usize,
    pub bytes: Vec<u8>,
}

/// Its settings in order, or the place of the first bad record or second of its kind. The edition stands first and nowhere else;
/// so a file of no bytes lacks it.
pub fn settings(file: &[u8]) -> Result<Vec<Setting>, usize> {
    let (mut found, mut kinds, mut at) = (Vec::new(), BTreeSet::new(), 0);
    loop {
        let (kind, len) = record(&file[at..]).ok_or(at)?;
        if (kind == EDITION) != found.is_empty() || !kinds.insert(kind) {
            return Err(at);
        }
        found.push(Setting { kind, place: at + HEAD, len });
        at += HEAD + len;
        if at == file.len() {
            return Ok(found);
        }
    }
}

/// The kind and the value's length of the record at the front, if it is good by itself.
fn record(rest: &[u8]) -> Option<(u16, usize)> {
    let head = rest.first_chunk::<HEAD>()?;
    let whole = u32::from_le_bytes([head[0], head[1], head[2], head[3]]) as usize;
    let kind = u16::from_le_bytes([head[4], head[5]]);
    let len = rest.get(HEAD..whole)?.len();
    let good = match kind {
        EDITION => len == 2,
        WIDTH => len == 4,
        STYLE => is_style(len),
        _ => kind >= FIRST_SKIPPED,
    };
    good.then_some((kind, len))
}

fn is_style(len: usize) -> bool {
    (1..=32).contains(&len)
}

/// 1 comes before 23.
fn checked(side: &dyn Side, file: &[u8]) -> Result<Vec<Setting>, Refusal> {
    if file.len() > LIMIT {
        return Err(refusal(1, LIMIT));
    }
    side.settings(file).map_err(|place| refusal(23, place))
}

/// The value of a kind, the project's before the house's; both files are checked whole, all of the project's before the house's.
pub fn look_up(side: &dyn Side, kind: u16, project: &[u8], house: &[u8]) -> Result<Value, (Refusal, Whose)> {
    let mut found = None;
    for (whose, file) in [(Whose::Project, project), (Whose::House, house)] {
        let settings = checked(side, file).map_err(|refusal| (refusal, whose))?;
        let here = settings.into_iter().find(|setting| setting.kind == kind);
        found = found.or(here.map(|Setting { place, len, .. }| Value {
            whose,
            place,
            bytes: file[place..place + len].to_vec(),
        }));
    }
    found.ok_or((refusal(24, 0), Whose::Neither))
}

/// The file's records in order with the one of this kind written anew, or added at the end: 26 before 1 for the copy, and 18 last.
pub fn copy(side: &dyn Side, file: &[u8], kind: u16, value: &[u8], room: usize) -> Result<Vec<u8>, Refusal> {
    let settings = checked(side, file)?;
    if kind == STYLE && !is_style(value.len()) {
        return Err(refusal(26, value.len()));
    }
    let (mut copy, mut is_set) = (Vec::new(), false);
    for setting in settings {
        if setting.kind == kind {
            put_record(&mut copy, kind, value);
            is_set = true;
        } else {
            copy.extend(&file[setting.place - HEAD..setting.place + setting.len]);
        }
    }
    if !is_set {
        put_record(&mut copy, kind, value);
    }
    match copy.len() {
        len if len > LIMIT => Err(refusal(1, LIMIT)),
        len if len > room => Err(refusal(18, len)),
        _ => Ok(copy),
    }
}
