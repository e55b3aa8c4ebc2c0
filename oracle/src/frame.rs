//! Frames of the probe's language: an op byte, three numbers, and bytes.

#[derive(Clone, Debug, PartialEq, Eq)]
pub struct Frame {
    pub op: u8,
    pub a: u32,
    pub b: u32,
    pub bytes: Vec<u8>,
}

pub const OPS: &[u8] = b"LFfCcRPWKVvQSTt";

/// The probe's rooms for a source, a table and an output.
pub const SOURCE_ROOM: usize = 1_114_112;
pub const TABLE_ROOM: usize = 3_145_728;
pub const OUTPUT_ROOM: usize = 2_097_152;

impl Frame {
    pub fn put(&self, out: &mut Vec<u8>) {
        out.push(self.op);
        out.extend(self.a.to_le_bytes());
        out.extend(self.b.to_le_bytes());
        out.extend((self.bytes.len() as u32).to_le_bytes());
        out.extend(&self.bytes);
    }
}

/// The table of op Q: one byte before it is the layout, and there is one; of no bytes the table is empty.
pub fn after_layout(bytes: &[u8]) -> &[u8] {
    bytes.get(1..).unwrap_or_default()
}

/// The frame at the front of `bytes` and what follows it; None where no whole frame is left.
pub fn take(bytes: &[u8]) -> Option<(Frame, &[u8])> {
    let number = |at: usize| Some(u32::from_le_bytes(bytes.get(at..at + 4)?.try_into().ok()?));
    let (op, a, b, n) = (*bytes.first()?, number(1)?, number(5)?, number(9)?);
    let end = 13 + n as usize;
    let frame = Frame { op, a, b, bytes: bytes.get(13..end)?.to_vec() };
    Some((frame, &bytes[end..]))
}
