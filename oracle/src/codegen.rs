//! The one name that the crate's files.rs takes from its code generator, which is not part of the port.

/// Has the fields that files.rs opens; nothing here makes one.
#[allow(dead_code)]
pub struct Prefix {
    pub prefix: String,
    pub name: String,
}
