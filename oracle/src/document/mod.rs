//! The documents written out for what the crate cannot answer; none of it looks at the crate.

pub mod calls;
pub mod layout;
pub mod lex;
pub mod looking;
pub mod read;
pub mod settings;
pub mod table;
