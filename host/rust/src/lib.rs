//! Lexes, reads and prints ISLE rule files by code that is proved to meet its contracts on every input.
//!
//! A source at hand is lexed by [`tokens`] or [`next_token`]; one that comes in pieces by a [`Feeder`].
//! [`read`] makes a table of a source's trees, and [`print`] lays a table out at a width; [`Printing`] does so window by window.
//! A print also says how many lists it looked at to choose its lines: [`Text::looked`].
//! [`Settings`] looks up what a project's settings file sets, with the house file behind it; [`write_width`] and [`write_style`]
//! make a copy of such a file.
//! A refusal is an [`Error`]: a number (by name in [`numbers`]), a place, and words with line, column and a caret.
//!
//! ```
//! use tulbazhik::{Kind, tokens};
//!
//! let source = b"(rule (iadd x 0xff) x)";
//! let sum: i128 = tokens(source)
//!     .filter_map(|token| if let Kind::Int(n) = token.ok()?.kind { Some(n) } else { None })
//!     .sum();
//! assert_eq!(sum, 255);
//! ```

mod error;
mod feed;
mod ffi;
mod lex;
pub mod numbers;
mod settings;
mod tables;
mod token;
mod windows;

pub use error::{Error, Within};
pub use feed::{FeedError, Feeder, Parts, TokensFrom};
pub use lex::{Tokens, next_token, tokens};
pub use settings::{
    Setting, Settings, SettingsError, Side, write_style, write_style_into, write_width, write_width_into,
};
pub use tables::{Printed, Text, print, print_into, read, read_into};
pub use token::{Answer, Kind, Token};
pub use windows::Printing;
