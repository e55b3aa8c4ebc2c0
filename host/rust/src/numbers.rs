//! The numbers of refusals by name, and the limits. An [`Error`](crate::Error) has one of these as its number.
//! The number 17 is retired (document 02, 6/12): it is never given, and will not be used again.

/// Bytes of a source.
pub const SOURCE_LIMIT: usize = 1_048_576;
/// Bytes of a table; enough for the table of any source.
pub const TABLE_LIMIT: usize = 16_777_216;
/// Bytes of a settings file.
pub const SETTINGS_LIMIT: usize = 65_536;
/// Lists and bindings open at once.
pub const DEPTH_LIMIT: usize = 64;

pub const TOO_LONG: u8 = 1;
pub const PAST_SOURCE: u8 = 2;
pub const FORM_FEED: u8 = 3;
pub const OPEN_COMMENT: u8 = 4;
pub const NO_DIGITS: u8 = 5;
pub const FOREIGN_DIGIT: u8 = 6;
pub const TOO_LARGE: u8 = 7;
pub const MINUS_LOWEST: u8 = 8;
pub const NO_LIST_OPEN: u8 = 9;
pub const LIST_OPEN: u8 = 10;
pub const NO_SYMBOL: u8 = 11;
pub const NO_TREE: u8 = 12;
pub const TOO_DEEP: u8 = 13;
pub const TABLE_ROOM: u8 = 14;
pub const BAD_RECORD: u8 = 15;
pub const BAD_SYMBOL: u8 = 16;
pub const PRINT_ROOM: u8 = 18;
pub const FED_AFTER_CLOSE: u8 = 19;
pub const UNKNOWN_KIND: u8 = 20;
pub const WRONG_LENGTH: u8 = 21;
pub const MISSING_TREES: u8 = 22;
pub const BAD_SETTINGS: u8 = 23;
pub const NOT_SET: u8 = 24;
pub const WRONG_COST: u8 = 25;
pub const BAD_STYLE_NAME: u8 = 26;

/// What a number says.
pub fn meaning(number: u8) -> &'static str {
    match number {
        TOO_LONG => "longer than the limit",
        PAST_SOURCE => "the start is past the source",
        FORM_FEED => "a form feed stands where a token should start",
        OPEN_COMMENT => "a block comment is still open at the end",
        NO_DIGITS => "a literal has no digits",
        FOREIGN_DIGIT => "a digit is foreign to the literal's radix",
        TOO_LARGE => "a digit takes the literal above 2^128-1",
        MINUS_LOWEST => "a minus stands before 2^127",
        NO_LIST_OPEN => "`)` with no list open",
        LIST_OPEN => "a list is still open at the end",
        NO_SYMBOL => "the token before `@` is no symbol",
        NO_TREE => "no tree follows a binding's `@`",
        TOO_DEEP => "more than 64 lists and bindings are open",
        TABLE_ROOM => "the table needs more room, in bytes",
        BAD_RECORD => "a record is cut short, or its length is below 6 or past the table",
        BAD_SYMBOL => "a symbol that the lexer would not read as one",
        PRINT_ROOM => "the print or the copy needs more room, in bytes",
        FED_AFTER_CLOSE => "fed after a close",
        UNKNOWN_KIND => "a record of unknown kind",
        WRONG_LENGTH => "a record's length is wrong for its kind",
        MISSING_TREES => "trees are missing at the table's end",
        BAD_SETTINGS => "a settings file's record is bad or the second of its kind, or no edition is first",
        NOT_SET => "set in neither settings file",
        WRONG_COST => "a list's stored cost is wrong",
        BAD_STYLE_NAME => "a style name's length is not 1 to 32 bytes",
        _ => "unknown",
    }
}
