//! Matching a text against the whole of a value.
//!
//! # Rules
//!
//! Pattern and value are bytes of any kind. A pattern is read from front to back:
//!
//! - `\` and a byte stand for that byte. A `\` at the end makes the pattern match nothing.
//! - `?` is any byte, and `*` any bytes or none. Any other byte but `[` stands for itself.
//! - `[..]` is one byte of a set, and `[!..]` or `[^..]` one that isn't of it. A set that doesn't close makes the pattern match nothing.
//!   Its members are bytes, a `]` in front and what follows a `\` too; ranges, as `a-z`, whose ends may be escaped; and the classes
//!   `[:alnum:]`, `[:alpha:]`, `[:blank:]`, `[:cntrl:]`, `[:digit:]`, `[:graph:]`, `[:lower:]`, `[:print:]`, `[:punct:]`, `[:space:]`,
//!   `[:upper:]` and `[:xdigit:]`, by ASCII. Another name between `[:` and `:]` makes the pattern match nothing.
//!
//! With [`NO_MATCH_SLASH_LITERAL`](Mode::NO_MATCH_SLASH_LITERAL) `?`, `*` and sets match no slash, and neither do several `*` in a row,
//! but where these stand at the pattern's front or behind a slash:
//!
//! - before a slash they are, together with it, nothing, or any bytes that end in a slash: `a/**/b` matches `a/b` and `a/x/y/b`;
//! - at the end, or before an escaped slash, they are any bytes: `a/**` matches `a/b/c`.
//!
//! With [`IGNORE_CASE`](Mode::IGNORE_CASE) the letters `A` to `Z` count as `a` to `z`, in the pattern and in the value. A range holds a
//! letter, too, whose capital lies between the capitals of its ends, in either order: `[_-a]` matches `q`.
use bitflags::bitflags;

bitflags! {
    /// How a text is matched. Other bits than these change no answer.
    #[cfg_attr(feature = "serde", derive(serde::Serialize, serde::Deserialize))]
    #[derive(Debug, Default, Copy, Clone, Eq, PartialEq)]
    pub struct Mode: u8 {
        /// Values are paths: a wildcard matches no slash, save two or more `*` that stand alone between slashes or ends.
        const NO_MATCH_SLASH_LITERAL = 1 << 0;
        /// The case of ASCII letters doesn't count.
        const IGNORE_CASE = 1 << 1;
    }
}

pub(crate) mod function {
    use bstr::BStr;

    use super::Mode;
    use crate::library;

    /// Whether a pattern's text matches the whole of a value.
    ///
    /// `?` is any byte, `*` any bytes, `[..]` one byte of a set, and a backslash takes the meaning off the byte behind it. The module
    /// [`wildmatch`](mod@crate::wildmatch) has all rules.
    ///
    /// ```
    /// use gix_glob::{wildmatch, wildmatch::Mode};
    ///
    /// assert!(wildmatch("*.[ch]".into(), "src/main.c".into(), Mode::empty()));
    /// assert!(!wildmatch("*.[ch]".into(), "src/main.c".into(), Mode::NO_MATCH_SLASH_LITERAL));
    /// assert!(wildmatch("**/*.[CH]".into(), "src/main.c".into(), Mode::NO_MATCH_SLASH_LITERAL | Mode::IGNORE_CASE));
    /// ```
    #[inline]
    pub fn wildmatch(pattern: &BStr, value: &BStr, mode: Mode) -> bool {
        library::wildmatch(pattern, value, mode.bits())
    }
}
