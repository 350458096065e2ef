//! Glob [`Pattern`]s of Git's ignore and attribute files, for paths and for anything else.
//!
//! This crate has the name and the calls of `gix-glob` 0.28.0, so that a program takes it by one line of its `Cargo.toml`. Its
//! answers come from a library that is proved: no pattern makes it crash or recurse, and a match takes work within the product
//! of both lengths. [`decide`] is its own: which pattern of several files decides about a path.
//!
//! A path is decided by the patterns of a file:
//!
//! ```
//! use gix_glob::{Pattern, pattern::Case, wildmatch};
//!
//! let pattern = Pattern::from_bytes(b"!src/**/*.rs").unwrap();
//! assert!(pattern.is_negative());
//! assert!(pattern.matches_repo_relative_path(
//!     "src/deep/lib.rs".into(),
//!     Some(9),
//!     Some(false),
//!     Case::Sensitive,
//!     wildmatch::Mode::NO_MATCH_SLASH_LITERAL,
//! ));
//! assert_eq!(pattern.to_string(), "!src/**/*.rs");
//! ```
//!
//! Any text is matched as a whole:
//!
//! ```
//! use gix_glob::wildmatch::{self, Mode};
//!
//! assert!(gix_glob::wildmatch("[a-c]*".into(), "b/x".into(), Mode::empty()));
//! assert!(!gix_glob::wildmatch("[a-c]*".into(), "b/x".into(), wildmatch::Mode::NO_MATCH_SLASH_LITERAL));
//! ```
//!
//! # What differs from the other crate
//!
//! The answers differ in four points:
//!
//! ```
//! use gix_glob::wildmatch::Mode;
//! use gix_glob::{decide::IgnoreLines, search::pattern::List};
//!
//! let matches = |pattern: &str, value: &str| gix_glob::wildmatch(pattern.into(), value.into(), Mode::empty());
//!
//! // the other crate gives up at a depth of 64 stars
//! assert!(matches(&"*a".repeat(100), &"a".repeat(1000)));
//! // behind a `[:` without `:]` it reads on at a wrong place
//! assert!(matches("[[[:]", ":"));
//! // an escaped member that equals the value's byte begins no range there
//! assert!(matches(r"[\a-[:]", "a"));
//! // the base of a list goes by the parts of its path: there each slash is kept, so this one is `a//b/`
//! let list = List::from_bytes(b"", "/repo/a//b/.gitignore".into(), Some("/repo".as_ref()), IgnoreLines);
//! assert_eq!(list.base, Some("a/b/".into()));
//! ```
//!
//! Besides, fields of a [`Pattern`] that don't belong together can panic with debug assertions alone.
//!
//! # Features
//!
//! None is on unless it is asked for, and none changes a type or an answer.
//!
//! - `serde`: `Serialize` and `Deserialize` for [`Pattern`] and both modes, in the other crate's form.
//! - `vendored`: the C library that lies in a released package is linked, in place of an installed one.

pub mod decide;
mod library;
mod parse;
pub mod pattern;
pub mod search;
pub mod wildmatch;

use bstr::BString;

pub use wildmatch::function::wildmatch;

/// A pattern line that was read.
///
/// The fields of a pattern that was read belong together. Others may give a wrong answer, and nothing worse.
#[derive(PartialEq, Eq, Debug, Hash, Ord, PartialOrd, Clone)]
#[cfg_attr(feature = "serde", derive(serde::Serialize, serde::Deserialize))]
pub struct Pattern {
    /// What is matched: the line without its `!` and without the slash at each end.
    pub text: BString,
    /// What else was read of the line.
    pub mode: pattern::Mode,
    /// The place of the first `*`, `?`, `[` or `\` in the [`text`](Pattern::text), escaped or not.
    pub first_wildcard_pos: Option<usize>,
}

/// Reads a pattern line, as [`Pattern::from_bytes`] does.
///
/// ```
/// assert_eq!(gix_glob::parse("/*.o/").unwrap().text, "*.o");
/// assert_eq!(gix_glob::parse(" \t"), None);
/// ```
pub fn parse(text: impl AsRef<[u8]>) -> Option<Pattern> {
    Pattern::from_bytes(text.as_ref())
}
