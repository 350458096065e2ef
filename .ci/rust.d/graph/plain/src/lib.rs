//! Takes the crate without features, and its types of texts as they are.
use bstr::{BStr, BString};
use gix_glob::{Pattern, pattern, wildmatch};

/// The text of a pattern.
pub fn text_of(pattern: &Pattern) -> BString {
    pattern.text.clone()
}

/// Whether a pattern that consists of a text matches a value.
pub fn matches(text: BString, value: &BStr, mode: wildmatch::Mode) -> bool {
    let first_wildcard_pos = text.iter().position(|byte| b"*?[\\".contains(byte));
    Pattern { text, mode: pattern::Mode::empty(), first_wildcard_pos }.matches(value, mode)
}
