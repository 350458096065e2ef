//! Takes the crate with its feature `serde`, and gives back what was written and read again.
pub use gix_glob;
use gix_glob::{Pattern, pattern, wildmatch};
use serde::{Serialize, de::DeserializeOwned};

fn copy<T: Serialize + DeserializeOwned>(value: &T) -> T {
    let written = serde_json::to_string(value).expect("a text");
    serde_json::from_str(&written).expect("a value")
}

pub fn pattern(pattern: &Pattern) -> Pattern {
    copy(pattern)
}

pub fn modes(pattern: pattern::Mode, mode: wildmatch::Mode) -> (pattern::Mode, wildmatch::Mode) {
    (copy(&pattern), copy(&mode))
}
