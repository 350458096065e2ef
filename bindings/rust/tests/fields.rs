//! Public fields that don't belong together: some answer without debug assertions, and a panic at most with them.
use std::panic;

use gix_glob::pattern::{Case, Mode};
use gix_glob::{Pattern, wildmatch};

const TEXTS: [&str; 8] = ["", "a", "*", "*a", "a*", "[a", "\\", "a/b*c"];
const PLACES: [Option<usize>; 7] = [None, Some(0), Some(1), Some(2), Some(3), Some(usize::MAX - 1), Some(usize::MAX)];
const MODES: [u32; 6] = [0, 1, 2, 4, 31, u32::MAX];

/// Asks a pattern of these parts about some values, in every mode.
fn ask(text: &str, mode: Mode, first_wildcard_pos: Option<usize>) {
    let pattern = Pattern { text: text.into(), mode, first_wildcard_pos };
    assert!(pattern.to_string().contains(text));
    for bits in [0, 1, 2, 3, u8::MAX] {
        let mode = wildmatch::Mode::from_bits_retain(bits);
        for value in ["", "a", "ba", "a/bc"] {
            pattern.matches_repo_relative_path(value.as_bytes().into(), None, Some(true), Case::Fold, mode);
            pattern.matches(value.as_bytes().into(), mode);
        }
    }
}

/// Whether the parts may be those of a line, or have no place.
fn belong(text: &str, mode: Mode, place: Option<usize>) -> bool {
    let specials = ['*', '?', '[', '\\'];
    let is_suffix = text.strip_prefix('*').is_some_and(|literal| !literal.contains(specials));
    place.is_none() || place == text.find(specials) && (is_suffix || !mode.contains(Mode::ENDS_WITH))
}

#[test]
fn any_parts_have_an_answer_or_an_assertion() {
    // (hundreds of assertions are meant to fail)
    panic::set_hook(Box::new(|_| ()));
    let mut wrong = Vec::new();
    for text in TEXTS {
        for place in PLACES {
            for mode in MODES.map(Mode::from_bits_retain) {
                let has_failed = panic::catch_unwind(|| ask(text, mode, place)).is_err();
                if has_failed != (cfg!(debug_assertions) && !belong(text, mode, place)) {
                    wrong.push((text, mode, place));
                }
            }
        }
    }
    drop(panic::take_hook());
    assert_eq!(wrong, []);
}

#[test]
fn other_facts_of_a_line_are_taken_as_they_stand() {
    let literal = Pattern { text: "*".into(), mode: Mode::empty(), first_wildcard_pos: None };
    assert!(literal.matches(b"*".as_slice().into(), wildmatch::Mode::empty()));
    assert!(!literal.matches(b"a".as_slice().into(), wildmatch::Mode::empty()));
}

#[test]
fn a_wrong_position_has_an_answer_or_an_assertion() {
    let pattern = gix_glob::parse("b").unwrap();
    for (path, start) in [("a/b", Some(0)), ("a/b", Some(1)), ("a/b", Some(3)), ("a/b", Some(usize::MAX)), ("/b", None)]
    {
        let mode = wildmatch::Mode::NO_MATCH_SLASH_LITERAL;
        let path = path.as_bytes();
        let result = panic::catch_unwind(|| {
            pattern.matches_repo_relative_path(path.into(), start, Some(false), Case::Sensitive, mode)
        });
        assert_eq!(result.is_err(), cfg!(debug_assertions));
        assert!(!result.unwrap_or(false));
    }
}
