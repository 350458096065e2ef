//! Patterns, where no row of `crates/rows/data` asks: every byte of every class, long texts, and lines that are read back.
//! `examples/rows.rs` asks the rows.
use gix_glob::{Pattern, wildmatch};

fn is_match(pattern: &str, value: &[u8]) -> bool {
    wildmatch(pattern.as_bytes().into(), value.into(), wildmatch::Mode::empty())
}

#[test]
fn classes() {
    type Class = (&'static str, fn(u8) -> bool);
    let classes: [Class; 12] = [
        ("alnum", |b| b.is_ascii_alphanumeric()),
        ("alpha", |b| b.is_ascii_alphabetic()),
        ("blank", |b| b == b' ' || b == b'\t'),
        ("cntrl", |b| b < 32 || b == 127),
        ("digit", |b| b.is_ascii_digit()),
        ("graph", |b| (33..127).contains(&b)),
        ("lower", |b| b.is_ascii_lowercase()),
        ("print", |b| (32..127).contains(&b)),
        ("punct", |b| b.is_ascii_punctuation()),
        ("space", |b| b" \t\n\r".contains(&b)),
        ("upper", |b| b.is_ascii_uppercase()),
        ("xdigit", |b| b.is_ascii_hexdigit()),
    ];
    for (name, is_in) in classes {
        for byte in 0..=u8::MAX {
            assert_eq!(is_match(&format!("[[:{name}:]]"), &[byte]), is_in(byte), "{name} {byte}");
        }
    }
}

#[test]
fn no_depth_ends_a_match() {
    let (pattern, value) = ("*a".repeat(500), "a".repeat(5_000));
    assert!(is_match(&pattern, value.as_bytes()));
    assert!(!is_match(&format!("{pattern}b"), value.as_bytes()));
}

#[test]
fn shown_lines_are_read_back() {
    for line in ["!/*.o/", "a/b", "/", "!!a", "/!a", "*"] {
        let pattern = gix_glob::parse(line).unwrap();
        assert_eq!(gix_glob::parse(pattern.to_string()), Some(pattern));
    }
    // (but for a text that begins with a sign)
    assert!(Pattern::from_bytes(br"\!foo").unwrap().to_string().starts_with('!'));
}
