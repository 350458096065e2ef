//! One program over both: the values of each are the other's.

fn main() {
    let pattern = whole::gix_glob::parse("/a*/\u{e9}.[ch]/").expect("a pattern");
    let copy = whole::pattern(&pattern);
    assert_eq!(copy, pattern);
    let mode = whole::gix_glob::wildmatch::Mode::NO_MATCH_SLASH_LITERAL;
    assert_eq!(whole::modes(pattern.mode, mode), (pattern.mode, mode));
    println!("{}", plain::matches(plain::text_of(&copy), "ab/\u{e9}.c".into(), mode));
}
