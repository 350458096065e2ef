//! The program of the project's README.

fn main() {
    let pattern = gix_glob::parse("*.log").unwrap();
    let mode = gix_glob::wildmatch::Mode::NO_MATCH_SLASH_LITERAL;
    println!("{}", pattern.matches("debug.log".into(), mode));
}
