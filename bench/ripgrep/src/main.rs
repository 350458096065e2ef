//! Answers for each path of standard input whether ripgrep's matcher ignores it: ripgrep PATTERNS < PATHS
use ignore::gitignore::GitignoreBuilder;
use std::io::{BufRead, Write};

fn main() {
    let mut builder = GitignoreBuilder::new("");
    builder.add(std::env::args().nth(1).expect("a file of patterns"));
    let list = builder.build().expect("patterns");
    let mut out = std::io::BufWriter::new(std::io::stdout().lock());
    for path in std::io::stdin().lock().lines() {
        let path = path.expect("a path");
        let is = if list.matched(&path, false).is_ignore() { "ignored" } else { "none" };
        writeln!(out, "{is}").expect("output");
    }
}
