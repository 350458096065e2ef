//! Who owns a path: a program written for the crate `gix-glob`, which builds and prints the same with either crate.
//!
//! A folder may have a file OWNERS with lines of a pattern and names. The last line that matches decides, in the deepest file
//! that has one; behind a `!` stands what nobody owns. The program writes such files, and answers for some paths. It prints
//! `owners.txt`.
use std::collections::{BTreeMap, HashSet};
use std::path::{Path, PathBuf};
use std::{env, fs, io, process};

use bstr::{BStr, ByteSlice};
use gix_glob::pattern::{self, Case};
use gix_glob::search::pattern::{List, Mapping};
use gix_glob::search::{self, add_patterns_file};
use gix_glob::{Pattern, wildmatch};

const FILES: [(&str, &str); 3] = [
    (
        "OWNERS",
        "# the project\n* ann\n*.md bob\n/src/**/*.rs cleo dan\nbuild/ eve\n!build/keep\n[Mm]akefile finn\n\\#notes gus\n\n",
    ),
    ("src/OWNERS", "*.rs hal\n/lib.rs ida\ndeep/** joe\n!*.orig\nte?t[0-9].[!ch]* kim\n**/gen/*.rs leo\n"),
    ("docs/OWNERS", "*.PNG mia\nimages/ ned\nchapter-[[:digit:]]*.md ola\n"),
];

const PATHS: [&str; 24] = [
    "Makefile",
    "makefile",
    "#notes",
    "README.md",
    "build/",
    "build/keep",
    "src/",
    "src/lib.rs",
    "src/deep/",
    "src/deep/lib.rs",
    "src/deep/x/y.c",
    "src/test1.py",
    "src/test1.c",
    "src/test10.py",
    "src/main.rs.orig",
    "src/gen/a.rs",
    "src/x/gen/a.rs",
    "src/x/gen/y/a.rs",
    "SRC/lib.rs",
    "docs/images/",
    "docs/images",
    "docs/logo.png",
    "docs/chapter-10.md",
    "docs/chapter-x.md",
];

/// The parser of OWNERS files.
#[derive(Clone, Copy, PartialEq, Eq, Debug, Hash, PartialOrd, Ord, Default)]
struct Owners;

impl search::Pattern for Owners {
    type Value = Vec<String>;

    fn bytes_to_patterns(&self, bytes: &[u8], _source: &Path) -> Vec<Mapping<Self::Value>> {
        let mut mappings = Vec::new();
        for (line, sequence_number) in bytes.lines().zip(1..) {
            if line.starts_with(b"#") {
                continue;
            }
            let mut words = line.fields_with(char::is_whitespace);
            if let Some(pattern) = words.next().and_then(Pattern::from_bytes) {
                let value = words.map(|word| word.to_str_lossy().into_owned()).collect();
                mappings.push(Mapping { pattern, value, sequence_number });
            }
        }
        mappings
    }
}

/// A path that is asked about.
struct Question<'a> {
    path: &'a BStr,
    basename_start: Option<usize>,
    is_dir: bool,
    case: Case,
}

impl<'a> Question<'a> {
    /// A path that ends in a slash is a folder's.
    fn new(path: &'a str, case: Case) -> Self {
        let (path, is_dir) = path.strip_suffix('/').map_or((path, false), |path| (path, true));
        let basename_start = path.rfind('/').map(|slash| slash + 1);
        Question { path: path.into(), basename_start, is_dir, case }
    }

    /// The last mapping of a list that matches.
    fn answer<'b>(&self, list: &'b List<Owners>) -> Option<&'b Mapping<Vec<String>>> {
        let (path, start) = list.strip_base_handle_recompute_basename_pos(self.path, self.basename_start, self.case)?;
        list.patterns.iter().rev().find(|mapping| {
            mapping.pattern.matches_repo_relative_path(
                path,
                start,
                Some(self.is_dir),
                self.case,
                wildmatch::Mode::NO_MATCH_SLASH_LITERAL,
            )
        })
    }
}

/// The owners of a path, and the line that says so.
fn owners(lists: &[List<Owners>], question: &Question<'_>, root: &Path) -> String {
    let found = lists.iter().rev().find_map(|list| Some((list, question.answer(list)?)));
    let Some((list, mapping)) = found else {
        return "nobody".into();
    };
    let names = if mapping.pattern.is_negative() { "nobody".into() } else { mapping.value.join(" and ") };
    let source = list.source.as_deref().and_then(|source| source.strip_prefix(root).ok());
    let source = source.map_or_else(String::new, |source| source.display().to_string());
    format!("{names} ({source}:{}, {})", mapping.sequence_number, mapping.pattern)
}

/// What was read of each pattern.
fn print_patterns(lists: &[List<Owners>]) {
    let names = [
        (pattern::Mode::NO_SUB_DIR, "basename"),
        (pattern::Mode::ENDS_WITH, "suffix"),
        (pattern::Mode::MUST_BE_DIR, "folder"),
        (pattern::Mode::NEGATIVE, "negative"),
        (pattern::Mode::ABSOLUTE, "absolute"),
    ];
    let mut patterns: Vec<Pattern> =
        lists.iter().flat_map(|list| &list.patterns).map(|it| it.pattern.clone()).collect();
    patterns.sort();
    println!(
        "\n{} patterns, {} texts",
        patterns.len(),
        patterns.iter().map(|it| &it.text).collect::<HashSet<_>>().len()
    );
    for it in &patterns {
        let facts: Vec<_> = names.iter().filter(|(mode, _)| it.mode.contains(*mode)).map(|(_, name)| *name).collect();
        let place = it.first_wildcard_pos.map_or_else(|| "-".into(), |place| place.to_string());
        let kind = if it.has_wildcard() { "wild" } else { "plain" };
        println!("{:24} {:2} {place:>2} {kind:5} {}", it.text.to_string(), it.mode.bits(), facts.join(" "));
    }
}

/// Which texts match which values, in each mode.
fn print_grid() {
    let patterns = ["a*c", "a?c", "a/**/c", "[a-c]/C", "**/c", r"a\/c", "[!b]*", "[[:upper:]]*", "a[", ""];
    let values = ["ac", "abc", "a/c", "a/b/c", "A/C", "c", ""];
    for bits in 0..4 {
        let mode = wildmatch::Mode::from_bits_retain(bits);
        println!("\nmode {bits}: {}", values.map(|value| format!("{value:?}")).join(" "));
        for text in patterns {
            let row = values.map(|value| if gix_glob::wildmatch(text.into(), value.into(), mode) { "x" } else { "." });
            println!("{text:14} {}", row.join(" "));
        }
    }
}

/// The same line read in both ways, and what a line is without a pattern.
fn print_readings() {
    println!();
    for line in ["!a/", r"\!a", r"\#a", "/", "/a/b", " a", "a ", "!", "  "] {
        let show = |it: Option<Pattern>| it.map_or_else(|| "none".into(), |it| format!("{:?}", it.text));
        let read = [Pattern::from_bytes(line.as_bytes()), Pattern::from_bytes_without_negation(line.as_bytes())];
        println!("{line:?}: {}", read.map(show).join(", "));
    }
    let suffix = gix_glob::parse("*.tar.GZ").expect("a pattern");
    for mode in [wildmatch::Mode::empty(), wildmatch::Mode::IGNORE_CASE] {
        println!("{suffix} matches {}", suffix.matches("a/b.tar.gz".into(), mode));
    }
}

fn load(root: &Path) -> io::Result<Vec<List<Owners>>> {
    let (mut lists, mut buf) = (Vec::new(), Vec::new());
    for (name, text) in FILES {
        let file = root.join(name);
        fs::create_dir_all(file.parent().expect("a folder"))?;
        fs::write(&file, text)?;
        assert!(add_patterns_file(&mut lists, file, false, Some(root), &mut buf, Owners)?);
    }
    assert!(!add_patterns_file(&mut lists, root.join("missing/OWNERS"), true, Some(root), &mut buf, Owners)?);
    Ok(lists)
}

fn main() -> io::Result<()> {
    let root: PathBuf = env::temp_dir().join(format!("owners-{}", process::id()));
    let lists = load(&root);
    fs::remove_dir_all(&root)?;
    let lists = lists?;
    let mut counts = BTreeMap::new();
    for case in [Case::Sensitive, Case::Fold] {
        println!("{case:?}");
        for path in PATHS {
            let answer = owners(&lists, &Question::new(path, case), &root);
            println!("{path:20} {answer}");
            *counts.entry(answer).or_insert(0) += 1;
        }
    }
    println!("\n{} answers, {} of them once", counts.len(), counts.values().filter(|count| **count == 1).count());
    for list in &lists {
        println!("base {:?}, {} patterns", list.base.as_ref().map(|base| base.to_string()), list.patterns.len());
    }
    print_patterns(&lists);
    print_grid();
    print_readings();
    Ok(())
}
