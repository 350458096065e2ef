//! What decides about a path in a work tree, where no row of `crates/rows/data` asks.
mod lines;

use std::path::Path;
use std::thread;

use gix_glob::decide::{IgnoreLines, Index, Lists};
use gix_glob::pattern::Case;
use gix_glob::search::{Pattern, pattern::List};
use lines::Lines;

/// A file of a folder, which is told with a slash at its end.
fn list_by<T: Pattern>(parser: T, folder: &str, lines: &str) -> List<T> {
    List::from_bytes(lines.as_bytes(), format!("{folder}.gitignore").into(), Some(Path::new("")), parser)
}

fn list(folder: &str, lines: &str) -> List<Lines> {
    list_by(Lines, folder, lines)
}

fn is_decided(lists: &[List<Lines>], path: &str, is_dir: bool) -> bool {
    Lists::new(lists).decide_in_tree(path.as_bytes().into(), is_dir, Case::Sensitive).is_some()
}

#[test]
fn nothing_decides_about_what_is_no_path() {
    let lists = [list("", "*")];
    for path in ["", "/c", "c//d"] {
        assert!(!is_decided(&lists, path, false), "{path:?}");
    }
    assert!(!is_decided(&lists, "c/", true) && is_decided(&lists, "c", true));
    assert!(!is_decided(&[], "a", false));
}

#[test]
fn an_index_of_no_patterns() {
    let empty = List { patterns: Vec::new(), ..list("a/", "x") };
    assert!(Index::new(&empty).unwrap().last_match(b"a/x"[..].into(), false, Case::Sensitive).is_none());
}

#[test]
fn a_base_that_is_no_folder_leaves_nothing() {
    let mut lists = [list("a/", "x")];
    lists[0].base = Some("a".into());
    assert!(!is_decided(&lists, "ax", false));
    assert_eq!(Index::new(&lists[0]).unwrap().last_match(b"ax"[..].into(), false, Case::Sensitive), None);
}

/// All texts of up to `most` of these bytes.
fn texts(bytes: &str, most: usize) -> Vec<String> {
    let mut all = vec![String::new()];
    let mut longest = all.clone();
    for _ in 0..most {
        longest = longest.iter().flat_map(|text| bytes.chars().map(move |byte| format!("{text}{byte}"))).collect();
        all.extend_from_slice(&longest);
    }
    all
}

/// Under negative lines no folder is ignored, so in a tree, too, the last line that matches the path decides.
fn an_index_says_what_lists_say<T: Pattern>(mut list: List<T>) {
    for base in texts("sA/", 4) {
        list.base = Some(base.as_str().into());
        let (index, lists) = (Index::new(&list).unwrap(), Lists::new(std::slice::from_ref(&list)));
        let mut has_answer = false;
        for path in texts("Sa/", 5) {
            let path = path.as_bytes().into();
            for (is_dir, case) in [(false, Case::Fold), (true, Case::Fold), (true, Case::Sensitive)] {
                let last = index.last_match(path, is_dir, case);
                let decides = lists.decide_in_tree(path, is_dir, case).map(|(_, mapping)| mapping);
                assert_eq!(last, decides, "{base:?} {path:?} {is_dir} {case:?}");
                has_answer |= last.is_some();
            }
        }
        let is_folder = base.is_empty() || base.ends_with('/') && !base.starts_with('/') && !base.contains("//");
        assert_eq!(has_answer, is_folder, "{base:?}");
    }
}

#[test]
fn an_index_says_of_each_base_what_lists_say() {
    let lines = "!s\n!/a\n!a/s/\n!S*\n";
    an_index_says_what_lists_say(list("", lines));
    an_index_says_what_lists_say(list_by(IgnoreLines, "", lines));
    // (so many that lists prepare them)
    an_index_says_what_lists_say(list("", &lines.repeat(10)));
}

/// The stars behind a literal front begin a pattern by Git's reading alone.
#[test]
fn patterns_match_as_their_parser_reads() {
    fn decides<T: Pattern>(lists: &[List<T>], path: &str) -> bool {
        let (path, case) = (path.as_bytes().into(), Case::Sensitive);
        let last = Index::new(&lists[0]).unwrap().last_match(path, false, case).is_some();
        assert_eq!(last, Lists::new(lists).decide_in_tree(path, false, case).is_some());
        last
    }
    for others in [0, 100] {
        let lines = "a**/b\n".to_string() + &"other\n".repeat(others);
        let (by_crate, by_git) = ([list("", &lines)], [list_by(IgnoreLines, "", &lines)]);
        assert!(decides(&by_git, "ax/y/b") && !decides(&by_crate, "ax/y/b"));
        assert!(decides(&by_git, "ax/b") && decides(&by_crate, "ax/b"));
    }
}

#[test]
fn lists_and_indexes_are_shown() {
    let lists = [list("a/", "x")];
    let said = [format!("{:?}", Lists::new(&lists)), format!("{:?}", Index::new(&lists[0]).unwrap())];
    assert!(said[0].starts_with("Lists { lists: [List { patterns") && said[0].ends_with(", .. }"), "{}", said[0]);
    assert!(said[1].starts_with("Index { list: List { patterns") && said[1].ends_with(", .. }"), "{}", said[1]);
}

#[test]
fn lists_serve_many_threads() {
    let lists = [list("", "*.o")];
    let lists = Lists::new(&lists);
    thread::scope(|scope| {
        for _ in 0..2 {
            scope.spawn(|| assert!(lists.decide_in_tree(b"a/x.o"[..].into(), false, Case::Sensitive).is_some()));
        }
    });
}
