//! Lists, where no row of `crates/rows/data` asks: what they hold, what panics, and files.
use std::fs;
use std::io::ErrorKind;
use std::os::unix::fs::symlink;
use std::path::{Path, PathBuf};

use gix_glob::pattern::Case;
use gix_glob::search::pattern::{List, Mapping, strip_base_handle_recompute_basename_pos};
use gix_glob::search::{self, add_patterns_file};

/// Reads each line as a pattern, whose value is the line's length.
#[derive(Clone, PartialEq, Eq, Debug, Hash, PartialOrd, Ord, Default)]
struct Lines;

impl search::Pattern for Lines {
    type Value = usize;

    fn bytes_to_patterns(&self, bytes: &[u8], _source: &Path) -> Vec<Mapping<usize>> {
        let lines = bytes.split(|&byte| byte == b'\n').zip(1..);
        lines
            .filter_map(|(line, sequence_number)| {
                let pattern = gix_glob::parse(line)?;
                Some(Mapping { pattern, value: line.len(), sequence_number })
            })
            .collect()
    }
}

#[test]
fn a_source_that_names_no_file() {
    let read = |root: Option<&'static str>| {
        let list = List::from_bytes(b"", PathBuf::from("/"), root.map(Path::new), Lines);
        (list.source, list.base)
    };
    assert!(std::panic::catch_unwind(|| read(Some(""))).is_err());
    assert_eq!(read(None), (Some("/".into()), None));
}

#[test]
fn lists_hold_what_their_parser_says() {
    let list = List::from_bytes(b"a\n\n!b/", PathBuf::from("x/.ignore"), None, Lines);
    let numbers: Vec<_> =
        list.patterns.iter().map(|it| (it.pattern.to_string(), it.value, it.sequence_number)).collect();
    assert_eq!(numbers, [("a".into(), 1, 1), ("!b/".into(), 3, 3)]);
    assert_eq!(list, list.clone());
    let empty = List::<Lines>::default();
    assert!(empty.patterns.is_empty() && empty.source.is_none() && empty.base.is_none());
}

#[test]
fn a_list_strips_its_base() {
    let mut list = List::from_bytes(b"", PathBuf::from("a/f"), Some(Path::new("")), Lines);
    let path = b"a/c".as_slice();
    let answer = list.strip_base_handle_recompute_basename_pos(path.into(), Some(2), Case::Sensitive);
    assert_eq!(answer, Some((b"c".as_slice().into(), None)));
    list.base = None;
    let answer = list.strip_base_handle_recompute_basename_pos(path.into(), Some(0), Case::Sensitive);
    assert_eq!(answer, Some((path.into(), Some(0))));
}

#[test]
fn a_position_before_the_base_has_an_answer_or_an_assertion() {
    let (base, path, rest) = (b"a/b/".as_slice(), b"a/b/c".as_slice(), b"c".as_slice());
    let result = std::panic::catch_unwind(|| {
        strip_base_handle_recompute_basename_pos(base.into(), path.into(), Some(2), Case::Sensitive)
    });
    assert_eq!(result.is_err(), cfg!(debug_assertions));
    assert_eq!(result.unwrap_or(Some((rest.into(), None))), Some((rest.into(), None)));
}

/// A folder of its own, which is gone at the end.
struct Folder(PathBuf);

impl Folder {
    fn new(name: &str) -> Self {
        let folder = std::env::temp_dir().join(format!("gix-glob-{name}-{}", std::process::id()));
        fs::create_dir_all(&folder).unwrap();
        Folder(folder)
    }
}

impl Drop for Folder {
    fn drop(&mut self) {
        fs::remove_dir_all(&self.0).unwrap();
    }
}

#[test]
fn files() {
    let folder = Folder::new("files");
    let (mut lists, mut bytes) = (Vec::new(), b"old".to_vec());
    fs::write(folder.0.join("ignore"), "*.o\n").unwrap();
    let mut add =
        |name: &str| add_patterns_file(&mut lists, folder.0.join(name), false, Some(&folder.0), &mut bytes, Lines);
    assert!(!add("missing").unwrap());
    assert!(!add("").unwrap());
    assert!(!add("ignore/below").unwrap());
    assert!(add("ignore").unwrap());
    assert!(add("ignore").unwrap());
    assert_eq!((lists.len(), lists[1].patterns.len(), &lists[1].base), (2, 1, &None));
    assert_eq!(bytes, b"*.o\n");
}

#[test]
fn links_are_followed_only_where_they_may_be() {
    let folder = Folder::new("links");
    let link = folder.0.join("link");
    fs::write(folder.0.join("ignore"), "*.o\n").unwrap();
    symlink("ignore", &link).unwrap();
    let mut bytes = Vec::new();
    let list = List::from_file(&link, None, true, &mut bytes, Lines).unwrap().unwrap();
    assert_eq!((list.patterns.len(), list.source), (1, Some(link.clone())));
    let error = List::from_file(&link, None, false, &mut bytes, Lines).unwrap_err();
    assert!(!matches!(error.kind(), ErrorKind::NotFound | ErrorKind::IsADirectory));
}
