//! Which pattern decides about a path: in a work tree, over the lists of several files ([`Lists`]), or of one list with an index
//! ([`Index`]). The other crate has no such calls.
//!
//! ```
//! use gix_glob::decide::{IgnoreLines, Index, Lists};
//! use gix_glob::pattern::Case;
//! use gix_glob::search::pattern::List;
//! use std::path::Path;
//!
//! let root = Some(Path::new("/repo"));
//! let lists = [
//!     List::from_bytes(b"build/\n*.log", "/repo/.gitignore".into(), root, IgnoreLines),
//!     List::from_bytes(b"!keep.log", "/repo/src/.gitignore".into(), root, IgnoreLines),
//! ];
//! let index = Index::new(&lists[0]).unwrap();
//! let last = index.last_match("deep/debug.log".into(), false, Case::Sensitive);
//! assert_eq!(last.unwrap().sequence_number, 2);
//!
//! let lists = Lists::new(&lists);
//! let decided = |path: &str| {
//!     let found = lists.decide_in_tree(path.into(), false, Case::Sensitive);
//!     found.map(|(list, mapping)| (list.base.is_some(), mapping.pattern.to_string()))
//! };
//! assert_eq!(decided("build/keep.log"), Some((false, "build/".into())));
//! assert_eq!(decided("src/keep.log"), Some((true, "!keep.log".into())));
//! assert_eq!(decided("src/main.c"), None);
//! ```
use std::fmt;
use std::path::Path;

use bstr::BStr;

use crate::library;
use crate::pattern::Case;
use crate::search::Pattern;
use crate::search::pattern::{List, Mapping};

/// Whose reading of a line applies, and of what its pattern matches. A parser says it of its patterns ([`Pattern::READING`]), so
/// [`Lists`] and an [`Index`] can't take patterns of one for those of the other.
#[derive(Clone, Copy, PartialEq, Eq, Debug, Hash, PartialOrd, Ord, Default)]
pub enum Reading {
    /// That of the other crate: [`crate::Pattern::from_bytes`], and [`crate::Pattern::matches_repo_relative_path`].
    #[default]
    Crate,
    /// Git's own: [`crate::Pattern::from_git_line`], and [`crate::Pattern::matches_path_as_git`].
    Git,
}

/// The lines of an ignore file, as Git reads them: a parser for [`List`]s, whose patterns match as Git has it, too.
///
/// ```
/// use gix_glob::decide::{IgnoreLines, Lists};
/// use gix_glob::{pattern::Case, search::pattern::List};
///
/// let list = [List::from_bytes(b"# objects\n*.o\n!keep.o \n", ".gitignore".into(), None, IgnoreLines)];
/// let lists = Lists::new(&list);
/// let decided = lists.decide_in_tree("src/keep.o".into(), false, Case::Sensitive).unwrap().1;
/// assert_eq!((decided.sequence_number, decided.pattern.is_negative()), (3, true));
/// ```
#[derive(Clone, Copy, PartialEq, Eq, Debug, Hash, PartialOrd, Ord, Default)]
pub struct IgnoreLines;

impl Pattern for IgnoreLines {
    type Value = ();

    const READING: Reading = Reading::Git;

    fn bytes_to_patterns(&self, bytes: &[u8], _source: &Path) -> Vec<Mapping<()>> {
        let lines = library::ignore_lines(bytes);
        lines
            .map(|(sequence_number, it)| Mapping { pattern: it.pattern_of(bytes), value: (), sequence_number })
            .collect()
    }
}

/// Lists of patterns, laid out once for many questions. A later list comes after an earlier one.
///
/// Those of 24 patterns or more are prepared, as an [`Index`] is, so that a question costs little also among thousands of them.
pub struct Lists<'a, T: Pattern> {
    lists: &'a [List<T>],
    laid_out: library::Lists<'a>,
}

impl<'a, T: Pattern> Lists<'a, T> {
    /// Lays lists out: files of excludes first, then that of the top, then those of the folders on the way down. Their patterns match
    /// as their parser reads ([`Pattern::READING`]).
    pub fn new(lists: &'a [List<T>]) -> Self {
        let texts = lists.iter().map(|list| (base_of(list), parts_of(list)));
        Lists { lists, laid_out: library::Lists::new(texts) }
    }

    /// The pattern that decides about a path, as Git has it, and its list; `None` where none does.
    ///
    /// The topmost folder above the path that is ignored decides about the path, by the pattern that ignores the folder. Where no
    /// folder above it is ignored, the last pattern that matches the path decides. The path is ignored unless that pattern is
    /// [negative](crate::Pattern::is_negative).
    ///
    /// The path is relative to the top, with single slashes between its parts; about one that is empty, or has a slash at its
    /// front or end, or two in a row, nothing decides. A list whose [`base`](List::base) is neither empty nor ends in a slash says
    /// nothing.
    pub fn decide_in_tree(
        &self,
        path: &BStr,
        is_dir: bool,
        case: Case,
    ) -> Option<(&'a List<T>, &'a Mapping<T::Value>)> {
        let (list, pattern) = self.laid_out.decide_in_tree(path, is_dir, case == Case::Fold)?;
        let list = self.lists.get(list)?;
        Some((list, list.patterns.get(pattern)?))
    }
}

impl<T: Pattern> fmt::Debug for Lists<'_, T> {
    fn fmt(&self, f: &mut fmt::Formatter<'_>) -> fmt::Result {
        f.debug_struct("Lists").field("lists", &self.lists).finish_non_exhaustive()
    }
}

/// A list with an index: where few of its patterns can match a path, those alone are tested. It takes 48 bytes a pattern, and 2 KB.
pub struct Index<'a, T: Pattern> {
    list: &'a List<T>,
    prepared: library::Index<'a>,
}

impl<'a, T: Pattern> Index<'a, T> {
    /// The index of a list, whose patterns match as its parser reads; `None` where it has 2^32 patterns or more.
    pub fn new(list: &'a List<T>) -> Option<Self> {
        // what says nothing has no patterns
        let patterns = if is_folder(base_of(list)) { parts_of(list) } else { Box::default() };
        Some(Index { list, prepared: library::Index::new(patterns)? })
    }

    /// The last pattern that matches what the base of the list leaves of a path; `None` where none does, or the path doesn't lie
    /// below the base. It decides about the path by itself: folders above aren't asked about.
    ///
    /// The path is relative to the root, as for [`Lists::decide_in_tree`], and the same bases say nothing: no pattern matches where
    /// the base is neither empty nor ends in a slash.
    pub fn last_match(&self, path: &BStr, is_dir: bool, case: Case) -> Option<&'a Mapping<T::Value>> {
        let (rest, _) = self.list.strip_base_handle_recompute_basename_pos(path, None, case)?;
        let place = self.prepared.last_match(rest, is_dir, case == Case::Fold)?;
        self.list.patterns.get(place)
    }
}

impl<T: Pattern> fmt::Debug for Index<'_, T> {
    fn fmt(&self, f: &mut fmt::Formatter<'_>) -> fmt::Result {
        f.debug_struct("Index").field("list", &self.list).finish_non_exhaustive()
    }
}

/// The base of a list, which is empty where it has none.
fn base_of<T: Pattern>(list: &List<T>) -> &[u8] {
    list.base.as_ref().map_or(b"", |base| base.as_slice())
}

/// Whether a path can begin with a base: it is empty, or parts with one slash after each.
fn is_folder(base: &[u8]) -> bool {
    let is_path = |folder: &[u8]| folder.split(|&byte| byte == b'/').all(|part| !part.is_empty());
    base.is_empty() || base.strip_suffix(b"/").is_some_and(is_path)
}

/// The patterns of a list as the library takes them.
fn parts_of<T: Pattern>(list: &List<T>) -> Box<[library::Parts<'_>]> {
    let patterns = list.patterns.iter().map(|mapping| &mapping.pattern);
    patterns.map(|it| library::Parts::new(&it.text, it.mode.bits(), it.first_wildcard_pos, T::READING)).collect()
}
