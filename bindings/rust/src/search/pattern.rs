//! A list of patterns, its source and its base.
use std::fs::OpenOptions;
use std::io::{self, ErrorKind, Read};
use std::os::unix::fs::OpenOptionsExt;
use std::path::{Component, Path, PathBuf};

use bstr::{BStr, BString};

use super::Pattern;
use crate::pattern::Case;

/// The patterns of one source.
#[derive(PartialEq, Eq, Debug, Hash, Ord, PartialOrd, Clone, Default)]
pub struct List<T: Pattern> {
    /// The patterns in the order of their lines. The last one that matches decides.
    pub patterns: Vec<Mapping<T::Value>>,

    /// The file that they were read from, if any.
    pub source: Option<PathBuf>,

    /// The folder that the patterns are for, relative to the root, with slashes between its parts and one at the end. `None`
    /// where they are for the whole root.
    pub base: Option<BString>,
}

/// A pattern with its value and its place among others.
#[derive(PartialEq, Eq, Debug, Hash, Ord, PartialOrd, Clone)]
pub struct Mapping<T> {
    /// The pattern.
    pub pattern: crate::Pattern,
    /// What belongs to it.
    pub value: T,
    /// The number of its line, where it was read from a file.
    pub sequence_number: usize,
}

/// Instantiation
impl<T: Pattern> List<T> {
    /// The list of a file's bytes, as `parse` reads them.
    ///
    /// The base is the folder of `source_file` under `root`: there is none without a root, where the file lies in the root
    /// itself, and where it doesn't lie under it. An empty root makes the base of a relative source.
    ///
    /// # Panics
    ///
    /// Where a root is given, and `source_file` can't name a file: it is empty or `/`.
    pub fn from_bytes(bytes: &[u8], source_file: PathBuf, root: Option<&Path>, parse: T) -> Self {
        List {
            patterns: parse.bytes_to_patterns(bytes, &source_file),
            base: root.and_then(|root| base(&source_file, root)),
            source: Some(source_file),
        }
    }

    /// The list of a file, or `None` where there is no such file, or where it is a folder.
    ///
    /// `follow_symlinks` says whether the file may be a link; one that may not be is an error. `buf` is for the file's bytes.
    /// What is left is as in [`from_bytes()`](Self::from_bytes()).
    pub fn from_file(
        source: impl Into<PathBuf>,
        root: Option<&Path>,
        follow_symlinks: bool,
        buf: &mut Vec<u8>,
        parse: T,
    ) -> io::Result<Option<Self>> {
        let source = source.into();
        buf.clear();
        match read(&source, follow_symlinks, buf) {
            Ok(()) => Ok(Some(Self::from_bytes(buf, source, root, parse))),
            Err(error) => match error.kind() {
                ErrorKind::NotFound | ErrorKind::IsADirectory | ErrorKind::NotADirectory => Ok(None),
                _ => Err(error),
            },
        }
    }
}

/// Utilities
impl<T: Pattern> List<T> {
    /// What of a path lies below the list's base, as [`strip_base_handle_recompute_basename_pos()`] tells it. Without a base
    /// path and basename start stay as they are.
    pub fn strip_base_handle_recompute_basename_pos<'a>(
        &self,
        relative_path: &'a BStr,
        basename_pos: Option<usize>,
        case: Case,
    ) -> Option<(&'a BStr, Option<usize>)> {
        match &self.base {
            Some(base) => {
                strip_base_handle_recompute_basename_pos(base.as_slice().into(), relative_path, basename_pos, case)
            }
            None => Some((relative_path, basename_pos)),
        }
    }
}

/// What of a path lies below a base, with the place of its last part; `None` where the path doesn't lie there. The place is
/// `None` where the rest has no slash.
///
/// ```
/// use gix_glob::{pattern::Case, search::pattern::strip_base_handle_recompute_basename_pos};
///
/// let below = strip_base_handle_recompute_basename_pos("src/".into(), "src/deep/a.rs".into(), Some(9), Case::Sensitive);
/// assert_eq!(below, Some(("deep/a.rs".into(), Some(5))));
/// ```
///
/// # Panics
///
/// With debug assertions, where the basename start lies inside the base.
pub fn strip_base_handle_recompute_basename_pos<'a>(
    base: &BStr,
    relative_path: &'a BStr,
    basename_pos: Option<usize>,
    case: Case,
) -> Option<(&'a BStr, Option<usize>)> {
    let (front, rest) = relative_path.split_at_checked(base.len())?;
    let is_below = match case {
        Case::Sensitive => front == base,
        Case::Fold => front.eq_ignore_ascii_case(base),
    };
    if !is_below {
        return None;
    }
    debug_assert!(
        basename_pos.is_none_or(|place| place >= base.len()),
        "the last part of a path below the base lies below it too"
    );
    let place = basename_pos.and_then(|place| place.checked_sub(base.len()));
    Some((rest.into(), place.filter(|&place| place > 0)))
}

/// The folder of a source under a root: its parts, each with a slash after it.
fn base(source: &Path, root: &Path) -> Option<BString> {
    let folder = source.parent().expect("a source names a file");
    let mut base = Vec::new();
    for part in folder.strip_prefix(root).ok()?.components() {
        if part != Component::RootDir {
            base.extend_from_slice(part.as_os_str().as_encoded_bytes());
        }
        base.push(b'/');
    }
    (!base.is_empty()).then(|| base.into())
}

/// `O_NOFOLLOW` of x86-64 Linux, which the library is for.
const NO_FOLLOW: i32 = 0o400_000;

/// Reads a file to its end.
fn read(file: &Path, follow_symlinks: bool, bytes: &mut Vec<u8>) -> io::Result<()> {
    let flags = if follow_symlinks { 0 } else { NO_FOLLOW };
    let mut file = OpenOptions::new().read(true).custom_flags(flags).open(file)?;
    file.read_to_end(bytes).map(drop)
}
