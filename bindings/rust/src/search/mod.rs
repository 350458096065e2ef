//! Lists of patterns, as they are read from files. Ignore and attribute files share this.
//!
//! How a file is parsed is the caller's: here each line is a pattern without a value.
//!
//! ```
//! use gix_glob::search::{self, pattern::{List, Mapping}};
//! use std::path::Path;
//!
//! #[derive(Clone, PartialEq, Eq, Debug, Hash, PartialOrd, Ord, Default)]
//! struct Lines;
//!
//! impl search::Pattern for Lines {
//!     type Value = ();
//!
//!     fn bytes_to_patterns(&self, bytes: &[u8], _source: &Path) -> Vec<Mapping<()>> {
//!         let lines = bytes.split(|&byte| byte == b'\n').zip(1..);
//!         lines
//!             .filter_map(|(line, sequence_number)| {
//!                 let pattern = gix_glob::Pattern::from_bytes(line)?;
//!                 Some(Mapping { pattern, value: (), sequence_number })
//!             })
//!             .collect()
//!     }
//! }
//!
//! let list = List::from_bytes(b"*.o\n!keep.o\n", "/repo/src/.ignore".into(), Some(Path::new("/repo")), Lines);
//! assert_eq!(list.base, Some("src/".into()));
//! assert!(list.patterns[1].pattern.is_negative());
//! assert_eq!(list.patterns[1].sequence_number, 2);
//! ```
use std::fmt::Debug;
use std::hash::Hash;
use std::io;
use std::path::{Path, PathBuf};

use crate::decide::Reading;

pub mod pattern;

/// A parser of files: it turns bytes into patterns, each with a value, such as the attributes that a line gives.
/// [`IgnoreLines`](crate::decide::IgnoreLines) is one.
pub trait Pattern: Clone + PartialEq + Eq + Debug + Hash + Ord + PartialOrd + Default {
    /// What belongs to a pattern.
    type Value: PartialEq + Eq + Debug + Hash + Ord + PartialOrd + Clone;

    /// Whose reading the patterns are, by which [`decide`](crate::decide) matches them: the crate's, unless the parser says another
    /// one. The other crate has no such constant.
    const READING: Reading = Reading::Crate;

    /// The patterns of a file, in the order of its lines. Lines that can't be read are left out. `source` names the file.
    fn bytes_to_patterns(&self, bytes: &[u8], source: &Path) -> Vec<pattern::Mapping<Self::Value>>;
}

/// Puts the list of a file behind the others, and answers whether there is such a file. See
/// [`List::from_file()`](pattern::List::from_file()) for the parameters.
pub fn add_patterns_file<T: Pattern>(
    patterns: &mut Vec<pattern::List<T>>,
    source: PathBuf,
    follow_symlinks: bool,
    root: Option<&Path>,
    buf: &mut Vec<u8>,
    parse: T,
) -> io::Result<bool> {
    let list = pattern::List::from_file(source, root, follow_symlinks, buf, parse)?;
    let has_file = list.is_some();
    patterns.extend(list);
    Ok(has_file)
}
