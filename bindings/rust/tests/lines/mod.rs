//! A parser for lists: it reads each line as a pattern without a value.
use std::path::Path;

use gix_glob::search::{self, pattern::Mapping};

#[derive(Clone, PartialEq, Eq, Debug, Hash, PartialOrd, Ord, Default)]
pub struct Lines;

impl search::Pattern for Lines {
    type Value = ();

    fn bytes_to_patterns(&self, bytes: &[u8], _source: &Path) -> Vec<Mapping<()>> {
        let lines = bytes.split(|&byte| byte == b'\n').zip(1..);
        lines
            .filter_map(|(line, sequence_number)| {
                Some(Mapping { pattern: gix_glob::parse(line)?, value: (), sequence_number })
            })
            .collect()
    }
}
