//! Which of its arguments a work tree ignores, as `git check-ignore --no-index` prints them: check_ignore PATH..
//!
//! It is called at the top of the work tree, and reads .git/info/exclude and the .gitignore of each folder on the way to a PATH, which
//! is told from the top. The status is 0 where a PATH is ignored, 1 where none is, and 2 where a file can't be read.
use std::collections::BTreeSet;
use std::ffi::{OsStr, OsString};
use std::io::{self, Write};
use std::os::unix::ffi::OsStrExt;
use std::path::Path;
use std::process::ExitCode;

use gix_glob::decide::{IgnoreLines, Lists};
use gix_glob::pattern::Case;
use gix_glob::search::{add_patterns_file, pattern::List};

/// A path without the slash at its end.
fn plain(word: &OsStr) -> &[u8] {
    let path = word.as_bytes();
    path.strip_suffix(b"/").unwrap_or(path)
}

fn is_ignored(lists: &Lists<'_, IgnoreLines>, path: &[u8], is_dir: bool) -> bool {
    let decided = lists.decide_in_tree(path.into(), is_dir, Case::Sensitive);
    decided.is_some_and(|(_, mapping)| !mapping.pattern.is_negative())
}

/// The ignore files on the way to some paths. None is looked for in a folder that is ignored, which those of the folders above it tell.
fn lists_for(words: &[OsString]) -> io::Result<Vec<List<IgnoreLines>>> {
    let (mut lists, mut bytes) = (Vec::new(), Vec::new());
    for file in [".git/info/exclude", ".gitignore"] {
        add_patterns_file(&mut lists, file.into(), true, None, &mut bytes, IgnoreLines)?;
    }
    for depth in 0.. {
        let paths = words.iter().map(|word| plain(word));
        let ends = paths.filter_map(|path| Some(&path[..(0..path.len()).filter(|&at| path[at] == b'/').nth(depth)?]));
        let mut folders: BTreeSet<&[u8]> = ends.collect();
        if folders.is_empty() {
            break;
        }
        let laid_out = Lists::new(&lists);
        folders.retain(|folder| !is_ignored(&laid_out, folder, true));
        for folder in folders {
            let file = Path::new(OsStr::from_bytes(folder)).join(".gitignore");
            add_patterns_file(&mut lists, file, true, Some(Path::new("")), &mut bytes, IgnoreLines)?;
        }
    }
    Ok(lists)
}

fn run(words: &[OsString]) -> io::Result<bool> {
    let lists = lists_for(words)?;
    let lists = Lists::new(&lists);
    let mut is_any = false;
    for word in words {
        let path = plain(word);
        let is_dir = path.len() < word.len() || Path::new(word).symlink_metadata().is_ok_and(|it| it.is_dir());
        if is_ignored(&lists, path, is_dir) {
            io::stdout().write_all(&[word.as_bytes(), b"\n"].concat())?;
            is_any = true;
        }
    }
    Ok(is_any)
}

fn main() -> ExitCode {
    let words: Vec<OsString> = std::env::args_os().skip(1).collect();
    match run(&words) {
        Ok(is_any) => ExitCode::from(u8::from(!is_any)),
        Err(error) => {
            eprintln!("check_ignore: {error}");
            ExitCode::from(2)
        }
    }
}
