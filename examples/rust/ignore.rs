//! Decides about paths by ignore files, over the proved library: ./ignore FILE.. < PATHS
//!
//! `Pattern`, `List` and `decide_in_tree` are a safe wrapper over the C exports of `gix_glob_c`; `main` answers for each path as
//! `globline ignore sensitive - FILE..` does, but asks about the folders above it first. A path that ends in a slash is a
//! directory's. A FILE that is missing or a folder is passed over; where another one, or standard input, can't be read, or the
//! output can't be written, the status is 1.
//!
//! Build it by `examples/c/install PREFIX` and `rustc --edition=2021 -O -L PREFIX/lib examples/rust/ignore.rs`.
use std::ffi::OsString;
use std::io::{self, BufRead, ErrorKind, Write};
use std::marker::PhantomData;

#[repr(C)]
#[derive(Clone, Copy)]
struct Parts {
    text: *const u8,
    text_len: usize,
    first_wildcard_pos: usize,
    mode: u32,
    reading: u32,
}

#[repr(C)]
struct RawLines {
    rest: *const u8,
    rest_len: usize,
    number: usize,
}

#[link(name = "gix_glob_c", kind = "static")]
unsafe extern "C" {
    fn gix_glob_parse(line: *const u8, line_len: usize, out: *mut Parts) -> bool;
    fn gix_glob_parse_ignore_line(lines: *mut RawLines, out: *mut Parts) -> u32;
    fn gix_glob_pattern_matches_path(pattern: *const Parts, path: *const u8, path_len: usize, is_dir: bool, fold: bool) -> bool;
    fn gix_glob_decide_in_tree(lists: *const List<'_>, count: usize, path: *const u8, path_len: usize, is_dir: bool, fold: bool, out: *mut Decision) -> bool;
}

const BLANK: Parts = Parts { text: std::ptr::NonNull::dangling().as_ptr(), text_len: 0, first_wildcard_pos: usize::MAX, mode: 0, reading: 0 };
const NEGATIVE: u32 = 8;
/// `GIX_GLOB_LINE_END` and `GIX_GLOB_LINE_PATTERN`.
const END: u32 = 0;
const PATTERN: u32 = 2;

/// A pattern that was read. Its text is a part of the line, which it borrows.
#[derive(Clone, Copy)]
#[repr(transparent)]
pub struct Pattern<'a>(Parts, PhantomData<&'a [u8]>);

impl<'a> Pattern<'a> {
    /// Reads a pattern line; `None` where it is blank.
    pub fn parse(line: &'a [u8]) -> Option<Pattern<'a>> {
        let mut parts = BLANK;
        // SAFETY: a slice's pointer is not null and can be read for its length, and `parts` is initialised.
        unsafe { gix_glob_parse(line.as_ptr(), line.len(), &mut parts) }.then_some(Pattern(parts, PhantomData))
    }

    /// Whether the pattern matches the path, which is told from the folder of the pattern's file.
    pub fn matches_path(&self, path: &[u8], is_dir: bool, fold: bool) -> bool {
        // SAFETY: as above; the line is borrowed for as long as the pattern is there.
        unsafe { gix_glob_pattern_matches_path(&self.0, path.as_ptr(), path.len(), is_dir, fold) }
    }

    /// Whether the line began with `!`, so that what it matches isn't ignored.
    pub fn is_negative(&self) -> bool {
        self.0.mode & NEGATIVE != 0
    }
}

/// The patterns of an ignore file, each with the number of its line.
pub fn ignore_lines(file: &[u8]) -> impl Iterator<Item = (usize, Pattern<'_>)> {
    let mut lines = RawLines { rest: file.as_ptr(), rest_len: file.len(), number: 0 };
    std::iter::from_fn(move || {
        let mut parts = BLANK;
        loop {
            // SAFETY: `lines` stays within the file, which is borrowed, and both are initialised.
            match unsafe { gix_glob_parse_ignore_line(&mut lines, &mut parts) } {
                END => return None,
                PATTERN => return Some((lines.number, Pattern(parts, PhantomData))),
                _ => {}
            }
        }
    })
}

/// What is prepared of a list, here nothing: an aligned pointer, and no count.
#[repr(C)]
#[derive(Clone, Copy)]
struct Nothing(std::ptr::NonNull<u64>, usize);

const NOTHING: Nothing = Nothing(std::ptr::NonNull::dangling(), 0);

/// The patterns of an ignore file, and its folder.
#[repr(C)]
pub struct List<'a> {
    patterns: *const Parts,
    count: usize,
    base: *const u8,
    base_len: usize,
    prepared: [Nothing; 2],
    lives: PhantomData<&'a [Pattern<'a>]>,
}

impl<'a> List<'a> {
    /// The patterns in the order of their lines, and the folder from the top of the tree on: empty, or with a slash at its end.
    pub fn new(patterns: &'a [Pattern<'a>], base: &'a [u8]) -> List<'a> {
        // `Pattern` is laid out as its parts
        let (patterns, count) = (patterns.as_ptr().cast(), patterns.len());
        List { patterns, count, base: base.as_ptr(), base_len: base.len(), prepared: [NOTHING; 2], lives: PhantomData }
    }
}

/// The pattern that decides: the place of its list, and its place there, both from 0.
#[derive(Clone, Copy)]
#[repr(C)]
pub struct Decision {
    pub list: usize,
    pub pattern: usize,
}

/// The pattern that decides about a path in a work tree, where one does: that of the topmost ignored folder above it, or its own.
pub fn decide_in_tree(lists: &[List<'_>], path: &[u8], is_dir: bool, fold: bool) -> Option<Decision> {
    let mut by = Decision { list: 0, pattern: 0 };
    // SAFETY: each list has the pointers and lengths of slices that it borrows, and `by` is initialised.
    unsafe { gix_glob_decide_in_tree(lists.as_ptr(), lists.len(), path.as_ptr(), path.len(), is_dir, fold, &mut by) }.then_some(by)
}

/// The bytes of a file; `None` where it is missing or a folder.
fn read_whole(file: OsString) -> Option<io::Result<Vec<u8>>> {
    match std::fs::read(file) {
        Err(error) if matches!(error.kind(), ErrorKind::NotFound | ErrorKind::IsADirectory | ErrorKind::NotADirectory) => None,
        answer => Some(answer),
    }
}

fn main() -> io::Result<()> {
    let files: Vec<Vec<u8>> = std::env::args_os().skip(1).filter_map(read_whole).collect::<io::Result<_>>()?;
    let parsed: Vec<(Vec<usize>, Vec<Pattern>)> = files.iter().map(|file| ignore_lines(file).unzip()).collect();
    let lists: Vec<List> = parsed.iter().map(|(_, patterns)| List::new(patterns, b"")).collect();
    let mut out = io::stdout().lock();
    for line in io::stdin().lock().split(b'\n') {
        let line = line?;
        let is_plain = !line.is_empty() && line[0] != b'/' && !line.windows(2).any(|pair| pair == b"//");
        let (path, is_dir) = line.strip_suffix(b"/").map_or((&line[..], false), |path| (path, true));
        let found = decide_in_tree(&lists, path, is_dir, false).map(|by| {
            let (numbers, patterns) = &parsed[by.list];
            (by.list + 1, numbers[by.pattern], patterns[by.pattern].is_negative())
        });
        match found {
            _ if !is_plain => writeln!(out, "!")?,
            Some((list, number, is_negative)) => writeln!(out, "{} {list}:{number}", if is_negative { "kept" } else { "ignored" })?,
            None => writeln!(out, "none")?,
        }
    }
    Ok(())
}
