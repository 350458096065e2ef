//! The calls of the C library `gix_glob_c`, as `gix_glob.h` declares them. All unsafe code is here.
//!
//! What the header asks of a caller holds of every slice: its pointer isn't null, also where it is empty, and is aligned; its elements
//! can be read for its whole length, and have fewer than 2^63 bytes; and while it is borrowed nobody writes them. A call keeps
//! nothing, so no borrow has to last longer than the call. Each struct of the header that is a pointer and a count is passed as two
//! parameters, and one of a number as that number, as the header says.
#![allow(unsafe_code)]

use std::marker::PhantomData;
use std::ops::Range;

use crate::decide::Reading;

/// `GIX_GLOB_NONE`: no place.
const NONE: usize = usize::MAX;

/// `struct gix_glob_pattern`, and that its text is borrowed.
#[repr(C)]
#[derive(Debug, Clone, Copy)]
pub(crate) struct Parts<'a> {
    text: *const u8,
    text_len: usize,
    first_wildcard_pos: usize,
    mode: u32,
    reading: u32,
    borrows: PhantomData<&'a [u8]>,
}

impl<'a> Parts<'a> {
    /// The parts of a pattern; any may stand together.
    pub(crate) fn new(text: &'a [u8], mode: u32, place: Option<usize>, reading: Reading) -> Self {
        let first_wildcard_pos = place.unwrap_or(NONE);
        // (`GIX_GLOB_AS_CRATE` and `GIX_GLOB_AS_GIT`)
        let reading = match reading {
            Reading::Crate => 0,
            Reading::Git => 1,
        };
        Parts { text: text.as_ptr(), text_len: text.len(), first_wildcard_pos, mode, reading, borrows: PhantomData }
    }
}

/// `struct gix_glob_list`, and that its patterns and its base are borrowed.
#[repr(C)]
#[derive(Debug)]
struct ListParts<'a> {
    patterns: *const Parts<'a>,
    count: usize,
    base: *const u8,
    base_len: usize,
    rows: *const u64,
    row_count: usize,
    heads: *const u64,
    head_count: usize,
}

/// What a pointer leads to where nothing was prepared.
static NOTHING: u64 = 0;

impl<'a> ListParts<'a> {
    /// `gix_glob_list_of`: a list of which nothing is prepared.
    fn new(patterns: &[Parts<'a>], base: &'a [u8]) -> Self {
        ListParts {
            patterns: patterns.as_ptr(),
            count: patterns.len(),
            base: base.as_ptr(),
            base_len: base.len(),
            rows: &NOTHING,
            row_count: 0,
            heads: &NOTHING,
            head_count: 0,
        }
    }

    /// `gix_glob_prepare_list`: the block in which the list is prepared, and which it leads to from then on. `None` where it has 2^32
    /// patterns or more.
    fn prepare(&mut self) -> Option<Box<[u64]>> {
        // SAFETY: both take numbers.
        let (size, rows_at) = unsafe { (gix_glob_prepared_size(self.count), gix_glob_rows_at()) };
        if size == NONE {
            return None;
        }
        let mut block = vec![0; size.div_ceil(8)].into_boxed_slice();
        let heads = block.as_mut_ptr();
        // SAFETY: the patterns are a slice's; the block is initialised, aligned to 8, apart from them, and as large as the library asks for
        // so many of them; its rows begin inside of it.
        let is_prepared =
            unsafe { gix_glob_prepare(self.patterns, self.count, heads.byte_add(rows_at), self.count, heads) };
        if !is_prepared {
            return None;
        }
        // SAFETY: as above.
        self.rows = unsafe { heads.byte_add(rows_at) };
        (self.row_count, self.heads, self.head_count) = (self.count, heads, 1);
        Some(block)
    }
}

/// `struct gix_glob_decision`.
#[repr(C)]
struct Place {
    list: usize,
    pattern: usize,
}

unsafe extern "C" {
    fn gix_glob_parse(line: *const u8, line_len: usize, out: *mut Parts<'_>) -> bool;

    fn gix_glob_parse_as_git(line: *const u8, line_len: usize, out: *mut Parts<'_>);

    fn gix_glob_parse_ignore_line_as_git(lines: *mut LineParts, out: *mut Parts<'_>) -> u32;

    fn gix_glob_pattern_matches_path(
        pattern: *const Parts<'_>,
        path: *const u8,
        path_len: usize,
        is_dir: bool,
        fold: bool,
    ) -> bool;

    fn gix_glob_prepared_size(count: usize) -> usize;

    fn gix_glob_rows_at() -> usize;

    fn gix_glob_prepare(
        patterns: *const Parts<'_>,
        count: usize,
        rows: *mut u64,
        row_count: usize,
        heads: *mut u64,
    ) -> bool;

    fn gix_glob_last_match(
        list: *const ListParts<'_>,
        path: *const u8,
        path_len: usize,
        is_dir: bool,
        fold: bool,
    ) -> usize;

    fn gix_glob_decide_in_tree(
        lists: *const ListParts<'_>,
        count: usize,
        path: *const u8,
        path_len: usize,
        is_dir: bool,
        fold: bool,
        out: *mut Place,
    ) -> bool;

    fn gix_glob_wildmatch(pattern: *const u8, pattern_len: usize, value: *const u8, value_len: usize, mode: u8)
    -> bool;

    fn gix_glob_matches(pattern: *const Parts<'_>, value: *const u8, value_len: usize, mode: u8) -> bool;
}

/// `GIX_GLOB_LINE_END` and `GIX_GLOB_LINE_PATTERN`: what a line of an ignore file gives.
const END: u32 = 0;
const PATTERN: u32 = 2;

/// `struct gix_glob_lines`.
#[repr(C)]
struct LineParts {
    rest: *const u8,
    rest_len: usize,
    number: usize,
}

/// What was read of a line.
pub(crate) struct Line {
    /// Where the text lies in the line, or in the file of the line.
    pub(crate) text: Range<usize>,
    /// The bits of a pattern's mode.
    pub(crate) mode: u32,
    /// The place of the text's first special byte.
    pub(crate) first_wildcard_pos: Option<usize>,
}

/// Reads a pattern line; `None` where it is blank.
pub(crate) fn parse(line: &[u8]) -> Option<Line> {
    let mut parts = Parts::new(b"", 0, None, Reading::Crate);
    // SAFETY: `line` is a slice, and `parts` is initialised, apart from it, and laid out as in the header.
    let has_pattern = unsafe { gix_glob_parse(line.as_ptr(), line.len(), &mut parts) };
    has_pattern.then(|| line_of(line, &parts))
}

/// Reads a pattern line as Git does.
pub(crate) fn parse_as_git(line: &[u8]) -> Line {
    let mut parts = Parts::new(b"", 0, None, Reading::Crate);
    // SAFETY: as in `parse`.
    unsafe { gix_glob_parse_as_git(line.as_ptr(), line.len(), &mut parts) };
    line_of(line, &parts)
}

/// The lines of an ignore file that have a pattern, as Git reads them, each with its number.
pub(crate) fn ignore_lines(file: &[u8]) -> impl Iterator<Item = (usize, Line)> {
    let mut lines = LineParts { rest: file.as_ptr(), rest_len: file.len(), number: 0 };
    std::iter::from_fn(move || {
        let mut parts = Parts::new(b"", 0, None, Reading::Crate);
        loop {
            // SAFETY: `lines` stays within the file, which is borrowed; it and `parts` are initialised, apart from each other, and
            // laid out as in the header.
            match unsafe { gix_glob_parse_ignore_line_as_git(&mut lines, &mut parts) } {
                END => return None,
                PATTERN => return Some((lines.number, line_of(file, &parts))),
                _ => {}
            }
        }
    })
}

/// The parts that were read of a line.
fn line_of(line: &[u8], parts: &Parts<'_>) -> Line {
    // The pointer isn't read through: who slices the line by the range has it checked.
    let start = parts.text.addr().wrapping_sub(line.as_ptr().addr());
    Line {
        text: start..start.wrapping_add(parts.text_len),
        mode: parts.mode,
        first_wildcard_pos: (parts.first_wildcard_pos != NONE).then_some(parts.first_wildcard_pos),
    }
}

/// Whether a pattern matches a path, by its reading.
pub(crate) fn matches_path(pattern: &Parts<'_>, path: &[u8], is_dir: bool, fold: bool) -> bool {
    // SAFETY: `pattern` is laid out as in the header, and its text is borrowed; `path` is a slice.
    unsafe { gix_glob_pattern_matches_path(pattern, path.as_ptr(), path.len(), is_dir, fold) }
}

/// Whether a pattern's text matches the whole of a value.
#[inline]
pub(crate) fn wildmatch(pattern: &[u8], value: &[u8], mode: u8) -> bool {
    // SAFETY: both are slices; any mode is allowed.
    unsafe { gix_glob_wildmatch(pattern.as_ptr(), pattern.len(), value.as_ptr(), value.len(), mode) }
}

/// Whether the text of a pattern that was read matches the whole of a value.
#[inline]
pub(crate) fn matches(text: &[u8], pattern_mode: u32, place: Option<usize>, value: &[u8], mode: u8) -> bool {
    let pattern = Parts::new(text, pattern_mode, place, Reading::Crate);
    // SAFETY: `pattern` is laid out as in the header, and its text is borrowed; `value` is a slice; any modes and any place are allowed,
    // also such as don't belong to the text.
    unsafe { gix_glob_matches(&pattern, value.as_ptr(), value.len(), mode) }
}

/// From how many patterns on a list is prepared: of realistic ones the first question then saves what that costs.
const PREPARED_FROM: usize = 24;

/// Lists as the library takes them. Their texts are borrowed.
pub(crate) struct Lists<'a> {
    lists: Vec<ListParts<'a>>,
    /// What `lists` points to: nothing of it is changed or moved any more.
    _patterns: Vec<Box<[Parts<'a>]>>,
    _blocks: Vec<Box<[u64]>>,
}

// SAFETY: what the pointers lead to is borrowed or owned for reading alone, so any thread may read it.
unsafe impl Send for Lists<'_> {}
// SAFETY: as above.
unsafe impl Sync for Lists<'_> {}

impl<'a> Lists<'a> {
    /// The lists of bases and patterns. Long ones are prepared.
    pub(crate) fn new(lists: impl Iterator<Item = (&'a [u8], Box<[Parts<'a>]>)>) -> Self {
        let (bases, patterns): (Vec<&[u8]>, Vec<_>) = lists.unzip();
        let mut lists: Vec<_> =
            bases.iter().zip(&patterns).map(|(base, patterns)| ListParts::new(patterns, base)).collect();
        let long = lists.iter_mut().filter(|list| list.count >= PREPARED_FROM);
        let blocks = long.filter_map(ListParts::prepare).collect();
        Lists { lists, _patterns: patterns, _blocks: blocks }
    }

    /// The places of the list and of the pattern that decide about a path in a work tree.
    pub(crate) fn decide_in_tree(&self, path: &[u8], is_dir: bool, fold: bool) -> Option<(usize, usize)> {
        let mut place = Place { list: 0, pattern: 0 };
        // SAFETY: the lists and the patterns and texts that they lead to live as long as `self`; `path` is a slice; `place` is
        // initialised, apart from them, and laid out as in the header.
        let decides = unsafe {
            gix_glob_decide_in_tree(
                self.lists.as_ptr(),
                self.lists.len(),
                path.as_ptr(),
                path.len(),
                is_dir,
                fold,
                &mut place,
            )
        };
        decides.then_some((place.list, place.pattern))
    }
}

/// Patterns, and what the library wrote for them.
pub(crate) struct Index<'a> {
    list: ListParts<'a>,
    /// What `list` points to: nothing of it is changed or moved any more.
    _patterns: Box<[Parts<'a>]>,
    _block: Box<[u64]>,
}

// SAFETY: as for lists.
unsafe impl Send for Index<'_> {}
// SAFETY: as above.
unsafe impl Sync for Index<'_> {}

impl<'a> Index<'a> {
    /// Prepares patterns; `None` where there are 2^32 or more.
    pub(crate) fn new(patterns: Box<[Parts<'a>]>) -> Option<Self> {
        let mut list = ListParts::new(&patterns, b"");
        let block = list.prepare()?;
        Some(Index { list, _patterns: patterns, _block: block })
    }

    /// The place of the last pattern that matches a path.
    pub(crate) fn last_match(&self, path: &[u8], is_dir: bool, fold: bool) -> Option<usize> {
        // SAFETY: what the list names lives as long as `self`, and is laid out as in the header; `path` is a slice.
        let place = unsafe { gix_glob_last_match(&self.list, path.as_ptr(), path.len(), is_dir, fold) };
        (place != NONE).then_some(place)
    }
}
