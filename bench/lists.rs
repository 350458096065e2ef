//! Asks a list about paths, by the C library and by the binding for Rust, for rust.py to count: WHAT FOLDER ROUNDS, where FOLDER has
//! the patterns and the paths that `lists.py --make` writes. Behind what is asked of the C library, `_as_git` has the patterns read so.
use gix_glob::decide::{Index, Lists};
use gix_glob::pattern::Case;
use gix_glob::search::{self, pattern::{List, Mapping}};
use std::hint::black_box;
use std::path::Path;

/// `struct gix_glob_pattern`.
#[repr(C)]
struct Parts {
    text: *const u8,
    text_len: usize,
    first_wildcard_pos: usize,
    mode: u32,
    reading: u32,
}

/// `GIX_GLOB_AS_CRATE` and `GIX_GLOB_AS_GIT`.
const AS_CRATE: u32 = 0;
const AS_GIT: u32 = 1;

/// `struct gix_glob_list`.
#[repr(C)]
struct Listed {
    patterns: *const Parts,
    count: usize,
    base: *const u8,
    base_len: usize,
    rows: *const u64,
    row_count: usize,
    heads: *const u64,
    head_count: usize,
}

unsafe extern "C" {
    fn gix_glob_last_match(list: *const Listed, path: *const u8, path_len: usize, is_dir: bool, fold: bool) -> usize;
    fn gix_glob_prepared_size(count: usize) -> usize;
    fn gix_glob_rows_at() -> usize;
    fn gix_glob_prepare(patterns: *const Parts, count: usize, rows: *mut u64, row_count: usize, heads: *mut u64) -> bool;
    fn gix_glob_decide_in_tree(lists: *const Listed, count: usize, path: *const u8, path_len: usize, is_dir: bool, fold: bool, out: *mut [usize; 2]) -> bool;
}

/// Reads each line as a pattern.
#[derive(Clone, PartialEq, Eq, Debug, Hash, PartialOrd, Ord, Default)]
struct Lines;

impl search::Pattern for Lines {
    type Value = ();

    fn bytes_to_patterns(&self, bytes: &[u8], _source: &Path) -> Vec<Mapping<()>> {
        let patterns = lines(bytes).filter_map(gix_glob::Pattern::from_bytes);
        patterns.map(|pattern| Mapping { pattern, value: (), sequence_number: 0 }).collect()
    }
}

fn lines(bytes: &[u8]) -> impl Iterator<Item = &[u8]> {
    bytes.split(|&byte| byte == b'\n').filter(|line| !line.is_empty())
}

fn main() {
    let words: Vec<String> = std::env::args().skip(1).collect();
    let [what, folder, rounds] = words.iter().map(String::as_str).collect::<Vec<_>>()[..] else {
        panic!("nothing | prepare | c_in_turn | c_index | rust_index | c_tree | c_prepared_tree | rust_tree, FOLDER, ROUNDS")
    };
    let (what, reading) = what.strip_suffix("_as_git").map_or((what, AS_CRATE), |what| (what, AS_GIT));
    let [patterns, paths] = ["patterns", "paths"].map(|name| std::fs::read(format!("{folder}/{name}")).expect("a file"));
    let paths: Vec<&[u8]> = lines(&paths).collect();
    let list = List::from_bytes(&patterns, "patterns".into(), None, Lines);
    let as_git: Vec<_> = lines(&patterns).map(gix_glob::Pattern::from_git_line).collect();
    let parts: Vec<Parts> = match reading {
        AS_GIT => as_git.iter().map(|it| parts_of(it, reading)).collect(),
        _ => list.patterns.iter().map(|it| parts_of(&it.pattern, reading)).collect(),
    };
    let mut block = vec![0u64; unsafe { gix_glob_prepared_size(parts.len()) }.div_ceil(8)];
    let heads = block.as_mut_ptr();
    let rows = unsafe { heads.byte_add(gix_glob_rows_at()) };
    let prepare = || unsafe { gix_glob_prepare(parts.as_ptr(), parts.len(), rows, parts.len(), heads) };
    assert!(prepare());
    let rounds = rounds.parse::<u32>().expect("a number of rounds");
    if what == "prepare" {
        assert!((0..rounds).all(|_| black_box(prepare())));
        println!("{}", parts.len());
        return;
    }
    let (base, base_len) = (b"".as_ptr(), 0);
    let prepared = Listed { patterns: parts.as_ptr(), count: parts.len(), base, base_len, rows, row_count: parts.len(), heads, head_count: 1 };
    let listed = Listed { row_count: 0, head_count: 0, ..prepared };
    let index = Index::new(&list).expect("an index");
    let lists = Lists::new(std::slice::from_ref(&list));
    let ask: &dyn Fn(&[u8]) -> bool = match what {
        "c_in_turn" => &|it| unsafe { gix_glob_last_match(&listed, it.as_ptr(), it.len(), false, false) } != usize::MAX,
        "c_index" => &|it| unsafe { gix_glob_last_match(&prepared, it.as_ptr(), it.len(), false, false) } != usize::MAX,
        "rust_index" => &|it| index.last_match(it.into(), false, Case::Sensitive).is_some(),
        "c_prepared_tree" => &|it| unsafe { gix_glob_decide_in_tree(&prepared, 1, it.as_ptr(), it.len(), false, false, &mut [0; 2]) },
        "c_tree" => &|it| unsafe { gix_glob_decide_in_tree(&listed, 1, it.as_ptr(), it.len(), false, false, &mut [0; 2]) },
        "rust_tree" => &|it| lists.decide_in_tree(it.into(), false, Case::Sensitive).is_some(),
        _ => &|_| false,
    };
    let mut yes = 0;
    for _ in 0..rounds {
        yes = paths.iter().filter(|path| ask(black_box(path))).count();
    }
    eprintln!("{yes} say yes");
    println!("{}", paths.len());
}

/// The parts of a pattern, as C keeps them.
fn parts_of(pattern: &gix_glob::Pattern, reading: u32) -> Parts {
    Parts {
        text: pattern.text.as_ptr(),
        text_len: pattern.text.len(),
        first_wildcard_pos: pattern.first_wildcard_pos.unwrap_or(usize::MAX),
        mode: pattern.mode.bits(),
        reading,
    }
}
