//! Calls the C library, and the binding for Rust, on the same inputs, for rust.py to count.
#[allow(dead_code)]
mod work;

use gix_glob::pattern::{Case, Mode};
use gix_glob::{Pattern, wildmatch};
use std::hint::black_box;

/// `struct gix_glob_pattern`.
#[repr(C)]
struct Parts {
    text: *const u8,
    text_len: usize,
    first_wildcard_pos: usize,
    mode: u32,
    reading: u32,
}

unsafe extern "C" {
    fn gix_glob_wildmatch(pattern: *const u8, pattern_len: usize, value: *const u8, value_len: usize, mode: u8) -> bool;
    fn gix_glob_matches(pattern: *const Parts, value: *const u8, value_len: usize, mode: u8) -> bool;
}

/// A path, and where its last part begins.
struct Path {
    bytes: Vec<u8>,
    basename_start: Option<usize>,
}

/// Whether a pattern matches a path that isn't a directory's.
type Decision = fn(&Pattern, &Path, Case) -> bool;

/// By the C library, as a program in C would ask it: the caller picks the part of the path.
fn by_c(line: &Pattern, path: &Path, case: Case) -> bool {
    if line.mode.contains(Mode::MUST_BE_DIR) {
        return false;
    }
    let is_for_name = line.mode.contains(Mode::NO_SUB_DIR) && !line.mode.contains(Mode::ABSOLUTE);
    let start = path.basename_start.filter(|_| is_for_name).unwrap_or(0);
    let value = &path.bytes[start..];
    let first_wildcard_pos = line.first_wildcard_pos.unwrap_or(usize::MAX);
    let parts = Parts { text: line.text.as_ptr(), text_len: line.text.len(), first_wildcard_pos, mode: line.mode.bits(), reading: 0 };
    let mode = if case == Case::Fold { work::PATH | work::FOLD } else { work::PATH };
    unsafe { gix_glob_matches(&parts, value.as_ptr(), value.len(), mode) }
}

/// By the binding.
fn by_rust(line: &Pattern, path: &Path, case: Case) -> bool {
    let mode = wildmatch::Mode::NO_MATCH_SLASH_LITERAL;
    line.matches_repo_relative_path(path.bytes.as_slice().into(), path.basename_start, Some(false), case, mode)
}

/// Each line on each path.
fn decide(decision: Decision, case: Case) -> (u64, u64) {
    let lines: Vec<_> = work::lines().iter().filter_map(|line| Pattern::from_bytes(line)).collect();
    let paths = work::paths(1000).into_iter().map(|bytes| Path {
        basename_start: bytes.iter().rposition(|&byte| byte == b'/').map(|slash| slash + 1),
        bytes,
    });
    let (mut yes, mut calls) = (0, 0);
    for path in paths {
        for line in &lines {
            yes += u64::from(decision(black_box(line), black_box(&path), case));
            calls += 1;
        }
    }
    (yes, calls)
}

/// Whether a text matches a value.
type Match = fn(&[u8], &[u8], u8) -> bool;

/// Each text of a load on each of its values.
fn matches(engine: Match, load: &str) -> (u64, u64) {
    let all = work::loads();
    let load = all.iter().find(|it| it.name == load).expect("a load");
    let (mut yes, mut calls) = (0, 0);
    for case in &load.cases {
        for value in &case.values {
            for pattern in &case.patterns {
                yes += u64::from(engine(black_box(pattern.bytes()), black_box(value.bytes()), case.mode));
                calls += 1;
            }
        }
    }
    (yes, calls)
}

fn main() {
    let words: Vec<String> = std::env::args().skip(1).collect();
    let [kind, by, load, rounds] = words.iter().map(String::as_str).collect::<Vec<_>>()[..] else {
        panic!("decide | match, c | rust | nothing, LOAD, ROUNDS")
    };
    let case = if load == "lines" { Case::Sensitive } else { Case::Fold };
    let decision: Decision = match by {
        "c" => by_c,
        "rust" => by_rust,
        _ => |_, _, _| false,
    };
    let engine: Match = match by {
        "c" => |p, v, m| unsafe { gix_glob_wildmatch(p.as_ptr(), p.len(), v.as_ptr(), v.len(), m) },
        "rust" => |p, v, m| gix_glob::wildmatch(p.into(), v.into(), wildmatch::Mode::from_bits_retain(m)),
        _ => |_, _, _| false,
    };
    let mut last = (0, 0);
    for _ in 0..rounds.parse::<u32>().expect("a number of rounds") {
        last = if kind == "decide" { decide(decision, case) } else { matches(engine, load) };
    }
    eprintln!("{} say yes", last.0);
    println!("{}", last.1);
}
