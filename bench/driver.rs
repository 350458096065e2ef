//! Calls the Rust crate's matcher, this repository's and Git's on the same inputs, for matcher.py to count.
mod work;

use std::hint::black_box;
use upstream::wildmatch::Mode;

/// `struct gix_glob_pattern`.
#[repr(C)]
struct Parts {
    text: *const u8,
    text_len: usize,
    first_wildcard_pos: usize,
    mode: u32,
    reading: u32,
}

unsafe extern "C" {
    fn gix_glob_wildmatch(pattern: *const u8, pattern_len: usize, value: *const u8, value_len: usize, mode: u8) -> bool;
    fn gix_glob_matches(pattern: *const Parts, value: *const u8, value_len: usize, mode: u8) -> bool;
    #[cfg(git)]
    fn wildmatch(pattern: *const u8, text: *const u8, flags: u32) -> i32;
}

type Engine = fn(&[u8], &[u8], u8) -> bool;
type Matcher = fn(&upstream::Pattern, &[u8], u8) -> bool;

/// Whether a text matches a value. The first engine is the one that others are compared with, the third does nothing.
const ENGINES: &[(&str, Engine)] = &[
    ("crate", |p, v, m| upstream::wildmatch(p.into(), v.into(), Mode::from_bits_retain(m))),
    ("here", |p, v, m| unsafe { gix_glob_wildmatch(p.as_ptr(), p.len(), v.as_ptr(), v.len(), m) }),
    ("nothing", |_, _, _| false),
    // both texts end with a NUL; its flags are ours, the other way round
    #[cfg(git)]
    ("git", |p, v, m| unsafe { wildmatch(p.as_ptr(), v.as_ptr(), (m >> 1 | (m & 1) << 1).into()) } == 0),
];

/// Whether a parsed pattern matches a value, by its shortcuts.
const MATCHERS: [(&str, Matcher); 3] = [
    ("crate", |l, v, m| l.matches(v.into(), Mode::from_bits_retain(m))),
    ("here", |l, v, m| {
        let first_wildcard_pos = l.first_wildcard_pos.unwrap_or(usize::MAX);
        let parts = Parts { text: l.text.as_ptr(), text_len: l.text.len(), first_wildcard_pos, mode: l.mode.bits(), reading: 0 };
        unsafe { gix_glob_matches(&parts, v.as_ptr(), v.len(), m) }
    }),
    ("nothing", |_, _, _| false),
];

/// The parsed lines on the paths, as `matches_repo_relative_path` picks the part of the path.
fn run_lines(m: Matcher, lines: &[upstream::Pattern], paths: &[Vec<u8>], mode: u8) -> (u64, u64) {
    use upstream::pattern::Mode;
    let (mut yes, mut calls) = (0, 0);
    for path in paths {
        let base = path.iter().rposition(|b| *b == b'/').map_or(0, |i| i + 1);
        for l in lines {
            let on_base = l.mode.contains(Mode::NO_SUB_DIR) && !l.mode.contains(Mode::ABSOLUTE);
            let value = if on_base { &path[base..] } else { &path[..] };
            yes += m(black_box(l), black_box(value), mode) as u64;
            calls += 1;
        }
    }
    (yes, calls)
}

fn run(e: Engine, cases: &[work::Case]) -> (u64, u64) {
    let (mut yes, mut calls) = (0, 0);
    for c in cases {
        for v in &c.values {
            for p in &c.patterns {
                yes += e(black_box(p.bytes()), black_box(v.bytes()), c.mode) as u64;
                calls += 1;
            }
        }
    }
    (yes, calls)
}

fn main() {
    let args: Vec<String> = std::env::args().skip(1).collect();
    let mut all = work::loads();
    match args.iter().map(String::as_str).collect::<Vec<_>>()[..] {
        // one engine and load, N times: for instruction counts, as the difference of two N
        ["count", engine, load, n] => {
            let e = ENGINES.iter().find(|e| e.0 == engine).expect("engine").1;
            let w = all.iter_mut().find(|w| w.name == load).expect("load");
            if engine == "git" {
                w.cases.iter_mut().for_each(work::Case::end_with_nul);
            }
            let n: u32 = n.parse().unwrap();
            let mut calls = 0;
            for _ in 0..n {
                calls = run(e, &w.cases).1;
            }
            println!("{calls}");
        }
        // where answers differ from the first engine's
        ["agree"] => {
            for w in &all {
                for (name, e) in &ENGINES[1..2] {
                    let mut differ = vec![];
                    let mut calls = 0;
                    for c in &w.cases {
                        for v in &c.values {
                            for p in &c.patterns {
                                calls += 1;
                                if e(p.bytes(), v.bytes(), c.mode) != ENGINES[0].1(p.bytes(), v.bytes(), c.mode) {
                                    differ.push((p.bytes(), v.bytes(), c.mode));
                                }
                            }
                        }
                    }
                    if !differ.is_empty() {
                        println!("{name} {}: {} of {calls}", w.name, differ.len());
                    }
                    for (p, v, m) in differ.iter().take(5) {
                        println!("  {:?} {:?} mode {m}", show(p), show(v));
                    }
                }
            }
        }
        // where answers differ from the first engine's on random inputs
        ["fuzz", n, seed] => {
            let n: usize = n.parse().unwrap();
            for (name, e) in &ENGINES[1..2] {
                let (mut differ, mut yes) = (0, 0);
                for (p, v, m) in work::fuzz(seed.parse().unwrap()).take(n) {
                    let is = ENGINES[0].1(p.bytes(), v.bytes(), m);
                    yes += is as u32;
                    if e(p.bytes(), v.bytes(), m) != is {
                        differ += 1;
                        if differ <= 5 {
                            println!("  {name}: {:?} {:?} mode {m}, the crate {is}", show(p.bytes()), show(v.bytes()));
                        }
                    }
                }
                println!("{name}: {differ} of {n} random inputs ({yes} say yes)");
            }
        }
        // parsed patterns
        ["count_lines", matcher, load, n] => {
            let m = MATCHERS.iter().find(|m| m.0 == matcher).expect("matcher").1;
            let lines: Vec<_> = work::lines().iter().filter_map(|l| upstream::Pattern::from_bytes(l)).collect();
            let paths = work::paths(1000);
            let mut calls = 0;
            for _ in 0..n.parse::<u32>().unwrap() {
                calls = run_lines(m, &lines, &paths, if load == "lines" { work::PATH } else { work::PATH | work::FOLD }).1;
            }
            println!("{calls}");
        }
        // one engine and hostile input of a size
        ["count_hostile", engine, load, size, n] => {
            let e = ENGINES.iter().find(|e| e.0 == engine).expect("engine").1;
            let case = work::hostile(load, size.parse().unwrap());
            let mut calls = 0;
            for _ in 0..n.parse::<u32>().unwrap() {
                calls = run(e, std::slice::from_ref(&case)).1;
            }
            println!("{calls}");
        }
        _ => panic!("agree | fuzz N SEED | count ENGINE LOAD N | count_lines MATCHER LOAD N | count_hostile ENGINE LOAD SIZE N"),
    }
}

fn show(b: &[u8]) -> String {
    let s = String::from_utf8_lossy(b);
    if s.len() > 60 { format!("{}.. ({})", &s[..60], s.len()) } else { s.into_owned() }
}
