//! The root of gix-glob for the benchmark: its modules are read where they lie, and nothing is copied.
//! `search` is left out.
use bstr::BString;

#[derive(PartialEq, Eq, Debug, Hash, Ord, PartialOrd, Clone)]
pub struct Pattern {
    pub text: BString,
    pub mode: pattern::Mode,
    pub first_wildcard_pos: Option<usize>,
}
include!(concat!(env!("BENCH_OUT"), "/upstream_mods.rs"));
pub use wildmatch::function::wildmatch;
