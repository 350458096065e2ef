//! A million random patterns, and as many lines, against the rules written plainly; then lists of them. `RANDOM_INPUTS` is another
//! number.
mod lines;
mod rules;

use gix_glob::decide::{Index, Lists};
use gix_glob::pattern::{Case, Mode};
use gix_glob::search::pattern::List;
use gix_glob::{Pattern, wildmatch};
use lines::Lines;
use rules::{FOLD, PATH};

/// Numbers from a seed, the same at each run.
struct Random(u64);

impl Random {
    fn below(&mut self, end: usize) -> usize {
        self.0 = self.0.wrapping_mul(6_364_136_223_846_793_005).wrapping_add(1_442_695_040_888_963_407);
        (self.0 >> 33) as usize % end
    }

    fn of<T: Copy>(&mut self, all: &[T]) -> T {
        all[self.below(all.len())]
    }
}

/// How many inputs are tried.
fn inputs() -> usize {
    std::env::var("RANDOM_INPUTS").map_or(1_000_000, |count| count.parse().expect("a number"))
}

/// Spellings, each with a text that it may stand for.
const PIECES: [(&str, &str); 38] = [
    ("a", "a"),
    ("A", "a"),
    ("b", "B"),
    ("z", "Z"),
    ("/", "/"),
    ("/", "/"),
    ("-", "-"),
    ("!", "!"),
    (":", ":"),
    ("]", "]"),
    ("[", "["),
    ("\\", "\\"),
    ("*", "ab"),
    ("*", ""),
    ("**", "a/b"),
    ("**/", "b/a/"),
    ("**/", ""),
    ("/**", "/a"),
    ("**\\/", "a/"),
    ("?", "z"),
    ("?", "/"),
    ("\\*", "*"),
    ("\\/", "/"),
    ("[ab]", "b"),
    ("[!a]", "z"),
    ("[^z]", "/"),
    ("[a-c]", "B"),
    ("[Z-y]", "z"),
    ("[_-a]", "q"),
    ("[]-]", "]"),
    ("[a-]", "-"),
    ("[\\a-[:]", "a"),
    ("[[:alpha:]]", "Q"),
    ("[[:upper:]-z]", "a"),
    ("[![:digit:]/]", "a"),
    ("[[:]", ":"),
    ("[[:x:]]", "x"),
    ("[--/]", "/"),
];

/// A pattern of a few pieces, and a value that it often matches.
fn pattern_and_value(random: &mut Random) -> (Vec<u8>, Vec<u8>) {
    let (mut pattern, mut value) = (Vec::new(), Vec::new());
    for _ in 0..random.below(6) {
        let (spelling, text) = random.of(&PIECES);
        pattern.extend_from_slice(spelling.as_bytes());
        value.extend_from_slice(text.as_bytes());
    }
    if random.below(2) == 0 && !value.is_empty() {
        let at = random.below(value.len());
        value[at] = random.of(b"abzAZ/-!:][*\\\0\xff");
    }
    (pattern, value)
}

#[test]
fn wildmatch_is_as_the_rules_say() {
    let mut random = Random(1);
    let mut matched = 0;
    for _ in 0..inputs() {
        let (pattern, value) = pattern_and_value(&mut random);
        let mode = random.below(4) as u8;
        let wanted = rules::matches(&pattern, &value, mode);
        let answer = gix_glob::wildmatch(
            pattern.as_slice().into(),
            value.as_slice().into(),
            wildmatch::Mode::from_bits_retain(mode),
        );
        assert_eq!(answer, wanted, "{} on {} in mode {mode}", pattern.escape_ascii(), value.escape_ascii());
        matched += usize::from(answer);
    }
    assert!((inputs() / 5..inputs() / 5 * 4).contains(&matched), "{matched} matched");
}

#[test]
fn lines_are_read_and_matched_as_the_rules_say() {
    let mut random = Random(2);
    for _ in 0..inputs() {
        let (text, path) = pattern_and_value(&mut random);
        let front = random.of(&["", "", "!", "/", "!/", "\\!", "\\#", "!\\!", " "]);
        let line = [front.as_bytes(), &text, random.of(&["", "/", " "]).as_bytes()].concat();
        for may_alter in [true, false] {
            let pattern =
                if may_alter { Pattern::from_bytes(&line) } else { Pattern::from_bytes_without_negation(&line) };
            let parts = pattern.as_ref().map(|it| (&it.text[..], it.mode.bits(), it.first_wildcard_pos));
            let wanted = rules::reading(&line, may_alter);
            assert_eq!(parts, wanted, "{}", line.escape_ascii());
            if let Some(pattern) = pattern {
                matches_as_the_rules_say(&pattern, &path, &mut random);
            }
        }
    }
}

/// Asks a pattern about a value and, where it is one, about a path.
fn matches_as_the_rules_say(pattern: &Pattern, value: &[u8], random: &mut Random) {
    let bits = random.below(4) as u8;
    let mode = wildmatch::Mode::from_bits_retain(bits);
    let wanted = rules::matches(&pattern.text, value, bits);
    assert_eq!(pattern.matches(value.into(), mode), wanted, "{pattern} on {}", value.escape_ascii());
    if value.starts_with(b"/") {
        return;
    }
    let start = value.iter().rposition(|&byte| byte == b'/').map(|slash| slash + 1);
    let case = random.of(&[Case::Sensitive, Case::Fold]);
    let is_dir = random.of(&[None, Some(false), Some(true)]);
    let wanted = answers(pattern, value, is_dir, case, bits);
    let answer = pattern.matches_repo_relative_path(value.into(), start, is_dir, case, mode);
    assert_eq!(answer, wanted, "{pattern} on the path {}", value.escape_ascii());
}

/// Whether a pattern matches a path, by the rules.
fn answers(pattern: &Pattern, path: &[u8], is_dir: Option<bool>, case: Case, bits: u8) -> bool {
    let is_for_the_name = pattern.mode.contains(Mode::NO_SUB_DIR) && !pattern.mode.contains(Mode::ABSOLUTE);
    let name = path.rsplit(|&byte| byte == b'/').next().filter(|_| is_for_the_name);
    let folded = if case == Case::Fold { FOLD } else { 0 };
    (is_dir == Some(true) || !pattern.mode.contains(Mode::MUST_BE_DIR))
        && rules::matches(&pattern.text, name.unwrap_or(path), bits | folded)
}

/// The place of the last pattern that matches a path, by the rules.
fn last_match(list: &List<Lines>, path: &[u8], is_dir: bool, case: Case) -> Option<usize> {
    list.patterns.iter().rposition(|it| answers(&it.pattern, path, Some(is_dir), case, PATH))
}

/// The place of the pattern that decides about a path in a work tree, by the rules.
fn decided_in_tree(list: &List<Lines>, path: &[u8], is_dir: bool, case: Case) -> Option<usize> {
    let folders = (0..path.len()).filter(|&at| path[at] == b'/');
    let mut above = folders.filter_map(|end| last_match(list, &path[..end], true, case));
    above.find(|&at| !list.patterns[at].pattern.is_negative()).or_else(|| last_match(list, path, is_dir, case))
}

/// Whether the calls of `decide` take a path.
fn is_plain(path: &[u8]) -> bool {
    path.split(|&byte| byte == b'/').all(|part| !part.is_empty())
}

#[test]
fn lists_decide_as_the_rules_say() {
    let mut random = Random(3);
    let (mut found, mut differ) = (0, 0);
    for _ in 0..inputs() / 200 {
        let (mut file, mut paths) = (Vec::new(), Vec::new());
        for _ in 0..random.below(40) {
            let (line, path) = pattern_and_value(&mut random);
            file.extend([random.of(&["", "", "!", "/", "a"]).as_bytes(), &line, b"\n"].concat());
            paths.push(path);
        }
        let lists = [List::from_bytes(&file, "file".into(), None, Lines)];
        let (index, laid_out) = (Index::new(&lists[0]).expect("few patterns"), Lists::new(&lists));
        for path in &paths {
            let (is_dir, case) = (random.of(&[false, true]), random.of(&[Case::Sensitive, Case::Fold]));
            let alone = last_match(&lists[0], path, is_dir, case).filter(|_| is_plain(path));
            let in_tree = decided_in_tree(&lists[0], path, is_dir, case).filter(|_| is_plain(path));
            let line_at = |at: Option<usize>| at.map(|at| lists[0].patterns[at].sequence_number);
            let shown = || format!("{} on {}", file.escape_ascii(), path.escape_ascii());
            let answer = index.last_match(path.as_slice().into(), is_dir, case);
            assert_eq!(answer.map(|it| it.sequence_number), line_at(alone), "{}", shown());
            let answer = laid_out.decide_in_tree(path.as_slice().into(), is_dir, case);
            assert_eq!(answer.map(|(_, it)| it.sequence_number), line_at(in_tree), "{}", shown());
            found += usize::from(alone.is_some());
            differ += usize::from(alone != in_tree);
        }
    }
    assert!(found > inputs() / 100 && differ > inputs() / 1000, "{found} found, {differ} differ");
}
