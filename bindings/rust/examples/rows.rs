//! Answers rows by the binding for Rust: `tools/vectors PROGRAM`. Of several calls that answer a question all are asked: where they
//! don't agree, the answer is `differs`. What no call answers is `?`. `tools/vectors --git PROGRAM as-git` asks the rows of work trees,
//! of files that are read as Git reads them.
use std::env;
use std::io::{self, BufRead, Write};
use std::panic;
use std::path::Path;

use gix_glob::decide::{Index, Lists, Reading};
use gix_glob::pattern::{self, Case};
use gix_glob::search::pattern::{List, Mapping, strip_base_handle_recompute_basename_pos};
use gix_glob::wildmatch::Mode;
use gix_glob::{Pattern, search, wildmatch};

type Field = Option<Vec<u8>>;

/// A parser of one pattern a line, which may read as Git does.
#[derive(Clone, PartialEq, Eq, Debug, Hash, PartialOrd, Ord, Default)]
struct Lines<const AS_GIT: bool>;

const LINES: Lines<false> = Lines;

impl<const AS_GIT: bool> search::Pattern for Lines<AS_GIT> {
    type Value = ();

    const READING: Reading = if AS_GIT { Reading::Git } else { Reading::Crate };

    fn bytes_to_patterns(&self, bytes: &[u8], _source: &Path) -> Vec<Mapping<()>> {
        // (a line without bytes has no pattern in a file)
        let as_git = |line: &[u8]| (!line.is_empty()).then(|| Pattern::from_git_line(line));
        let lines = bytes.split(|&byte| byte == b'\n').zip(1..);
        let read = |(line, sequence_number)| {
            let pattern = if AS_GIT { as_git(line) } else { Pattern::from_bytes(line) }?;
            Some(Mapping { pattern, value: (), sequence_number })
        };
        lines.filter_map(read).collect()
    }
}

// ---- fields

/// The field of its spelling.
fn read(spelling: &[u8]) -> Field {
    if spelling == b"\\N" {
        return None;
    }
    let mut bytes = Vec::new();
    let mut rest = spelling;
    while let Some((&first, behind)) = rest.split_first() {
        let (byte, left) = match rest {
            [b'\\', b'x', high, low, left @ ..] => (16 * digit(*high) + digit(*low), left),
            [b'\\', byte, left @ ..] => (*byte, left),
            _ => (first, behind),
        };
        bytes.push(byte);
        rest = left;
    }
    Some(bytes)
}

fn digit(sign: u8) -> u8 {
    if sign.is_ascii_digit() { sign - b'0' } else { sign - b'a' + 10 }
}

/// How a field of bytes is spelt.
fn spelt(bytes: &[u8]) -> String {
    let last = bytes.len().saturating_sub(1);
    let sign = |(at, byte): (usize, &u8)| match byte {
        b'\\' => "\\\\".to_string(),
        b' ' if at == 0 || at == last => "\\x20".to_string(),
        b' '..=b'~' => char::from(*byte).to_string(),
        _ => format!("\\x{byte:02x}"),
    };
    bytes.iter().enumerate().map(sign).collect()
}

fn told(is_so: bool) -> String {
    if is_so { "yes" } else { "no" }.to_string()
}

/// The answer of calls that have to agree.
fn agreed(is_so: bool, others: &[bool]) -> String {
    if others.iter().all(|&other| other == is_so) { told(is_so) } else { "differs".to_string() }
}

fn place(place: Option<usize>) -> String {
    place.map_or("\\N".to_string(), |place| place.to_string())
}

fn mode_of(field: &Field) -> Option<Mode> {
    match field.as_deref()? {
        b"plain" => Some(Mode::empty()),
        b"path" => Some(Mode::NO_MATCH_SLASH_LITERAL),
        b"fold" => Some(Mode::IGNORE_CASE),
        b"path+fold" => Some(Mode::NO_MATCH_SLASH_LITERAL | Mode::IGNORE_CASE),
        _ => None,
    }
}

fn case_of(field: &Field) -> Case {
    if field.as_deref() == Some(b"fold") { Case::Fold } else { Case::Sensitive }
}

fn number_of(field: &Field) -> Option<usize> {
    std::str::from_utf8(field.as_deref()?).ok()?.parse().ok()
}

fn path_of(bytes: &[u8]) -> Option<&Path> {
    std::str::from_utf8(bytes).ok().map(Path::new)
}

/// The lines of bytes, without what is behind the last line feed where nothing is.
fn lines_of(bytes: &[u8]) -> impl Iterator<Item = &[u8]> {
    bytes.split_inclusive(|&byte| byte == b'\n').map(|line| line.strip_suffix(b"\n").unwrap_or(line))
}

/// A path as a row has it, and whether it is a directory's, for which it ends in a slash; `None` where it isn't one below the top.
fn below_top(path: &[u8]) -> Option<(&[u8], bool)> {
    let (path, is_dir) = path.strip_suffix(b"/").map_or((path, false), |path| (path, true));
    path.split(|&byte| byte == b'/').all(|part| !part.is_empty()).then_some((path, is_dir))
}

// ---- patterns

fn text_matched(text: &[u8], value: &[u8], mode: Mode) -> String {
    let is_special = |byte: &u8| b"*?[\\".contains(byte);
    let first_wildcard_pos = text.iter().position(is_special);
    let is_suffix = text.first() == Some(&b'*') && !text[1..].iter().any(is_special);
    let bits = if is_suffix { pattern::Mode::ENDS_WITH } else { pattern::Mode::empty() };
    let made = Pattern { text: text.into(), mode: bits, first_wildcard_pos };
    agreed(wildmatch(text.into(), value.into(), mode), &[made.matches(value.into(), mode)])
}

fn line_matched(line: &[u8], value: &[u8], mode: Mode) -> Option<String> {
    let read = Pattern::from_bytes(line)?;
    let is_matched = read.matches(value.into(), mode);
    Some(agreed(is_matched, &[wildmatch(read.text.as_slice().into(), value.into(), mode)]))
}

fn pattern_read(how: &Field, line: &[u8]) -> String {
    let is_line = how.as_deref() == Some(b"line");
    let read = if is_line { Pattern::from_bytes(line) } else { Pattern::from_bytes_without_negation(line) };
    if is_line && gix_glob::parse(line) != read {
        return "differs".to_string();
    }
    read.map_or("\\N\t\\N\t\\N".to_string(), |it| parts(&it))
}

fn parts(pattern: &Pattern) -> String {
    format!("{}\t{}\t{}", spelt(&pattern.text), pattern.mode.bits(), place(pattern.first_wildcard_pos))
}

fn path_matched(fields: &[Field]) -> Option<String> {
    let [case, mode, line, path, start, kind] = fields else { return None };
    let is_dir = match kind.as_deref()? {
        b"file" => Some(false),
        b"folder" => Some(true),
        _ => None,
    };
    let (line, path, start) = (line.as_deref()?, path.as_deref()?, number_of(start));
    let (case, mode) = (case_of(case), mode_of(mode)?);
    let is_matched = Pattern::from_bytes(line)?.matches_repo_relative_path(path.into(), start, is_dir, case, mode);
    // (an index always matches as `path` does, and finds the last part itself)
    let last = path.iter().rposition(|&byte| byte == b'/').map(|slash| slash + 1);
    let is_known = mode == Mode::NO_MATCH_SLASH_LITERAL && start == last && below_top(path) == Some((path, false));
    let list = List::from_bytes(line, "file".into(), None, LINES);
    let found = is_dir.filter(|_| is_known).map(|is_dir| Index::new(&list)?.last_match(path.into(), is_dir, case));
    Some(agreed(is_matched, found.map(|found| found.is_some()).as_slice()))
}

fn path_matched_as_git(fields: &[Field]) -> Option<String> {
    let [case, line, path, start, kind] = fields else { return None };
    let (line, path, is_dir) = (line.as_deref()?, path.as_deref()?, kind.as_deref()? == b"folder");
    let last = path.iter().rposition(|&byte| byte == b'/').map(|slash| slash + 1);
    // (the calls know the kind, and find the last part themselves)
    if kind.as_deref() == Some(b"unknown") || number_of(start) != last || below_top(path) != Some((path, false)) {
        return None;
    }
    let case = case_of(case);
    let is_matched = Pattern::from_git_line(line).matches_path_as_git(path.into(), is_dir, case);
    let list = List::from_bytes(line, "file".into(), None, Lines::<true>);
    Some(agreed(is_matched, &[Index::new(&list)?.last_match(path.into(), is_dir, case).is_some()]))
}

// ---- lists

fn base_of(source: &[u8], root: &Field) -> Option<String> {
    let root = root.as_deref().map(path_of);
    let list = List::from_bytes(b"", path_of(source)?.into(), root.flatten(), LINES);
    Some(list.base.map_or("\\N".to_string(), |base| spelt(&base)))
}

/// Whether a source has a file part: where it has none, the call panics.
fn has_file_part(source: &[u8]) -> Option<String> {
    let source = path_of(source)?.to_path_buf();
    let made = panic::catch_unwind(|| List::from_bytes(b"", source, Some(Path::new("")), LINES));
    Some(told(made.is_ok()))
}

fn stripped(fields: &[Field]) -> Option<String> {
    let [case, base, path, start] = fields else { return None };
    let (base, start) = (base.as_deref()?, number_of(start));
    // (a last part that begins within the base panics)
    if start.is_some_and(|start| start < base.len()) {
        return None;
    }
    let left = strip_base_handle_recompute_basename_pos(base.into(), path.as_deref()?.into(), start, case_of(case));
    Some(left.map_or("\\N\t\\N".to_string(), |(rest, start)| format!("{}\t{}", spelt(rest), place(start))))
}

/// The numbers of the lines that match each path.
fn listed(fields: &[Field]) -> Option<String> {
    let [case, source, root, patterns, paths] = fields else { return None };
    let root = root.as_deref().map(path_of);
    let list = List::from_bytes(patterns.as_deref()?, path_of(source.as_deref()?)?.into(), root.flatten(), LINES);
    let mut text = String::new();
    for line in lines_of(paths.as_deref()?) {
        text += &below_top(line).map_or("!".to_string(), |(path, is_dir)| numbers(&list, path, is_dir, case_of(case)));
        text += "\n";
    }
    Some(spelt(text.as_bytes()))
}

fn numbers(list: &List<Lines<false>>, path: &[u8], is_dir: bool, case: Case) -> String {
    let start = path.iter().rposition(|&byte| byte == b'/').map(|slash| slash + 1);
    let base = list.base.as_ref().map_or(0, |base| base.len());
    let start = start.filter(|&start| start >= base);
    let Some((rest, start)) = list.strip_base_handle_recompute_basename_pos(path.into(), start, case) else {
        return String::new();
    };
    let is_matched = |mapping: &&Mapping<()>| {
        let mode = Mode::NO_MATCH_SLASH_LITERAL;
        mapping.pattern.matches_repo_relative_path(rest, start, Some(is_dir), case, mode)
    };
    let found = list.patterns.iter().filter(is_matched);
    found.map(|mapping| mapping.sequence_number.to_string()).collect::<Vec<_>>().join(" ")
}

/// The lists of ignore files, two fields for each; `None` where a line has to be read as one of an ignore file, which is the
/// business of the crate's caller.
fn lists_of<const AS_GIT: bool>(files: &[Field]) -> Option<Vec<List<Lines<AS_GIT>>>> {
    let list = |file: &[Field]| {
        let bytes = file[1].as_deref()?;
        let is_ended = |line: &[u8]| line.ends_with(b" ") || line.ends_with(b"\r") || AS_GIT && line.contains(&0);
        let is_more = |line: &[u8]| line.starts_with(b"#") || is_ended(line);
        if bytes.starts_with(b"\xef\xbb\xbf") || lines_of(bytes).any(is_more) {
            return None;
        }
        let mut list = List::from_bytes(bytes, "file".into(), None, Lines);
        list.base = file[0].as_deref().map(Into::into);
        Some(list)
    };
    files.chunks_exact(2).map(list).collect()
}

/// Which line of which list it is, both from 1.
fn numbered<T: search::Pattern>(lists: &[List<T>], list: &List<T>, mapping: &Mapping<T::Value>) -> String {
    let at = lists.iter().position(|it| std::ptr::eq(it, list)).map_or(0, |at| at + 1);
    format!("{at}:{}", mapping.sequence_number)
}

fn decided(fields: &[Field]) -> Option<String> {
    let (case, lists) = (case_of(fields.first()?), lists_of::<false>(fields.get(2..)?)?);
    let indices: Vec<_> = lists.iter().map(Index::new).collect::<Option<_>>()?;
    let mut text = String::new();
    for line in lines_of(fields.get(1)?.as_deref()?) {
        text += &below_top(line).map_or("!".to_string(), |(path, is_dir)| {
            let mut found = lists.iter().zip(&indices).rev().filter_map(|(list, index)| {
                let mapping = index.last_match(path.into(), is_dir, case)?;
                let word = if mapping.pattern.is_negative() { "kept" } else { "ignored" };
                Some(format!("{word} {}", numbered(&lists, list, mapping)))
            });
            found.next().unwrap_or("none".to_string())
        });
        text += "\n";
    }
    Some(spelt(text.as_bytes()))
}

/// Which line decides about a path in a work tree, of the files in the fields from `first` on.
fn decided_in_tree<const AS_GIT: bool>(fields: &[Field], first: usize) -> Option<String> {
    let lists = lists_of::<AS_GIT>(fields.get(first..)?)?;
    let (path, is_dir) = below_top(fields.get(first - 1)?.as_deref()?)?;
    let found = Lists::new(&lists).decide_in_tree(path.into(), is_dir, case_of(&fields[0]));
    Some(found.map_or("\\N".to_string(), |(list, mapping)| numbered(&lists, list, mapping)))
}

// ---- questions

/// The answer to a question; `None` where the crate has no such call. Files that are read as Git does are those of work trees.
fn answer(subject: &[u8], fields: &[Field], is_as_git: bool) -> Option<String> {
    let bytes = |at: usize| fields.get(at)?.as_deref();
    match subject {
        b"trees" if is_as_git => decided_in_tree::<true>(fields, 2),
        _ if is_as_git => None,
        b"trees" => decided_in_tree::<false>(fields, 2),
        b"matching" => Some(text_matched(bytes(1)?, bytes(2)?, mode_of(&fields[0])?)),
        b"values" => line_matched(bytes(1)?, bytes(2)?, mode_of(&fields[0])?),
        b"reading" => Some(pattern_read(&fields[0], bytes(1)?)),
        b"wildcards" => {
            let pattern = Pattern::from_bytes(bytes(0)?)?;
            Some(format!("{}\t{}", told(pattern.has_wildcard()), place(pattern.first_wildcard_pos)))
        }
        b"shown" => Some(spelt(Pattern::from_bytes(bytes(0)?)?.to_string().as_bytes())),
        b"repository_paths" => path_matched(fields),
        b"git_reading" => Some(parts(&Pattern::from_git_line(bytes(0)?))),
        b"git_paths" => path_matched_as_git(fields),
        b"bases" => base_of(bytes(0)?, &fields[1]),
        b"file_parts" => has_file_part(bytes(0)?),
        b"stripping" => stripped(fields),
        b"listed" => listed(fields),
        b"decided" => decided(fields),
        b"trees_told" => decided_in_tree::<false>(fields, 3),
        _ => None,
    }
}

/// The longest question that is answered: calls that ask each pattern in turn would take minutes for longer ones.
const MOST_SIGNS: usize = 1 << 18;

fn main() -> io::Result<()> {
    // (one call is meant to panic)
    panic::set_hook(Box::new(|_| ()));
    let is_as_git = env::args().nth(1).as_deref() == Some("as-git");
    let mut output = io::stdout().lock();
    for line in io::stdin().lock().split(b'\n') {
        let line = line?;
        if line.len() > MOST_SIGNS {
            writeln!(output, "?")?;
            continue;
        }
        let mut parts = line.split(|byte| *byte == b'\t');
        let subject = parts.next().unwrap_or_default();
        let fields: Vec<Field> = parts.map(read).collect();
        writeln!(output, "{}", answer(subject, &fields, is_as_git).unwrap_or("?".to_string()))?;
    }
    Ok(())
}
