//! Reading a pattern line.
use crate::pattern::Mode;
use crate::{Pattern, library};

/// Instantiation
impl Pattern {
    /// Reads a pattern line; `None` where it is empty or white space alone, also behind a `!`.
    ///
    /// A leading `!` makes the pattern negative, and `\!` and `\#` at the front lose the backslash. One slash is taken off each
    /// end. The line is one of an attribute file: a `#` begins no comment, and white space at the end belongs to the text.
    ///
    /// ```
    /// use gix_glob::{Pattern, pattern::Mode};
    ///
    /// let pattern = Pattern::from_bytes(b"!/target/").unwrap();
    /// assert_eq!(pattern.text, "target");
    /// assert_eq!(pattern.mode, Mode::NEGATIVE | Mode::ABSOLUTE | Mode::MUST_BE_DIR | Mode::NO_SUB_DIR);
    /// assert_eq!(pattern.first_wildcard_pos, None);
    /// ```
    pub fn from_bytes(text: &[u8]) -> Option<Self> {
        let line = library::parse(text)?;
        Some(line.pattern_of(text))
    }

    /// Reads a pattern line as Git does. Each line has a pattern, which may be empty; `\!` and `\#` at the front keep their backslash.
    /// [`Pattern::matches_path_as_git`] matches it so, and so do [`Lists`](crate::decide::Lists) of a parser whose
    /// [`READING`](crate::search::Pattern::READING) is Git's. The other crate has no such call.
    ///
    /// ```
    /// let pattern = gix_glob::Pattern::from_git_line(b"\\!foo");
    /// assert_eq!(pattern.text, "\\!foo");
    /// assert_eq!(gix_glob::Pattern::from_git_line(b"\t").text, "\t");
    /// ```
    pub fn from_git_line(text: &[u8]) -> Self {
        library::parse_as_git(text).pattern_of(text)
    }

    /// Reads a pattern line in which `!`, `\!` and `\#` at the front are a part of the text. One slash is taken off each end all
    /// the same.
    ///
    /// ```
    /// let pattern = gix_glob::Pattern::from_bytes_without_negation(b"!keep/").unwrap();
    /// assert_eq!(pattern.text, "!keep");
    /// assert!(!pattern.is_negative());
    /// ```
    pub fn from_bytes_without_negation(text: &[u8]) -> Option<Self> {
        // A line has one sign at most, so what follows a `!` is read as it is.
        let mut line = Vec::with_capacity(text.len() + 1);
        line.push(b'!');
        line.extend_from_slice(text);
        let read = library::parse(&line)?;
        line.truncate(read.text.end);
        line.drain(..read.text.start);
        Some(Pattern {
            text: line.into(),
            mode: Mode::from_bits_retain(read.mode & !Mode::NEGATIVE.bits()),
            first_wildcard_pos: read.first_wildcard_pos,
        })
    }
}

impl library::Line {
    /// The pattern that was read of these bytes.
    pub(crate) fn pattern_of(self, bytes: &[u8]) -> Pattern {
        Pattern {
            text: bytes[self.text].into(),
            mode: Mode::from_bits_retain(self.mode),
            first_wildcard_pos: self.first_wildcard_pos,
        }
    }
}
