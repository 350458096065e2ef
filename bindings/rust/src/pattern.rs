//! What was read of a pattern line, and what it matches.
use std::fmt;

use bitflags::bitflags;
use bstr::BStr;

use crate::decide::Reading;
use crate::{Pattern, library, wildmatch};

bitflags! {
    /// What was read of a pattern line besides its text.
    #[cfg_attr(feature = "serde", derive(serde::Serialize, serde::Deserialize))]
    #[derive(Debug, PartialEq, Eq, Hash, Copy, Clone, Ord, PartialOrd)]
    pub struct Mode: u32 {
        /// The text has no slash.
        const NO_SUB_DIR = 1 << 0;
        /// The text is a `*` and a literal after it.
        const ENDS_WITH = 1 << 1;
        /// The line ended in a slash: the pattern is for directories only.
        const MUST_BE_DIR = 1 << 2;
        /// The line began with `!`. No match looks at this: it is the caller who turns the answer round.
        const NEGATIVE = 1 << 3;
        /// The line began with a slash: the whole path is matched, and not its last part alone.
        const ABSOLUTE = 1 << 4;
    }
}

/// Whether the case of ASCII letters counts.
#[derive(Default, Debug, PartialOrd, PartialEq, Copy, Clone, Hash, Ord, Eq)]
pub enum Case {
    /// It counts.
    #[default]
    Sensitive,
    /// It doesn't.
    Fold,
}

/// Access
impl Pattern {
    /// Whether the line began with `!`.
    pub fn is_negative(&self) -> bool {
        self.mode.contains(Mode::NEGATIVE)
    }

    /// Whether the text has a `*`, `?` or `[`, escaped or not.
    ///
    /// Without one a comparison is still not enough where the text has a backslash: `\a` matches `a`.
    pub fn has_wildcard(&self) -> bool {
        self.text.iter().any(|byte| matches!(byte, b'*' | b'?' | b'['))
    }

    /// Whether the pattern matches a path, relative to the folder of the pattern's file, with slashes between its parts.
    ///
    /// - `basename_start_pos` is the place after the path's last slash, or `None` where the path has no slash. A pattern that has
    ///   no slash, in front neither, is matched against what begins there.
    /// - A pattern [for directories only](Mode::MUST_BE_DIR) matches nothing unless `is_dir` is `Some(true)`.
    /// - [`Case::Fold`] adds [`IGNORE_CASE`](wildmatch::Mode::IGNORE_CASE) to the mode.
    ///
    /// ```
    /// use gix_glob::{pattern::Case, wildmatch::Mode};
    ///
    /// let matches = |line: &str, path: &str, is_dir| {
    ///     let start = path.rfind('/').map(|slash| slash + 1);
    ///     let pattern = gix_glob::parse(line).unwrap();
    ///     pattern.matches_repo_relative_path(path.into(), start, Some(is_dir), Case::Fold, Mode::NO_MATCH_SLASH_LITERAL)
    /// };
    /// assert!(matches("*.rs", "src/LIB.RS", false));
    /// assert!(!matches("/*.rs", "src/lib.rs", false));
    /// assert!(matches("build/", "deep/build", true));
    /// assert!(!matches("build/", "deep/build", false));
    /// ```
    ///
    /// # Panics
    ///
    /// With debug assertions, where the path begins with a slash, or `basename_start_pos` is another place. Without them the
    /// answer may then be wrong.
    #[inline]
    pub fn matches_repo_relative_path(
        &self,
        path: &BStr,
        basename_start_pos: Option<usize>,
        is_dir: Option<bool>,
        case: Case,
        mode: wildmatch::Mode,
    ) -> bool {
        if self.mode.contains(Mode::MUST_BE_DIR) && is_dir != Some(true) {
            return false;
        }
        debug_assert!(!path.starts_with(b"/"), "a path is relative to a folder, and doesn't begin with a slash");
        debug_assert!(
            basename_start_pos
                .is_none_or(|start| start > 0 && path.iter().rposition(|&byte| byte == b'/') == Some(start - 1)),
            "the basename start is the place after the last slash of the path"
        );
        let mode = match case {
            Case::Sensitive => mode,
            Case::Fold => mode | wildmatch::Mode::IGNORE_CASE,
        };
        let is_for_the_basename = self.mode.contains(Mode::NO_SUB_DIR) && !self.mode.contains(Mode::ABSOLUTE);
        let start = basename_start_pos.filter(|_| is_for_the_basename).unwrap_or(0);
        path.get(start..).is_some_and(|subject| self.matches_bytes(subject, mode))
    }

    /// Whether the pattern matches a path as Git has it, relative to the folder of the pattern's file: what a pattern with a slash has
    /// before its first `*`, `?`, `[` or `\` is compared by itself, and what follows is a pattern of its own; and with [`Case::Fold`]
    /// members of sets and escaped letters stay as they are. The other crate has no such call.
    ///
    /// A path that is empty, has a slash at its front or end, or two in a row, is matched by nothing.
    ///
    /// ```
    /// use gix_glob::{Pattern, pattern::Case};
    ///
    /// let pattern = Pattern::from_git_line(b"a**/b");
    /// assert!(pattern.matches_path_as_git("ax/y/b".into(), false, Case::Sensitive));
    /// assert!(!Pattern::from_git_line(b"[A]").matches_path_as_git("a".into(), false, Case::Fold));
    /// ```
    pub fn matches_path_as_git(&self, path: &BStr, is_dir: bool, case: Case) -> bool {
        let parts = library::Parts::new(&self.text, self.mode.bits(), self.first_wildcard_pos, Reading::Git);
        library::matches_path(&parts, path, is_dir, case == Case::Fold)
    }

    /// Whether the text matches the whole of a value, as [`wildmatch()`](crate::wildmatch()) answers, by a comparison where one
    /// is enough. Of the pattern's mode [`ENDS_WITH`](Mode::ENDS_WITH) alone counts.
    ///
    /// ```
    /// use gix_glob::wildmatch::Mode;
    ///
    /// let pattern = gix_glob::parse("*.RS").unwrap();
    /// assert!(pattern.matches("src/lib.rs".into(), Mode::IGNORE_CASE));
    /// assert!(!pattern.matches("src/lib.RS".into(), Mode::NO_MATCH_SLASH_LITERAL));
    /// ```
    ///
    /// # Panics
    ///
    /// With debug assertions, where [`first_wildcard_pos`](Pattern::first_wildcard_pos) is another place than the first `*`, `?`, `[`
    /// or `\`, or [`ENDS_WITH`](Mode::ENDS_WITH) stands with another text than a `*` and a literal. Without them the answer may then be wrong. No place at all is allowed
    /// with any text, which is then compared.
    #[inline]
    pub fn matches(&self, value: &BStr, mode: wildmatch::Mode) -> bool {
        self.matches_bytes(value, mode)
    }

    /// Whether what the other fields say of the text is so.
    fn is_consistent(&self) -> bool {
        let mut specials = (0..).zip(self.text.iter()).filter(|(_, byte)| b"*?[\\".contains(byte));
        let first = specials.next();
        let is_suffix = matches!(first, Some((0, b'*'))) && specials.next().is_none();
        self.first_wildcard_pos.is_none_or(|place| {
            first.is_some_and(|(first, _)| first == place) && (is_suffix || !self.mode.contains(Mode::ENDS_WITH))
        })
    }

    #[inline]
    fn matches_bytes(&self, value: &[u8], mode: wildmatch::Mode) -> bool {
        debug_assert!(self.is_consistent(), "mode and place belong to the text");
        library::matches(&self.text, self.mode.bits(), self.first_wildcard_pos, value, mode.bits())
    }
}

/// The line that the pattern was read from, or one that means the same. A text that begins with a `!`, of a pattern neither
/// negative nor absolute, is shown as it is, so it reads back as a negative one.
impl fmt::Display for Pattern {
    fn fmt(&self, f: &mut fmt::Formatter<'_>) -> fmt::Result {
        if self.is_negative() {
            "!".fmt(f)?;
        }
        if self.mode.contains(Mode::ABSOLUTE) {
            "/".fmt(f)?;
        }
        self.text.fmt(f)?;
        if self.mode.contains(Mode::MUST_BE_DIR) {
            "/".fmt(f)?;
        }
        Ok(())
    }
}
