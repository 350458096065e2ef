//! The rules of the module `wildmatch` and of `Pattern::from_bytes`, written down as plainly as they can be: a
//! pattern is read into tokens, and every way to cut the value is tried.

pub const PATH: u8 = 1;
pub const FOLD: u8 = 2;

enum Token {
    Byte(u8),
    Any,
    Set(bool, Vec<Item>),
    Free,
    Local,
    Dirs,
    Nothing,
}

enum Item {
    Member(u8),
    Range(u8, u8),
    Class(fn(u8) -> bool),
}

/// Whether the value can be cut into pieces, one from the language of each token.
pub fn matches(pattern: &[u8], value: &[u8], mode: u8) -> bool {
    let mut tokens = Vec::new();
    let mut at = 0;
    while at < pattern.len() {
        let (token, end) = token_at(pattern, at, mode).unwrap_or((Token::Nothing, pattern.len()));
        tokens.push(token);
        at = end;
    }
    is_cut(&tokens, value, mode)
}

fn is_cut(tokens: &[Token], value: &[u8], mode: u8) -> bool {
    let Some((token, rest)) = tokens.split_first() else {
        return value.is_empty();
    };
    (0..=value.len()).any(|end| is_of(&value[..end], token, mode) && is_cut(rest, &value[end..], mode))
}

fn is_of(piece: &[u8], token: &Token, mode: u8) -> bool {
    let is_path = mode & PATH != 0;
    match (token, piece) {
        (Token::Byte(byte), &[b]) => fold(b, mode) == fold(*byte, mode),
        (Token::Any, &[b]) => !(is_path && b == b'/'),
        (Token::Set(is_negated, items), &[b]) => {
            !(is_path && b == b'/') && items.iter().any(|item| holds(item, b, mode)) != *is_negated
        }
        (Token::Free, _) => true,
        (Token::Local, _) => !piece.contains(&b'/'),
        (Token::Dirs, _) => piece.is_empty() || piece.ends_with(b"/"),
        _ => false,
    }
}

fn fold(byte: u8, mode: u8) -> u8 {
    if mode & FOLD != 0 { byte.to_ascii_lowercase() } else { byte }
}

fn holds(item: &Item, byte: u8, mode: u8) -> bool {
    let folded = fold(byte, mode);
    match *item {
        Item::Member(member) => fold(member, mode) == folded,
        Item::Class(is_in) => is_in(folded),
        Item::Range(low, high) => {
            let (upper_low, upper_high) = (low.to_ascii_uppercase(), high.to_ascii_uppercase());
            let between = upper_low.min(upper_high)..=upper_low.max(upper_high);
            (fold(low, mode)..=fold(high, mode)).contains(&folded)
                || (mode & FOLD != 0 && folded.is_ascii_lowercase() && between.contains(&folded.to_ascii_uppercase()))
        }
    }
}

/// The token at a place, and the place after it; `None` where the pattern is broken.
fn token_at(pattern: &[u8], at: usize, mode: u8) -> Option<(Token, usize)> {
    match pattern[at] {
        b'*' => Some(stars_at(pattern, at, mode)),
        b'?' => Some((Token::Any, at + 1)),
        b'\\' => Some((Token::Byte(*pattern.get(at + 1)?), at + 2)),
        b'[' => set_at(pattern, at + 1, mode),
        byte => Some((Token::Byte(byte), at + 1)),
    }
}

fn stars_at(pattern: &[u8], at: usize, mode: u8) -> (Token, usize) {
    let end = at + pattern[at..].iter().take_while(|&&byte| byte == b'*').count();
    let is_begun = at == 0 || pattern[at - 1] == b'/';
    match &pattern[end..] {
        _ if mode & PATH == 0 => (Token::Free, end),
        [b'/', ..] if is_begun && end - at > 1 => (Token::Dirs, end + 1),
        [] | [b'\\', b'/', ..] if is_begun && end - at > 1 => (Token::Free, end),
        _ => (Token::Local, end),
    }
}

fn set_at(pattern: &[u8], mut at: usize, mode: u8) -> Option<(Token, usize)> {
    let is_negated = matches!(pattern.get(at)?, b'!' | b'^');
    at += usize::from(is_negated);
    let mut items = Vec::new();
    while items.is_empty() || *pattern.get(at)? != b']' {
        let (item, end) = item_at(pattern, at, items.last(), mode)?;
        items.push(item);
        at = end;
    }
    Some((Token::Set(is_negated, items), at + 1))
}

fn item_at(pattern: &[u8], at: usize, before: Option<&Item>, mode: u8) -> Option<(Item, usize)> {
    let next = pattern.get(at + 1).copied();
    match (*pattern.get(at)?, before, next) {
        (b'\\', _, _) => Some((Item::Member(next?), at + 2)),
        (b'-', Some(&Item::Member(low @ 1..)), Some(b'\\')) => Some((Item::Range(low, *pattern.get(at + 2)?), at + 3)),
        (b'-', Some(&Item::Member(low @ 1..)), Some(high)) if high != b']' => Some((Item::Range(low, high), at + 2)),
        (b'[', _, Some(b':')) => {
            let close = at + 2 + pattern[at + 2..].iter().position(|&byte| byte == b']')?;
            if close >= at + 3 && pattern[close - 1] == b':' {
                Some((Item::Class(class(&pattern[at + 2..close - 1], mode)?), close + 1))
            } else {
                Some((Item::Member(b'['), at + 1))
            }
        }
        (byte, _, _) => Some((Item::Member(byte), at + 1)),
    }
}

fn class(name: &[u8], mode: u8) -> Option<fn(u8) -> bool> {
    Some(match name {
        b"alnum" => |b| b.is_ascii_alphanumeric(),
        b"alpha" => |b| b.is_ascii_alphabetic(),
        b"blank" => |b| matches!(b, b' ' | b'\t'),
        b"cntrl" => |b| b.is_ascii_control(),
        b"digit" => |b| b.is_ascii_digit(),
        b"graph" => |b| b.is_ascii_graphic(),
        b"lower" => |b| b.is_ascii_lowercase(),
        b"print" => |b| matches!(b, 32..=126),
        b"punct" => |b| b.is_ascii_punctuation(),
        b"space" => |b| matches!(b, b' ' | b'\t' | b'\n' | b'\r'),
        b"upper" if mode & FOLD != 0 => |b| b.is_ascii_alphabetic(),
        b"upper" => |b| b.is_ascii_uppercase(),
        b"xdigit" => |b| b.is_ascii_hexdigit(),
        _ => return None,
    })
}

/// The text, the mode's bits and the place of a line; `None` where it is blank.
pub fn reading(line: &[u8], may_alter: bool) -> Option<(&[u8], u32, Option<usize>)> {
    let is_special = |byte: &u8| b"*?[\\".contains(byte);
    let (text, is_negative) = match line {
        [b'!', rest @ ..] if may_alter => (rest, true),
        [b'\\', rest @ ..] if may_alter && matches!(rest, [b'!' | b'#', ..]) => (rest, false),
        _ => (line, false),
    };
    if text.iter().all(u8::is_ascii_whitespace) {
        return None;
    }
    let (text, is_absolute) = text.strip_prefix(b"/").map_or((text, false), |rest| (rest, true));
    let (text, must_be_dir) = text.strip_suffix(b"/").map_or((text, false), |rest| (rest, true));
    let ends_with = text.strip_prefix(b"*").is_some_and(|rest| !rest.iter().any(is_special));
    let facts = [!text.contains(&b'/'), ends_with, must_be_dir, is_negative, is_absolute];
    let bits = facts.iter().rev().fold(0, |bits, &fact| bits << 1 | u32::from(fact));
    Some((text, bits, text.iter().position(is_special)))
}
