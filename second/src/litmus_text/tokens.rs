//! "Tokens" of docs/LITMUS.md.

#[derive(Clone, Copy, Debug, PartialEq, Eq)]
pub struct Token<'t> {
    /// The offset of its first byte.
    pub place: usize,
    pub bytes: &'t [u8],
}

/// All tokens of the text, also those behind its end word.
pub fn tokens(text: &[u8]) -> Vec<Token<'_>> {
    let mut tokens = Vec::new();
    let mut place = 0;
    loop {
        place += run(&text[place..], is_blank);
        if place == text.len() {
            return tokens;
        }
        let rest = &text[place..];
        let bytes = &rest[..length(rest, tokens.len() == 1)];
        tokens.push(Token { place, bytes });
        place += bytes.len();
    }
}

/// The bytes of the token that begins here: the first line of the table of tokens that fits.
fn length(rest: &[u8], is_second: bool) -> usize {
    let name = if is_second { name(rest) } else { None };
    name.or_else(|| word(rest))
        .or_else(|| before_word("$", rest, all_digits))
        .or_else(|| before_word("$-", rest, all_digits))
        .or_else(|| before_word("-", rest, all_digits))
        .or_else(|| before_word("~", rest, |word| word == b"exists"))
        .unwrap_or(1)
}

fn name(rest: &[u8]) -> Option<usize> {
    not_empty(run(rest, |byte| !is_blank(byte) && byte != b'{'))
}

/// A word or number: the longest run of letters and digits.
fn word(rest: &[u8]) -> Option<usize> {
    not_empty(run(rest, |byte| byte.is_ascii_alphanumeric()))
}

/// These marks, and touching them such a word.
fn before_word(marks: &str, rest: &[u8], such: fn(&[u8]) -> bool) -> Option<usize> {
    let rest = rest.strip_prefix(marks.as_bytes())?;
    let length = word(rest)?;
    such(&rest[..length]).then_some(marks.len() + length)
}

pub fn all_digits(bytes: &[u8]) -> bool {
    !bytes.is_empty() && bytes.iter().all(u8::is_ascii_digit)
}

fn is_blank(byte: u8) -> bool {
    [32, 10, 13].contains(&byte)
}

fn not_empty(length: usize) -> Option<usize> {
    (length > 0).then_some(length)
}

/// How many bytes at the front are such.
fn run(bytes: &[u8], such: impl Fn(u8) -> bool) -> usize {
    bytes
        .iter()
        .position(|&byte| !such(byte))
        .unwrap_or(bytes.len())
}

#[cfg(test)]
mod tests {
    use super::tokens;

    fn split(text: &str) -> Vec<(usize, String)> {
        let shown = |bytes: &[u8]| String::from_utf8_lossy(bytes).into_owned();
        let tokens = tokens(text.as_bytes());
        let each = tokens.iter();
        each.map(|token| (token.place, shown(token.bytes)))
            .collect()
    }

    fn bytes(text: &str) -> Vec<String> {
        split(text).into_iter().map(|(_, bytes)| bytes).collect()
    }

    #[test]
    fn blanks_are_between_tokens() {
        assert_eq!(split(""), []);
        assert_eq!(split(" \n\r"), []);
        let expected = [(2, "X86"), (6, "t;$"), (9, "{"), (10, "\t"), (12, "x")];
        let expected = expected.map(|(place, bytes)| (place, bytes.to_string()));
        assert_eq!(split("\r\nX86 t;${\t\nx "), expected);
    }

    #[test]
    fn the_first_that_fits() {
        assert_eq!(bytes("X86-SB{"), ["X86", "-SB", "{"]);
        assert_eq!(bytes("X86{-SB{"), ["X86", "{", "-", "SB", "{"]);
        assert_eq!(bytes("a b $1 $-01 -2"), ["a", "b", "$1", "$-01", "-2"]);
        assert_eq!(bytes("a b $1a$-"), ["a", "b", "$", "1a", "$", "-"]);
        assert_eq!(bytes("a b $--1"), ["a", "b", "$", "-", "-1"]);
        assert_eq!(bytes("a b -1a"), ["a", "b", "-", "1a"]);
        assert_eq!(
            bytes("a b ~exists~exists1"),
            ["a", "b", "~exists", "~", "exists1"]
        );
    }
}
