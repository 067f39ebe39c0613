//! Bytes as a line of text, as in the examples of docs/LITMUS.md: `\n`, `\r`, `\t`, `\0`, and `\xC3`
//! for any byte.

const SHORT: [(u8, char); 4] = [(b'\n', 'n'), (b'\r', 'r'), (b'\t', 't'), (0, '0')];

/// A backslash, what is not ASCII's printable part, and these are escaped.
pub fn escaped(bytes: &[u8], also: &[u8]) -> String {
    let mut text = String::new();
    for &byte in bytes {
        let short = SHORT.iter().find(|&&(of, _)| of == byte);
        match (byte, short) {
            (_, Some((_, letter))) => text.extend(['\\', *letter]),
            (b' '..=b'~', _) if byte != b'\\' && !also.contains(&byte) => text.push(byte.into()),
            _ => text += &format!("\\x{byte:02X}"),
        }
    }
    text
}

/// What stands unescaped may be any text.
pub fn unescaped(text: &str) -> Result<Vec<u8>, String> {
    let mut pieces = text.split('\\');
    let mut bytes = pieces.next().unwrap_or("").as_bytes().to_vec();
    for piece in pieces {
        let (byte, rest) = escape(piece).ok_or_else(|| format!("no such escape: \\{piece}"))?;
        bytes.push(byte);
        bytes.extend(rest.as_bytes());
    }
    Ok(bytes)
}

/// The byte that an escape stands for, and the text behind it.
fn escape(piece: &str) -> Option<(u8, &str)> {
    let mut rest = piece.chars();
    match rest.next()? {
        'x' => {
            let (digits, rest) = (piece.get(1..3)?, piece.get(3..)?);
            let are_digits = digits.bytes().all(|digit| digit.is_ascii_hexdigit());
            let byte = u8::from_str_radix(digits, 16).ok()?;
            are_digits.then_some((byte, rest))
        }
        letter => {
            let short = SHORT.iter().find(|&&(_, of)| of == letter);
            short.map(|&(byte, _)| (byte, rest.as_str()))
        }
    }
}

#[cfg(test)]
mod tests {
    use super::*;

    #[test]
    fn all_bytes_come_back() {
        let bytes: Vec<u8> = (0..=255).chain(0..=255).collect();
        let text = escaped(&bytes, b"\"#");
        assert_eq!(unescaped(&text), Ok(bytes));
        assert!(text.is_ascii() && !text.contains(['"', '#', '\n']));
        assert_eq!(escaped(b"{ x\n\0\xC3\\", b""), "{ x\\n\\0\\xC3\\x5C");
    }

    #[test]
    fn other_escapes_are_refused() {
        for wrong in ["\\", "a\\q", "\\\\", "\\x", "\\x1", "\\x+1", "\\xé"] {
            assert!(unescaped(wrong).is_err(), "{wrong}");
        }
    }
}
