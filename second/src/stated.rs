//! The text of cases: a call with what it gives, worked by hand or printed to be looked at.
//!
//! ```text
//! case a store and its drain
//! check room 25                   # or: finish room 2560
//! table
//!   p0 store x 1
//! trace
//!   W0 x1, D0 x1
//! gives finished 2: x 1           # or: gives written 1: D0 x1; or: gives refused 15 at 2
//! ```
//!
//! A litmus text has its bytes in quotes, in any number of pieces, with the escapes of docs/LITMUS.md
//! (`\x22` for a quote, `\x23` for what begins a comment):
//!
//! ```text
//! case a text
//! litmus room 8
//! text
//!   "X86 t { x=1; }\n"
//!   " P0 ;\n"
//!   "exists"
//! gives written 1: init x 1       # or: gives refused 19 at 4
//! ```
//!
//! A finished check names the words of its result that are not 0, the number of own-buffer reads as
//! `own 1`. The room is words for checking and bytes for the others. It is filled with marks, or
//! with the bytes of a part `room` of the case. What the answer does not speak of keeps its contents.

use crate::case::{bytes_of_words, Answer, Call, Case};
use crate::escapes::unescaped;
use crate::record::Record;
use crate::reply::{self, Reply};
use crate::run::RESULT;
use crate::text::{self, Wrong};

/// A case with the answer that its text states.
#[derive(Clone, Debug, PartialEq, Eq)]
pub struct Stated {
    pub name: String,
    pub case: Case,
    pub gives: Answer,
    /// The line of the file on which the case begins.
    pub line: usize,
}

/// The room's old contents: no byte is zero, and none equals the one 4 or 8 places on.
pub fn marks(length: usize) -> Vec<u8> {
    (0..length).map(|at| (at * 7 % 251 + 1) as u8).collect()
}

/// The most bytes of a room.
const LARGEST_ROOM: usize = 1 << 20;

const PARTS: [&str; 9] = [
    "case", "check", "finish", "litmus", "room", "table", "trace", "text", "gives",
];
const CALLS: [&str; 3] = ["check", "finish", "litmus"];

// A part of a case: its first word, and the text after it up to the next part.
struct Part<'t> {
    line: usize,
    word: &'t str,
    text: String,
}

impl Part<'_> {
    // For what stands on a line of the part's text.
    fn wrong(&self, wrong: Wrong) -> Wrong {
        Wrong::new(self.line - 1 + wrong.line, wrong.why)
    }

    fn not_understood(&self) -> Wrong {
        let text = self.text.trim();
        Wrong::new(self.line, format!("not understood: {} {text}", self.word))
    }
}

pub fn read_cases(file: &str) -> Result<Vec<Stated>, Wrong> {
    let mut cases: Vec<Vec<Part>> = Vec::new();
    for part in parts(file)? {
        match cases.last_mut() {
            _ if part.word == "case" => cases.push(vec![part]),
            Some(case) => case.push(part),
            None => return Err(Wrong::new(part.line, "no case has begun")),
        }
    }
    cases.iter().map(|parts| stated(parts)).collect()
}

fn parts(file: &str) -> Result<Vec<Part<'_>>, Wrong> {
    let mut parts: Vec<Part> = Vec::new();
    for (line, text) in (1..).zip(file.lines()) {
        let text = text::without_comment(text).trim();
        let (word, rest) = text.split_once(char::is_whitespace).unwrap_or((text, ""));
        if PARTS.contains(&word) {
            let text = rest.to_string();
            parts.push(Part { line, word, text });
        } else if let Some(part) = parts.last_mut() {
            part.text += "\n";
            part.text += text;
        } else if !text.is_empty() {
            return Err(Wrong::new(line, format!("not understood: {text}")));
        }
    }
    Ok(parts)
}

// The parts of one case, the first of which is its name.
fn stated(parts: &[Part]) -> Result<Stated, Wrong> {
    let bytes = |word, read: fn(&str) -> Result<Vec<u8>, Wrong>| {
        let part = one(parts, &[word])?;
        read(&part.text).map_err(|wrong| part.wrong(wrong))
    };
    let name = one(parts, &["case"])?;
    let (call, room) = call(one(parts, &CALLS)?)?;
    let (table, trace, others) = match call {
        Call::Litmus => (bytes("text", quoted)?, Vec::new(), &["table", "trace"][..]),
        Call::Check | Call::Finish => (
            bytes("table", text::table_bytes)?,
            bytes("trace", text::trace_bytes)?,
            &["text"][..],
        ),
    };
    if let Some(other) = parts.iter().find(|part| others.contains(&part.word)) {
        return Err(other.not_understood());
    }
    let case = Case {
        call,
        table,
        trace,
        room: match parts.iter().any(|part| part.word == "room") {
            true => contents(one(parts, &["room"])?, room * call.unit())?,
            false => marks(room * call.unit()),
        },
    };
    if name.text.trim().contains('\n') {
        return Err(name.not_understood());
    }
    Ok(Stated {
        name: name.text.trim().to_string(),
        gives: gives(one(parts, &["gives"])?, &case)?,
        case,
        line: name.line,
    })
}

fn one<'p, 't>(parts: &'p [Part<'t>], words: &[&str]) -> Result<&'p Part<'t>, Wrong> {
    let mut found = parts.iter().filter(|part| words.contains(&part.word));
    let (line, why) = match (found.next(), found.next()) {
        (Some(part), None) => return Ok(part),
        (_, Some(second)) => (second.line, format!("a second {}", second.word)),
        (None, None) => (parts[0].line, format!("no {}", words.join(" or "))),
    };
    Err(Wrong::new(line, why))
}

// The call, and the words or bytes of its room.
fn call(part: &Part) -> Result<(Call, usize), Wrong> {
    let call = match part.word {
        "check" => Call::Check,
        "litmus" => Call::Litmus,
        _ => Call::Finish,
    };
    let words: Vec<&str> = part.text.split_whitespace().collect();
    let room: usize = match words[..] {
        ["room", room] => room.parse().map_err(|_| part.not_understood())?,
        _ => return Err(part.not_understood()),
    };
    if room > LARGEST_ROOM / call.unit() {
        let why = format!("a room has at most {LARGEST_ROOM} bytes");
        return Err(Wrong::new(part.line, why));
    }
    Ok((call, room))
}

fn contents(part: &Part, length: usize) -> Result<Vec<u8>, Wrong> {
    let mut bytes = Vec::new();
    for (line, text) in (part.line..).zip(part.text.lines()) {
        let words: Vec<&str> = text.split_whitespace().collect();
        bytes.extend(text::of_hexadecimal(&words).map_err(|why| Wrong::new(line, why))?);
    }
    if bytes.len() != length {
        let why = format!("the room has {length} bytes, not {}", bytes.len());
        return Err(Wrong::new(part.line, why));
    }
    Ok(bytes)
}

// The bytes of a text, a piece a line.
fn quoted(text: &str) -> Result<Vec<u8>, Wrong> {
    let mut bytes = Vec::new();
    for (line, piece) in (1..).zip(text.lines()) {
        let piece = piece.trim();
        let inner = piece
            .strip_prefix('"')
            .and_then(|piece| piece.strip_suffix('"'));
        match inner {
            _ if piece.is_empty() => {}
            Some(inner) => bytes.extend(unescaped(inner).map_err(|why| Wrong::new(line, why))?),
            None => return Err(Wrong::new(line, format!("not in quotes: {piece}"))),
        }
    }
    Ok(bytes)
}

// The whole answer: the case's room, with what is written into it.
fn gives(part: &Part, case: &Case) -> Result<Answer, Wrong> {
    let (head, list) = part.text.split_once(':').unwrap_or((&part.text, ""));
    let words: Vec<&str> = head.split_whitespace().collect();
    let (number, place, written) = match (&words[..], case.call) {
        (["finished", steps], Call::Check) => ("0", steps, text::result(list).map(result)),
        (["written", k], Call::Finish) => ("0", k, text::trace_bytes(list)),
        (["written", count], Call::Litmus) => ("0", count, text::table_bytes(list)),
        (["refused", number, "at", place], _) if list.is_empty() => (*number, place, Ok(vec![])),
        _ => return Err(part.not_understood()),
    };
    let written = written.map_err(|wrong| part.wrong(wrong))?;
    let reply = match (number.parse(), place.parse()) {
        (Ok(reply::DONE), _) if words[0] == "refused" => return Err(part.not_understood()),
        (Ok(number), Ok(place)) => Reply { number, place },
        _ => return Err(part.not_understood()),
    };
    if words[0] == "written" && Some(written.len()) != bytes_of_records(reply.place) {
        let why = format!("{} bytes are named as {place} records", written.len());
        return Err(Wrong::new(part.line, why));
    }
    let mut room = case.room.clone();
    match room.get_mut(..written.len()) {
        Some(start) => start.copy_from_slice(&written),
        None => return Err(Wrong::new(part.line, "the room is too small")),
    }
    Ok(Answer { reply, room })
}

// The words of a result in which all others are 0, as bytes.
fn result(named: Vec<(usize, u32)>) -> Vec<u8> {
    let mut words = [0; RESULT];
    for (word, value) in named {
        words[word] = value;
    }
    bytes_of_words(&words)
}

pub fn bytes_of_records(count: u64) -> Option<usize> {
    usize::try_from(count).ok()?.checked_mul(Record::BYTES)
}

#[cfg(test)]
mod tests {
    use super::*;

    const FILE: &str = "
case 1, the line of the sheet   # a comment
check room 26
table
  p0 store x 1
  p0 load EAX y
trace
  W0 x1, R0 y0
  D0 x1
gives finished 3: x 1, own 2, p3 EDX 7

case
finish room 17
table
  p0 store x 1
trace
gives written 2: W0 x1,
  D0 x1
case third
finish room 2
room
  00 ff
table
trace
  F0
gives refused 14 at 0
case a text
litmus room 9
text
  \"X86 t{x\" \t# a comment
  \"=-1;}P0;exists\\x20\"
gives written 1: init x 4294967295
";

    #[test]
    fn a_file_states_whole_answers() {
        let cases = read_cases(FILE).unwrap();
        let name = |stated: &Stated| (stated.name.clone(), stated.line);
        let names: Vec<_> = cases.iter().map(name).collect();
        let expected = [
            ("1, the line of the sheet", 2),
            ("", 12),
            ("third", 19),
            ("a text", 27),
        ];
        assert_eq!(names, expected.map(|(name, line)| (name.to_string(), line)));
        let mut words = [0; RESULT + 1];
        (words[15], words[16], words[24]) = (7, 1, 2);
        words[25] = u32::from_le_bytes([199, 206, 213, 220]);
        assert_eq!(cases[0].gives.room, bytes_of_words(&words));
        assert_eq!(cases[1].gives.room[8..], [3, 0, 0, 0, 1, 0, 0, 0, 113]);
        assert_eq!(cases[1].gives, cases[1].case.answer());
        assert_eq!(cases[2].gives, cases[2].case.answer());
        assert_eq!(cases[3].case.table, b"X86 t{x=-1;}P0;exists ");
        assert_eq!(cases[3].gives, cases[3].case.answer());
    }

    // Of the file with one change.
    fn wrong(from: &str, to: &str) -> String {
        assert!(FILE.contains(from));
        let read = read_cases(&FILE.replacen(from, to, 1));
        read.unwrap_err().to_string()
    }

    #[test]
    fn wrong_files_are_explained() {
        assert_eq!(wrong("EAX y", "EAX q"), "line 6: no such location: q");
        assert_eq!(wrong("D0 x1", "D0"), "line 9: the line ends early");
        assert_eq!(wrong("p3 EDX", "p4 EDX"), "line 10: no such processor: 4");
        assert_eq!(
            wrong("own 2", "own x"),
            "line 10: a value is 0 to 4294967295"
        );
        assert_eq!(
            wrong("check room 26", ""),
            "line 2: no check or finish or litmus"
        );
        assert_eq!(wrong("case\n", "\n"), "line 13: a second finish");
        assert_eq!(
            wrong("room 26", "room 24"),
            "line 10: the room is too small"
        );
        assert_eq!(
            wrong("written 2", "written 3"),
            "line 17: 16 bytes are named as 3 records"
        );
        assert_eq!(wrong("00 ff", "ff"), "line 21: the room has 2 bytes, not 1");
        assert_eq!(
            wrong("00 ff", "00 fg"),
            "line 22: a byte is two hexadecimal digits, not fg"
        );
        assert_eq!(
            wrong("room 26", "room 262145"),
            "line 3: a room has at most 1048576 bytes"
        );
        assert_eq!(
            wrong("refused 14", "refused 0"),
            "line 26: not understood: gives refused 0 at 0"
        );
    }

    #[test]
    fn wrong_texts_are_explained() {
        assert_eq!(wrong("\"X86", "X86"), "line 30: not in quotes: X86 t{x\"");
        assert_eq!(
            wrong("exists\\x20", "exists\\y"),
            "line 31: no such escape: \\y"
        );
        assert_eq!(
            wrong("litmus room 9", "litmus room 9\ntrace"),
            "line 29: not understood: trace "
        );
    }
}
