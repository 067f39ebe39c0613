//! The readable text of tables and traces, one line a record. A record without a readable form is
//! written as `bytes 03 04 00 00 01 00 00 00`, and so is a rest of fewer bytes at the end.
//!
//! When reading, records may also stand on one line with commas between them, `5 times` at the
//! beginning of a line repeats it, and `#` begins a comment.

use crate::forms::{self, Forms};
use crate::kinds;
use crate::record::{self, Record};
use std::fmt;

const MOST_TIMES: usize = 65_536;

/// Why a text cannot be read, and where.
#[derive(Clone, Debug, PartialEq, Eq)]
pub struct Wrong {
    pub line: usize,
    pub why: String,
}

impl fmt::Display for Wrong {
    fn fmt(&self, f: &mut fmt::Formatter) -> fmt::Result {
        write!(f, "line {}: {}", self.line, self.why)
    }
}

impl std::error::Error for Wrong {}

impl Wrong {
    pub fn new(line: usize, why: impl Into<String>) -> Wrong {
        let why = why.into();
        Wrong { line, why }
    }
}

pub fn table_text(bytes: &[u8]) -> String {
    write(forms::TABLE, bytes)
}

pub fn trace_text(bytes: &[u8]) -> String {
    write(forms::TRACE, bytes)
}

pub fn table_bytes(text: &str) -> Result<Vec<u8>, Wrong> {
    read(forms::TABLE, text)
}

pub fn trace_bytes(text: &str) -> Result<Vec<u8>, Wrong> {
    read(forms::TRACE, text)
}

/// Cells by their names, as `x 1` or `p0 EAX 1`: the number of each, and its value.
pub fn cells(text: &str) -> Result<Vec<(usize, u32)>, Wrong> {
    named(forms::CELLS, text)
}

/// Words of a result by their names, those of the cells or `own 1`: the number of each, and its
/// value.
pub fn result(text: &str) -> Result<Vec<(usize, u32)>, Wrong> {
    named(forms::RESULT, text)
}

fn named(forms: &Forms, text: &str) -> Result<Vec<(usize, u32)>, Wrong> {
    let mut all: Vec<(usize, u32)> = Vec::new();
    let of_line = |(line, text)| parts(text).map(move |words| (line, words));
    for (line, words) in (1..).zip(text.lines()).flat_map(of_line) {
        let wrong = |why: &str| Wrong::new(line, why);
        let named = forms::read(forms, &words.join(" ")).map_err(|why| wrong(&why))?;
        let word = Record { value: 0, ..named };
        let number = result_in_order().position(|other| other == word);
        let number = number.ok_or_else(|| wrong("no such cell"))?;
        if all.iter().any(|&(other, _)| other == number) {
            return Err(wrong("the same name twice"));
        }
        all.push((number, named.value));
    }
    Ok(all)
}

/// A word of a result by its name.
pub fn word_text(number: usize, value: u32) -> String {
    let word = result_in_order().nth(number);
    let text = word.and_then(|word| forms::write(forms::RESULT, Record { value, ..word }));
    text.unwrap_or_default()
}

// The words of a result in their order, each as a record of the value 0: a cell as an initial one.
fn result_in_order() -> impl Iterator<Item = Record> {
    let registers = record::processors().flat_map(|processor| {
        let of_processor = 0..record::REGISTERS as u8;
        of_processor.map(move |register| [kinds::INITIAL_REGISTER, processor, register, 0])
    });
    let locations = 0..record::LOCATIONS as u8;
    let memory = locations.map(|location| [kinds::INITIAL_MEMORY, 0, 0, location]);
    let words = registers.chain(memory).chain([[forms::OWN_READS, 0, 0, 0]]);
    words.map(|[kind, processor, register, location]| Record {
        kind,
        processor,
        register,
        location,
        value: 0,
    })
}

/// A line up to its comment.
pub fn without_comment(line: &str) -> &str {
    line.split('#').next().unwrap_or("")
}

fn write(forms: &Forms, bytes: &[u8]) -> String {
    let line = |chunk: &[u8]| {
        let record = chunk.try_into().ok().map(Record::of_bytes);
        let readable = record.and_then(|record| forms::write(forms, record));
        readable.unwrap_or_else(|| format!("bytes {}", hexadecimal(chunk))) + "\n"
    };
    bytes.chunks(Record::BYTES).map(line).collect()
}

fn read(forms: &Forms, text: &str) -> Result<Vec<u8>, Wrong> {
    let mut bytes = Vec::new();
    for (line, text) in (1..).zip(text.lines()) {
        read_line(forms, text, &mut bytes).map_err(|why| Wrong::new(line, why))?;
    }
    Ok(bytes)
}

fn read_line(forms: &Forms, line: &str, bytes: &mut Vec<u8>) -> Result<(), String> {
    let mut words = without_comment(line).split_whitespace();
    let (times, records) = match (words.next(), words.next()) {
        (Some(times), Some("times")) => (number_of_times(times)?, line.split_once("times")),
        _ => (1, None),
    };
    let mut once = Vec::new();
    for words in parts(records.map_or(line, |(_, records)| records)) {
        append(&mut once, &read_record(forms, &words)?)?;
    }
    for _ in 0..times {
        append(bytes, &once)?;
    }
    Ok(())
}

// The words of each record on a line.
fn parts(line: &str) -> impl Iterator<Item = Vec<&str>> {
    let parts = without_comment(line).split(',');
    let words = parts.map(|part| part.split_whitespace().collect());
    words.filter(|words: &Vec<&str>| !words.is_empty())
}

fn read_record(forms: &Forms, words: &[&str]) -> Result<Vec<u8>, String> {
    let record = match words {
        ["bytes", digits @ ..] => of_hexadecimal(digits)?,
        words => forms::read(forms, &words.join(" "))?.bytes().to_vec(),
    };
    if record.is_empty() || record.len() > Record::BYTES {
        return Err(format!("a record has {} bytes", Record::BYTES));
    }
    Ok(record)
}

fn append(bytes: &mut Vec<u8>, more: &[u8]) -> Result<(), String> {
    if bytes.len() % Record::BYTES != 0 && !more.is_empty() {
        return Err("fewer than 8 bytes stand at the end only".to_string());
    }
    bytes.extend(more);
    Ok(())
}

fn number_of_times(word: &str) -> Result<usize, String> {
    let digits = word.bytes().all(|digit| digit.is_ascii_digit());
    let times = word
        .parse()
        .ok()
        .filter(|&times| digits && times <= MOST_TIMES);
    times.ok_or_else(|| format!("times is 0 to {MOST_TIMES}"))
}

/// Two hexadecimal digits a byte.
pub fn hexadecimal(bytes: &[u8]) -> String {
    let digits: Vec<String> = bytes.iter().map(|byte| format!("{byte:02x}")).collect();
    digits.join(" ")
}

pub fn of_hexadecimal(words: &[&str]) -> Result<Vec<u8>, String> {
    let byte = |word: &&str| {
        let two_digits = word.len() == 2 && word.bytes().all(|digit| digit.is_ascii_hexdigit());
        let byte = u8::from_str_radix(word, 16).ok().filter(|_| two_digits);
        byte.ok_or_else(|| format!("a byte is two hexadecimal digits, not {word}"))
    };
    words.iter().map(byte).collect()
}

#[cfg(test)]
mod tests {
    use super::*;

    // Pseudo-random bytes, small or zero mostly, so that most records are readable ones.
    fn bytes(length: usize, seed: &mut u32) -> Vec<u8> {
        let byte = |at: usize| {
            *seed = seed.wrapping_mul(1_664_525).wrapping_add(1_013_904_223);
            let [_, _, byte, choice] = seed.to_le_bytes();
            match choice {
                0..=1 => byte,
                _ if at % Record::BYTES == 0 => byte % 8,
                2..=20 => byte % 8,
                _ => 0,
            }
        };
        (0..length).map(byte).collect()
    }

    #[test]
    fn every_byte_string_comes_back() {
        let mut seed = 1;
        let (mut lines, mut unreadable) = (0, 0);
        for length in 0..1000 {
            let bytes = bytes(length % 100, &mut seed);
            let (table, trace) = (table_text(&bytes), trace_text(&bytes));
            assert_eq!(table_bytes(&table).as_ref(), Ok(&bytes), "{table}");
            assert_eq!(trace_bytes(&trace).as_ref(), Ok(&bytes), "{trace}");
            let both = table + &trace;
            lines += both.lines().count();
            unreadable += both.matches("bytes").count();
        }
        assert!(
            0 < unreadable && unreadable * 2 < lines,
            "{unreadable} of {lines}"
        );
    }

    #[test]
    fn every_canonical_line_comes_back() {
        let table = "init x 1\ninit p0 EAX 5\np0 store x 1\np0 store x EAX\np1 load EBX x\n\
            p0 set EAX 5\np0 fence\np0 xchg x EAX\np0 lock xchg x EAX\np3 xadd e EDX\n\
            p0 lock xadd x EAX\nbytes 03 04 00 00 01 00 00 00\nbytes 00\n";
        assert_eq!(table_text(&table_bytes(table).unwrap()), table);
        let trace = "R0 y0\nW0 x1\nD0 e4294967295\nF0\nL1\nU2\nN3\nbytes 01 02 03 04 05 06 07\n";
        assert_eq!(trace_text(&trace_bytes(trace).unwrap()), trace);
        let kinds = |text: &str| text.lines().count();
        assert_eq!(
            (kinds(table), kinds(trace)),
            (forms::TABLE.len() + 2, forms::TRACE.len() + 1)
        );
    }

    #[test]
    fn loose_text_is_read() {
        let trace = "# nothing\n\n W0  x1,D0 x1 # two steps\n 2 times F0,\n2 times U1, L1\r\n";
        let strict = "W0 x1\nD0 x1\nF0\nF0\nU1\nL1\nU1\nL1\n";
        assert_eq!(trace_bytes(trace), trace_bytes(strict));
    }

    #[test]
    fn wrong_text_is_explained() {
        let wrong = |text: &str| table_bytes(text).unwrap_err().to_string();
        assert_eq!(wrong("\ninit q 1"), "line 2: no such location: q");
        assert_eq!(wrong("init p4 EAX 1"), "line 1: no such processor: 4");
        assert_eq!(wrong("p0 load EAZ x"), "line 1: no such register: EAZ");
        assert_eq!(wrong("p0 store x EAZ"), "line 1: no such register: EAZ");
        assert_eq!(
            wrong("p0 store x 4294967296"),
            "line 1: a value is 0 to 4294967295"
        );
        assert_eq!(wrong("p0 store x -1"), "line 1: a value is 0 to 4294967295");
        assert_eq!(wrong("p0 stor x 1"), "line 1: not understood: stor x 1");
        assert_eq!(wrong("p0 fence x"), "line 1: not understood: x");
        assert_eq!(wrong("p0 load EAX"), "line 1: the line ends early");
        assert_eq!(
            wrong("bytes 1 2"),
            "line 1: a byte is two hexadecimal digits, not 1"
        );
        assert_eq!(
            wrong("bytes 01\np0 fence"),
            "line 2: fewer than 8 bytes stand at the end only"
        );
        assert_eq!(cells("own 1").unwrap_err().why, "no such location: own");
        assert_eq!(result("own 1, x 2"), Ok(vec![(24, 1), (16, 2)]));
        assert_eq!(
            cells("x 1, y 1\nx 1").unwrap_err().to_string(),
            "line 2: the same name twice"
        );
        assert_eq!(
            wrong("2 times bytes 01"),
            "line 1: fewer than 8 bytes stand at the end only"
        );
        assert_eq!(wrong("65537 times p0 fence"), "line 1: times is 0 to 65536");
    }
}
