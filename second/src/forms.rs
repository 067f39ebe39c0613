//! The form of each kind's line, for reading and for writing it.

use crate::record::{self, Record};

pub const LOCATIONS: [char; record::LOCATIONS] = ['x', 'y', 'z', 'a', 'b', 'c', 'd', 'e'];
pub const REGISTERS: [&str; record::REGISTERS] = ["EAX", "EBX", "ECX", "EDX"];
const PROCESSORS: [&str; record::PROCESSORS] = ["0", "1", "2", "3"];

/// The first form is that of kind 1, the next that of kind 2, and so on.
pub type Forms = [&'static str];

pub const TABLE: &Forms = &[
    "init {location} {value}",
    "init p{processor} {register} {value}",
    "p{processor} store {location} {value}",
    "p{processor} store {location} {register}",
    "p{processor} load {register} {location}",
    "p{processor} set {register} {value}",
    "p{processor} fence",
    "p{processor} xchg {location} {register}",
    "p{processor} lock xchg {location} {register}",
    "p{processor} xadd {location} {register}",
    "p{processor} lock xadd {location} {register}",
];

pub const TRACE: &Forms = &[
    "R{processor} {location}{value}",
    "W{processor} {location}{value}",
    "D{processor} {location}{value}",
    "F{processor}",
    "L{processor}",
    "U{processor}",
    "N{processor}",
];

/// A cell and what it holds: an initial record of the table, without `init`.
pub const CELLS: &Forms = &["{location} {value}", "p{processor} {register} {value}"];

/// A word of a result: a cell, or the number of reads served from own buffers.
pub const RESULT: &Forms = &[CELLS[0], CELLS[1], "own {value}"];

/// The kind of the form that is not a cell's.
pub const OWN_READS: u8 = 3;

/// The form of the record's kind, filled in, if the record can be read from it again: a field out
/// of range cannot be named, and a field that the form does not use is lost.
pub fn write(forms: &Forms, record: Record) -> Option<String> {
    let form = forms.get(usize::from(record.kind).checked_sub(1)?)?;
    let mut line = String::new();
    for piece in pieces(form) {
        match piece {
            "processor" => line += PROCESSORS.get(usize::from(record.processor))?,
            "register" => line += REGISTERS.get(usize::from(record.register))?,
            "location" => line.push(*LOCATIONS.get(usize::from(record.location))?),
            "value" => line += &record.value.to_string(),
            words => line += words,
        }
    }
    (read_form(form, record.kind, &line) == Ok(record)).then_some(line)
}

/// The record of a line with single spaces between its words. Where no form fits, the one that fits
/// furthest says why.
pub fn read(forms: &Forms, line: &str) -> Result<Record, String> {
    let mut stops = Vec::new();
    for (kind, form) in (1..).zip(forms) {
        match read_form(form, kind, line) {
            Ok(record) => return Ok(record),
            Err(stop) => stops.push(stop),
        }
    }
    let furthest = stops.into_iter().min_by_key(|stop| stop.left);
    Err(furthest.map_or_else(String::new, |stop| stop.why))
}

// A form's fixed words and the names of its fields, in turn.
fn pieces(form: &str) -> impl Iterator<Item = &str> {
    form.split(['{', '}'])
}

fn read_form(form: &str, kind: u8, line: &str) -> Result<Record, Stop> {
    let mut record = Record::of_bytes([kind, 0, 0, 0, 0, 0, 0, 0]);
    let mut rest = line;
    for piece in pieces(form) {
        match piece {
            "processor" => record.processor = name(piece, &PROCESSORS, &mut rest)?,
            "register" => record.register = name(piece, &REGISTERS, &mut rest)?,
            "location" => record.location = name(piece, &LOCATIONS.map(String::from), &mut rest)?,
            "value" => record.value = value(&mut rest)?,
            words => {
                rest = rest
                    .strip_prefix(words)
                    .ok_or_else(|| not_understood(rest))?
            }
        }
    }
    if rest.is_empty() {
        Ok(record)
    } else {
        Err(not_understood(rest))
    }
}

// Takes a name from the front of the rest, and gives its number among the names.
fn name(field: &str, names: &[impl AsRef<str>], rest: &mut &str) -> Result<u8, Stop> {
    let line = *rest;
    let run = match field {
        "processor" => run(rest, |mark| mark.is_ascii_digit()),
        _ => run(rest, |mark| mark.is_ascii_alphabetic()),
    };
    let number = (0..).zip(names).find(|(_, name)| name.as_ref() == run);
    number.map(|(number, _)| number).ok_or_else(|| match run {
        "" => not_understood(line),
        _ => Stop::new(rest, format!("no such {field}: {run}")),
    })
}

fn value(rest: &mut &str) -> Result<u32, Stop> {
    let run = run(rest, |mark| mark.is_ascii_digit());
    run.parse()
        .map_err(|_| Stop::new(rest, format!("a value is 0 to {}", u32::MAX)))
}

// Takes the longest run of such marks from the front of the rest.
fn run<'l>(rest: &mut &'l str, such: impl Fn(char) -> bool) -> &'l str {
    let end = rest.find(|mark| !such(mark)).unwrap_or(rest.len());
    let (run, after) = rest.split_at(end);
    *rest = after;
    run
}

// How many bytes of a line were left where a form ceased to fit, and why it did.
#[derive(PartialEq, Eq)]
struct Stop {
    left: usize,
    why: String,
}

impl Stop {
    fn new(rest: &str, why: String) -> Stop {
        let left = rest.len();
        Stop { left, why }
    }
}

fn not_understood(rest: &str) -> Stop {
    let why = match rest.trim() {
        "" => "the line ends early".to_string(),
        rest => format!("not understood: {rest}"),
    };
    Stop::new(rest, why)
}
