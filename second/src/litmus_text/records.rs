//! The records of a whole text that is within the limits.

use super::grammar::{Descent, Part};
use super::limits::sign_and_digits;
use super::tokens::Token;
use crate::forms::REGISTERS;
use crate::record::Record;

/// One for each cell, in text order; the locations are numbered on the way.
pub fn records(tokens: &[Token], descent: &Descent) -> Vec<Record> {
    let mut locations = Vec::new();
    let mut records = Vec::new();
    for cell in &descent.cells {
        let mut record = Record::of_bytes([cell.kind, cell.column as u8, 0, 0, 0, 0, 0, 0]);
        for at in cell.tokens.clone() {
            let token = tokens[at].bytes;
            match descent.standing[at] {
                Part::Processor => record.processor = value(token) as u8,
                Part::Register => record.register = register(token),
                Part::Location => record.location = location(&mut locations, token),
                Part::Constant | Part::RowConstant => record.value = stored(token),
                Part::Is(_) | Part::Name | Part::Heading(_) => {}
            }
        }
        records.push(record);
    }
    records
}

fn register(name: &[u8]) -> u8 {
    let before = REGISTERS
        .iter()
        .take_while(|other| other.as_bytes() != name);
    before.count() as u8
}

/// Its number by first appearance.
fn location<'t>(locations: &mut Vec<&'t [u8]>, letter: &'t [u8]) -> u8 {
    let found = locations.iter().position(|&other| other == letter);
    let number = found.unwrap_or_else(|| {
        locations.push(letter);
        locations.len() - 1
    });
    number as u8
}

/// The constant or, if it is negative, its value plus 4294967296: with the bits of a word these are
/// one subtraction from 0.
fn stored(constant: &[u8]) -> u32 {
    match sign_and_digits(constant) {
        (true, digits) => 0_u32.wrapping_sub(value(digits)),
        (false, digits) => value(digits),
    }
}

/// Of digits that are no more than a word holds.
fn value(digits: &[u8]) -> u32 {
    let more = |value, digit: &u8| value * 10 + u32::from(digit - b'0');
    digits.iter().fold(0, more)
}
