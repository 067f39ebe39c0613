//! Damage to the tokens of a text, and to its bytes.

use super::pieces::{Piece, Role};
use super::plan::Plan;
use crate::dice::Dice;
use crate::record::LOCATIONS;

/// What comes in place of a token: beyond a limit, or no such token at all. A blank splits it.
type InPlace = (Role, &'static [&'static str]);

const OF_NUMBERS: [InPlace; 5] = [
    (Role::Constant, &CONSTANTS),
    (Role::RowConstant, &ROW_CONSTANTS),
    (Role::RowConstant, &ROW_CONSTANTS),
    (Role::Processor, &PROCESSORS),
    // where a processor could stand too, without what follows it
    (Role::InitialLocation, &PROCESSORS),
];

const OF_OTHERS: [InPlace; 6] = [
    (Role::Location, &["X", "xy", "EAX", "", "4", "-1"]),
    (Role::Head, &["x86", "X8", "X86a", "X 86", "86", ""]),
    (Role::Name, &["", "{", "a b"]),
    (
        Role::Register,
        &["EEX", "eax", "EAXX", "ESI", "E AX", "[x]", "0", ""],
    ),
    (
        Role::Heading,
        &[
            "P4", "P5", "P7", "P0", "P1", "P00", "P01", "p0", "P", "P 0", "",
        ],
    ),
    (Role::End, &ENDS),
];

const CONSTANTS: [&str; 19] = [
    "4294967296",
    "4294967296",
    "-2147483649",
    "-2147483649",
    "0004294967296",
    "-0002147483649",
    "-4294967295",
    "-4294967296",
    "18446744073709551616",
    "-18446744073709551617",
    "340282366920938463463374607431768211457",
    "99999999999999999999999999999999",
    "$1",
    "-",
    "--1",
    "- 1",
    "1a",
    "-1a",
    "4294967296a",
];

const ROW_CONSTANTS: [&str; 20] = [
    "$4294967296",
    "$4294967296",
    "$-2147483649",
    "$-2147483649",
    "$0004294967296",
    "$-0002147483649",
    "$-4294967295",
    "$-4294967296",
    "$18446744073709551616",
    "$-18446744073709551617",
    "$340282366920938463463374607431768211457",
    "$99999999999999999999999999999999",
    "4294967296",
    "-1",
    "$",
    "$-",
    "$--1",
    "$ 4294967296",
    "$- 1",
    "$4294967296a",
];

const PROCESSORS: [&str; 10] = [
    "4",
    "5",
    "004",
    "10",
    "256",
    "4294967296",
    "18446744073709551616",
    "99999999999999999999999999999999",
    "-1",
    "4a",
];

const ENDS: [&str; 10] = [
    "~ exists", "~exists1", "existsx", "Exists", "exist", "~forall", "forall1", "~~exists",
    "|exists", "",
];

/// Inside the grammar where it can stand, beyond a limit there; 19 elsewhere.
const BEYOND: [&str; 8] = [
    "4294967296",
    "-2147483649",
    "$4294967296",
    "$-2147483649",
    "4",
    "99999999999999999999",
    "P4",
    "P5",
];

const ADDED: [&str; 24] = [
    "X86", "SB", "{", "}", ";", ";", "|", "|", "=", ":", "[", "]", ",", "P0", "P1", "MOV", "XCHG",
    "LOCK", "MFENCE", "EAX", "$1", "1", "x", "exists",
];

/// A byte of the format, more often than not.
const ALPHABET: &[u8] = b"X86P0123456789{}{}=:;;||[],,$$--~~ existfoMOVLCKHGADFNBxyz\n\r";
const ODD: [u8; 7] = [9, 0, 128, 195, 255, 127, 11];

pub fn damage_pieces(dice: &mut Dice, pieces: &mut Vec<Piece>, plan: &Plan) {
    let at = dice.below(pieces.len());
    match dice.below(24) {
        0 if at + 1 < pieces.len() => pieces.swap(at, at + 1),
        1 => pieces.insert(at, pieces[at].clone()),
        2 => drop(pieces.remove(at)),
        3 => pieces.insert(at, Piece::new(Role::Word, dice.pick(&ADDED))),
        4 | 5 => cell_more_or_fewer(dice, pieces),
        6 | 7 => pieces[at].bytes = dice.pick(&BEYOND).as_bytes().to_vec(),
        8 | 9 => ninth_letter(dice, pieces, plan, |_| true),
        10 | 11 => ninth_letter(dice, pieces, plan, Piece::is_location),
        _ => in_place(dice, pieces),
    }
}

fn indices(pieces: &[Piece], wanted: impl Fn(&Piece) -> bool) -> Vec<usize> {
    (0..pieces.len())
        .filter(|&at| wanted(&pieces[at]))
        .collect()
}

/// A row or the headings have a `|` more or one fewer.
fn cell_more_or_fewer(dice: &mut Dice, pieces: &mut Vec<Piece>) {
    let frame = |bytes: &'static [u8]| move |piece: &Piece| piece.bytes == bytes;
    let more = dice.find(&indices(pieces, frame(b";")));
    match (more, dice.find(&indices(pieces, frame(b"|")))) {
        (_, Some(fewer)) if dice.one_in(2) => drop(pieces.remove(fewer)),
        (Some(more), _) => pieces.insert(more, Piece::new(Role::Frame, "|")),
        _ => {}
    }
}

/// Behind eight locations such a token becomes a ninth letter.
fn ninth_letter(dice: &mut Dice, pieces: &mut Vec<Piece>, plan: &Plan, such: fn(&Piece) -> bool) {
    let (eight, ninth) = (&plan.letters[..LOCATIONS], plan.letters[LOCATIONS]);
    for &letter in eight {
        if first_use(pieces, letter).is_none() {
            fill_braces(pieces, letter);
        }
    }
    let first_uses = eight.iter().map(|&letter| first_use(pieces, letter));
    let behind = first_uses.max().flatten();
    let mut places = indices(pieces, such);
    places.retain(|&at| Some(at) > behind);
    if let Some(at) = dice.find(&places) {
        pieces[at].bytes = vec![ninth];
    }
}

fn first_use(pieces: &[Piece], letter: u8) -> Option<usize> {
    let is_use = |piece: &Piece| piece.is_location() && piece.bytes == [letter];
    pieces.iter().position(is_use)
}

/// One more initial cell, the first.
fn fill_braces(pieces: &mut Vec<Piece>, letter: u8) {
    if let Some(brace) = pieces.iter().position(|piece| piece.bytes == b"{") {
        let cell = [
            Piece::new(Role::InitialLocation, [letter]),
            Piece::new(Role::Word, "="),
            Piece::new(Role::Constant, "0"),
            Piece::new(Role::Frame, ";"),
        ];
        pieces.splice(brace + 1..brace + 1, cell);
    }
}

/// Of the kinds of tokens that there are each is as likely, few or many.
fn in_place(dice: &mut Dice, pieces: &mut [Piece]) {
    let all: &[InPlace] = match dice.one_in(2) {
        true => &OF_OTHERS,
        false => &OF_NUMBERS,
    };
    let places = |role| indices(pieces, |piece| piece.role == role);
    let there = |&(role, others): &InPlace| (places(role), others);
    let mut there: Vec<_> = all.iter().map(there).collect();
    there.retain(|(places, _)| !places.is_empty());
    if let Some((places, others)) = dice.some(1, there).pop() {
        pieces[dice.pick(&places)].bytes = dice.pick(others).as_bytes().to_vec();
    }
}

/// Cut anywhere, or a byte less, more or other.
pub fn damage_bytes(dice: &mut Dice, text: &mut Vec<u8>) {
    if text.is_empty() {
        return;
    }
    let at = dice.below(text.len());
    let any = dice.number() as u8;
    let byte = match dice.below(8) {
        0 => dice.pick(&ODD),
        1 => any,
        _ => dice.pick(ALPHABET),
    };
    match dice.below(6) {
        0 => text.truncate(at),
        1 => drop(text.remove(at)),
        2 | 3 => text.insert(at, byte),
        _ => text[at] = byte,
    }
}
