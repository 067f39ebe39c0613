//! What a text is to say.

use crate::dice::Dice;
use crate::generate::tables::{record, ALL};
use crate::kinds;
use crate::record::{processors, Record, LOCATIONS, PROCESSORS, REGISTERS};
use crate::table::INSTRUCTIONS;

/// Locations are numbered by first appearance already.
pub struct Plan {
    pub headings: usize,
    /// All small letters; the first are the locations in turn.
    pub letters: Vec<u8>,
    pub initial: Vec<Record>,
    /// Of each row the cells, one for each heading.
    pub rows: Vec<Vec<Option<Record>>>,
}

impl Plan {
    pub fn records(&self) -> Vec<Record> {
        let instructions = self.rows.iter().flatten().flatten();
        self.initial.iter().chain(instructions).copied().collect()
    }
}

struct Shape {
    headings: usize,
    locations: usize,
    initial: usize,
    rows: usize,
    /// Of eight cells of a row so many are empty.
    empty: usize,
    /// An initial cell is given twice.
    twice: bool,
}

/// 88 records, the most that a table can have.
const FULL: Shape = Shape {
    headings: PROCESSORS,
    locations: LOCATIONS,
    initial: LOCATIONS + PROCESSORS * REGISTERS,
    rows: INSTRUCTIONS,
    empty: 0,
    twice: false,
};

/// Within all limits mostly; otherwise it goes beyond one.
pub fn plan(dice: &mut Dice) -> Plan {
    let mut shape = Shape {
        headings: dice.pick(&[1, 1, 2, 2, 3, PROCESSORS]),
        locations: dice.pick(&[1, 2, 2, 3, 5, LOCATIONS, LOCATIONS, LOCATIONS]),
        initial: dice.pick(&[0, 0, 1, 2, 3, 5, 10, 24]),
        rows: dice.pick(&[0, 1, 1, 2, 2, 3, 3, 4, 5, 8, INSTRUCTIONS]),
        empty: dice.pick(&[0, 1, 2, 4, 7]),
        twice: false,
    };
    match dice.below(50) {
        0 => shape.headings = PROCESSORS + 1 + dice.below(2),
        1 | 2 => shape.locations = LOCATIONS + 1 + dice.below(3),
        3..=6 => shape.twice = true,
        7..=9 => {
            shape.rows = INSTRUCTIONS + 1 + dice.below(5);
            shape.empty = dice.pick(&[0, 0, 1]);
        }
        // far more than 88 records
        10 if dice.one_in(4) => shape.rows = 100 + dice.below(900),
        11 => shape = FULL,
        _ => {}
    }
    filled(dice, &shape)
}

fn filled(dice: &mut Dice, shape: &Shape) -> Plan {
    let mut locations = 0;
    let mut initial = initial(dice, shape, &mut locations);
    if shape.twice {
        give_twice(dice, &mut initial);
    }
    let mut rows = Vec::new();
    for _ in 0..shape.rows {
        let mut row = Vec::new();
        for column in 0..shape.headings {
            let is_empty = dice.below(8) < shape.empty;
            row.push(match is_empty {
                true => None,
                false => Some(instruction(dice, column, shape.locations, &mut locations)),
            });
        }
        rows.push(row);
    }
    let letters = dice.some(26, (b'a'..=b'z').collect());
    Plan {
        headings: shape.headings,
        letters,
        initial,
        rows,
    }
}

/// Cells of memory and registers, each once.
fn initial(dice: &mut Dice, shape: &Shape, locations: &mut usize) -> Vec<Record> {
    let mut cells = vec![[kinds::INITIAL_MEMORY, 0, 0]; shape.locations];
    for processor in processors() {
        let registers = 0..REGISTERS as u8;
        cells.extend(registers.map(|register| [kinds::INITIAL_REGISTER, processor, register]));
    }
    let mut initial = Vec::new();
    for [kind, processor, register] in dice.some(shape.initial, cells) {
        let mut location = 0;
        if kind == kinds::INITIAL_MEMORY {
            location = *locations as u8;
            *locations += 1;
        }
        let value = value(dice);
        initial.push(Record {
            kind,
            processor,
            register,
            location,
            value,
        });
    }
    initial
}

/// Once more, perhaps with another value.
fn give_twice(dice: &mut Dice, initial: &mut Vec<Record>) {
    if initial.is_empty() {
        initial.push(record(dice, kinds::INITIAL_REGISTER, ALL));
    }
    let first = dice.below(initial.len());
    let mut again = initial[first];
    if dice.one_in(2) {
        again.value = value(dice);
    }
    let at = first + 1 + dice.below(initial.len() - first);
    initial.insert(at, again);
}

/// Of any kind; the location is one that has appeared, or the next one.
fn instruction(dice: &mut Dice, column: usize, most: usize, locations: &mut usize) -> Record {
    let number = kinds::STORE_CONSTANT + dice.below(9) as u8;
    let mut instruction = record(dice, number, ALL);
    instruction.processor = column as u8;
    match number {
        kinds::FENCE | kinds::SET_REGISTER => {}
        _ if *locations < most && (*locations == 0 || dice.one_in(2)) => {
            instruction.location = *locations as u8;
            *locations += 1;
        }
        _ => instruction.location = dice.below(*locations) as u8,
    }
    if let kinds::STORE_CONSTANT | kinds::SET_REGISTER = number {
        instruction.value = value(dice);
    }
    instruction
}

/// Small, at the ends of the range or on both sides of what can be written with a minus sign.
fn value(dice: &mut Dice) -> u32 {
    match dice.below(10) {
        0 | 1 => dice.pick(&[u32::MAX, u32::MAX - 1, u32::MAX - 9]),
        2 | 3 => dice.pick(&[1 << 31, (1 << 31) - 1, (1 << 31) + 1]),
        4 => dice.number() as u32,
        5 | 6 => 0,
        _ => dice.below(100) as u32,
    }
}
