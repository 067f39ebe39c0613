//! Readable tables of all sizes, and the damage that makes each of 1 to 7.

use super::damage::{damage_bytes, damage_record};
use crate::dice::Dice;
use crate::kinds;
use crate::record::{bytes, records, Field, Record, LOCATIONS, PROCESSORS, REGISTERS};
use crate::table::{is_instruction, INSTRUCTIONS};

/// Each kind of instruction, the common ones twice.
const ALL_KINDS: [u8; 12] = [
    kinds::STORE_CONSTANT,
    kinds::STORE_CONSTANT,
    kinds::STORE_REGISTER,
    kinds::LOAD,
    kinds::LOAD,
    kinds::SET_REGISTER,
    kinds::FENCE,
    kinds::EXCHANGE,
    kinds::LOCKED_EXCHANGE,
    kinds::EXCHANGE_AND_ADD,
    kinds::LOCKED_EXCHANGE_AND_ADD,
    kinds::LOCKED_EXCHANGE_AND_ADD,
];

/// As litmus tests have them: what waits, what reads past it, and what stops either.
const FEW_KINDS: [u8; 5] = [
    kinds::STORE_CONSTANT,
    kinds::STORE_CONSTANT,
    kinds::LOAD,
    kinds::FENCE,
    kinds::LOCKED_EXCHANGE_AND_ADD,
];

/// What is stopped while writes wait.
const STOPPING_KINDS: [u8; 3] = [
    kinds::FENCE,
    kinds::LOCKED_EXCHANGE,
    kinds::LOCKED_EXCHANGE_AND_ADD,
];

const LOCKED_KINDS: [u8; 2] = [kinds::LOCKED_EXCHANGE, kinds::LOCKED_EXCHANGE_AND_ADD];

/// What waits, and what may read it while it does; at times what empties the buffer.
const READING_BACK_KINDS: [u8; 12] = [
    kinds::STORE_CONSTANT,
    kinds::STORE_CONSTANT,
    kinds::STORE_CONSTANT,
    kinds::STORE_CONSTANT,
    kinds::STORE_REGISTER,
    kinds::LOAD,
    kinds::LOAD,
    kinds::LOAD,
    kinds::EXCHANGE,
    kinds::EXCHANGE_AND_ADD,
    kinds::EXCHANGE_AND_ADD,
    kinds::LOCKED_EXCHANGE,
];

/// What a table has in use: few processors, registers and locations, so that processors meet.
#[derive(Clone, Copy)]
pub struct InUse {
    kinds: &'static [u8],
    processors: usize,
    registers: usize,
    locations: usize,
}

pub const ALL: InUse = InUse {
    kinds: &ALL_KINDS,
    processors: PROCESSORS,
    registers: REGISTERS,
    locations: LOCATIONS,
};

pub fn table(dice: &mut Dice) -> Vec<Record> {
    let in_use = InUse {
        kinds: dice.pick(&[&ALL_KINDS[..], &FEW_KINDS]),
        processors: dice.pick(&[1, 2, 2, 2, 3, PROCESSORS]),
        registers: dice.pick(&[1, 2, REGISTERS]),
        locations: dice.pick(&[1, 2, 2, 2, 3, 4, LOCATIONS]),
    };
    let each = dice.pick(&[0, 1, 1, 2, 2, 2, 3, 3, 4, 6, INSTRUCTIONS]);
    filled(dice, in_use, each)
}

/// The most instructions, of all kinds.
pub fn largest(dice: &mut Dice) -> Vec<Record> {
    filled(dice, ALL, INSTRUCTIONS)
}

/// The most instructions, all of them locked: no table's traces are longer.
pub fn locked(dice: &mut Dice) -> Vec<Record> {
    let in_use = InUse {
        kinds: &LOCKED_KINDS,
        locations: dice.pick(&[1, 2, LOCATIONS]),
        ..ALL
    };
    filled(dice, in_use, INSTRUCTIONS)
}

/// Processors meet at the lock while writes wait: each stores, has a lock or a fence, and goes on.
pub fn meeting(dice: &mut Dice) -> Vec<Record> {
    let in_use = InUse {
        processors: dice.pick(&[2, 2, 3]),
        locations: dice.pick(&[1, 2, 3]),
        ..ALL
    };
    let mut programs = Vec::new();
    for processor in 0..in_use.processors as u8 {
        let mut kinds = vec![kinds::STORE_CONSTANT; 1 + dice.below(2)];
        kinds.push(dice.pick(&STOPPING_KINDS));
        kinds.push(dice.pick(&ALL_KINDS));
        let instruction = |kind| Record {
            processor,
            ..record(dice, kind, in_use)
        };
        programs.push(kinds.into_iter().map(instruction).collect());
    }
    joined(dice, in_use, programs)
}

/// Processors read what they and others write, and what still waits of it.
pub fn reading_back(dice: &mut Dice) -> Vec<Record> {
    let in_use = InUse {
        kinds: &READING_BACK_KINDS,
        processors: dice.pick(&[1, 2, 3, PROCESSORS]),
        registers: dice.pick(&[1, 2]),
        locations: dice.pick(&[1, 2, 2, 3]),
    };
    let each = dice.pick(&[3, 5, 6, 7, 8, INSTRUCTIONS]);
    filled(dice, in_use, each)
}

/// Each processor that is in use has at most so many instructions.
fn filled(dice: &mut Dice, in_use: InUse, each: usize) -> Vec<Record> {
    let mut programs = Vec::new();
    for processor in 0..in_use.processors as u8 {
        programs.push(program(dice, in_use, processor, each));
    }
    joined(dice, in_use, programs)
}

/// At most so many instructions of a processor; sixteen are all there.
pub fn program(dice: &mut Dice, in_use: InUse, processor: u8, most: usize) -> Vec<Record> {
    let mut program = Vec::new();
    for _ in 0..most {
        if most == INSTRUCTIONS || !dice.one_in(4) {
            let kind = dice.pick(in_use.kinds);
            program.push(Record {
                processor,
                ..record(dice, kind, in_use)
            });
        }
    }
    program
}

/// Initial records, then the programs in turns.
pub fn joined(dice: &mut Dice, in_use: InUse, programs: Vec<Vec<Record>>) -> Vec<Record> {
    let mut table = initial(dice, in_use);
    let mut left: Vec<_> = programs.iter().map(|program| program.iter()).collect();
    while let Some(turn) = dice.find(&indices(&left, |left| left.len() > 0)) {
        table.extend(left[turn].next());
    }
    table
}

/// Initial records of no cell, some or all, in any order.
fn initial(dice: &mut Dice, in_use: InUse) -> Vec<Record> {
    let mut cells: Vec<Record> = Vec::new();
    for location in 0..in_use.locations as u8 {
        let mut cell = record(dice, kinds::INITIAL_MEMORY, in_use);
        cell.location = location;
        cells.push(cell);
    }
    for number in 0..in_use.processors * in_use.registers {
        let mut cell = record(dice, kinds::INITIAL_REGISTER, in_use);
        cell.processor = (number / in_use.registers) as u8;
        cell.register = (number % in_use.registers) as u8;
        cells.push(cell);
    }
    let many = dice.pick(&[0, cells.len() / 3, cells.len()]);
    dice.some(many, cells)
}

/// A record of that kind: what it uses is in use, the rest is zero.
pub fn record(dice: &mut Dice, kind: u8, in_use: InUse) -> Record {
    let mut record = Record {
        kind,
        processor: 0,
        register: 0,
        location: 0,
        value: 0,
    };
    for &field in uses(kind).unwrap_or(&[]) {
        let number = match field {
            Field::Processor => dice.below(in_use.processors) as u32,
            Field::Register => dice.below(in_use.registers) as u32,
            Field::Location => dice.below(in_use.locations) as u32,
            Field::Value => dice.value(),
        };
        record.set(field, number);
    }
    record
}

fn uses(kind: u8) -> Option<&'static [Field]> {
    kinds::kind(kind).map(|kind| kind.uses)
}

fn indices<T>(of: &[T], wanted: impl Fn(&T) -> bool) -> Vec<usize> {
    (0..of.len()).filter(|&at| wanted(&of[at])).collect()
}

/// One damage, or two, so that the order of the tests shows.
pub fn damage(dice: &mut Dice, table: &mut Vec<u8>) {
    for _ in 0..dice.pick(&[1, 1, 2]) {
        let mut records = records(table);
        match dice.below(10) {
            0 | 1 => {
                damage_bytes(dice, table);
                continue;
            }
            2 => initial_late(dice, &mut records),
            3 => cell_twice(dice, &mut records),
            4 => seventeenth(dice, &mut records),
            _ => damage_record(dice, &mut records, uses),
        }
        *table = bytes(&records);
    }
}

fn initial_late(dice: &mut Dice, records: &mut Vec<Record>) {
    let first = records.iter().position(is_instruction);
    let late = record(dice, kinds::INITIAL_MEMORY, ALL);
    let at = first.map_or(records.len(), |first| {
        first + 1 + dice.below(records.len() - first)
    });
    records.insert(at, late);
}

fn cell_twice(dice: &mut Dice, records: &mut Vec<Record>) {
    let kind = dice.pick(&[kinds::INITIAL_MEMORY, kinds::INITIAL_REGISTER]);
    let given = indices(records, |record| !is_instruction(record));
    let mut again = match dice.find(&given) {
        Some(at) => records[at],
        None => record(dice, kind, ALL),
    };
    records.insert(0, again);
    if dice.one_in(2) {
        again.value = dice.value();
    }
    records.insert(dice.below(given.len() + 2), again);
}

/// So many instructions more that a processor has seventeen.
fn seventeenth(dice: &mut Dice, records: &mut Vec<Record>) {
    let processor = dice.below(PROCESSORS) as u8;
    let own = |record: &Record| is_instruction(record) && record.processor == processor;
    let first = records
        .iter()
        .position(is_instruction)
        .unwrap_or(records.len());
    for _ in indices(records, own).len()..INSTRUCTIONS + 1 {
        let kind = dice.pick(&ALL_KINDS);
        let mut more = record(dice, kind, ALL);
        more.processor = processor;
        records.insert(first + dice.below(records.len() + 1 - first), more);
    }
}
