//! Tables that fill a buffer where drains come at last: ten to sixteen writes wait.

use super::tables::{joined, program, record, ALL};
use crate::dice::Dice;
use crate::kinds;
use crate::record::{processors, Record, LOCATIONS, PROCESSORS};
use crate::table::INSTRUCTIONS;

const STORE_KINDS: [u8; 4] = [
    kinds::STORE_CONSTANT,
    kinds::STORE_CONSTANT,
    kinds::STORE_CONSTANT,
    kinds::STORE_REGISTER,
];

const READ_KINDS: [u8; 4] = [
    kinds::LOAD,
    kinds::LOAD,
    kinds::EXCHANGE,
    kinds::EXCHANGE_AND_ADD,
];

/// How many stores a program has, mostly fifteen or sixteen.
const STORES: [usize; 15] = [10, 11, 12, 13, 13, 14, 14, 15, 15, 15, 15, 15, 16, 16, 16];

/// One processor or more fill their buffers; the others have few instructions or none.
pub fn table(dice: &mut Dice) -> Vec<Record> {
    let many = dice.pick(&[1, 1, 1, 2, 2, PROCESSORS]);
    let filling = dice.some(many, processors().collect());
    let most = dice.pick(&[0, 1, 2, 3]);
    let mut programs = Vec::new();
    for processor in processors() {
        programs.push(if filling.contains(&processor) {
            filling_program(dice, processor)
        } else {
            program(dice, ALL, processor, most)
        });
    }
    joined(dice, ALL, programs)
}

/// Stores, and then a read or two, if there is a place for them.
fn filling_program(dice: &mut Dice, processor: u8) -> Vec<Record> {
    let stores = dice.pick(&STORES);
    let instructions = INSTRUCTIONS.min(stores + 1 + dice.below(2));
    let value = dice.number() as u32;
    let mut program = Vec::new();
    for (number, location) in (0..).zip(locations(dice, stores, instructions)) {
        let is_store = program.len() < stores;
        let kind = dice.pick(if is_store { &STORE_KINDS } else { &READ_KINDS });
        let mut instruction = record(dice, kind, ALL);
        (instruction.processor, instruction.location) = (processor, location);
        // Each constant is another one: no write can be taken for another.
        if kind == kinds::STORE_CONSTANT {
            instruction.value = value.wrapping_add(number);
        }
        program.push(instruction);
    }
    program
}

/// The location of each instruction. The first store's is that of no other; a read's is that of the
/// oldest write, that of the newest, or one that no store writes.
fn locations(dice: &mut Dice, stores: usize, instructions: usize) -> Vec<u8> {
    let all = dice.some(LOCATIONS, (0..LOCATIONS as u8).collect());
    let (oldest, none) = (all[0], all[1]);
    let others = &all[2..3 + dice.below(LOCATIONS - 2)];
    let mut locations = vec![oldest];
    locations.extend((1..stores).map(|_| dice.pick(others)));
    let newest = locations[stores - 1];
    let of_read = [oldest, newest, none];
    locations.extend((stores..instructions).map(|_| dice.pick(&of_read)));
    locations
}
