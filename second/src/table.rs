//! Reading a table: document 01's numbers 1 to 7.

use crate::kinds::{self, Kind, Step};
use crate::record::{records, Record, LOCATIONS, PROCESSORS, REGISTERS};
use crate::reply::{self, Reply};

/// Instructions of one processor, at most.
pub const INSTRUCTIONS: usize = 16;

/// The initial cells, and each processor's program steps in order, each with its instruction.
#[derive(Clone, Debug, Default, PartialEq, Eq)]
pub struct Table {
    pub registers: [[u32; REGISTERS]; PROCESSORS],
    pub memory: [u32; LOCATIONS],
    pub programs: [Vec<(Record, Step)>; PROCESSORS],
}

pub fn read(bytes: &[u8]) -> Result<Table, Reply> {
    let records = records(bytes);
    if bytes.len() % Record::BYTES != 0 {
        return Err(Reply::new(reply::TABLE_LENGTH, records.len()));
    }
    let mut table = Table::default();
    for (place, &record) in records.iter().enumerate() {
        if let Some(number) = refusal(&records[..place], record) {
            return Err(Reply::new(number, place));
        }
        table.put(record);
    }
    Ok(table)
}

/// Numbers 2 to 7 for one record, after the records that stand before it.
fn refusal(before: &[Record], record: Record) -> Option<u64> {
    let kind = match kinds::kind(record.kind) {
        Some(kind) => kind,
        None => return Some(reply::TABLE_KIND),
    };
    if record.used_too_large(kind.uses) {
        Some(reply::TABLE_FIELD_TOO_LARGE)
    } else if record.unused_not_zero(kind.uses) {
        Some(reply::TABLE_UNUSED_FIELD)
    } else if kind.is_instruction() {
        instruction_refusal(before, record)
    } else {
        initial_refusal(before, record)
    }
}

fn initial_refusal(before: &[Record], record: Record) -> Option<u64> {
    // Two records give the same cell when they differ at most in the value.
    let cell = |record: &Record| Record {
        value: 0,
        ..*record
    };
    if before.iter().any(is_instruction) {
        Some(reply::INITIAL_AFTER_INSTRUCTION)
    } else if before.iter().any(|other| cell(other) == cell(&record)) {
        Some(reply::CELL_GIVEN_TWICE)
    } else {
        None
    }
}

fn instruction_refusal(before: &[Record], record: Record) -> Option<u64> {
    let own = |other: &&Record| is_instruction(other) && other.processor == record.processor;
    if before.iter().filter(own).count() == INSTRUCTIONS {
        Some(reply::SEVENTEENTH_INSTRUCTION)
    } else {
        None
    }
}

pub fn is_instruction(record: &Record) -> bool {
    kinds::kind(record.kind).map_or(false, Kind::is_instruction)
}

impl Table {
    /// Takes in a record that was not refused.
    fn put(&mut self, record: Record) {
        let processor = usize::from(record.processor);
        match record.kind {
            kinds::INITIAL_MEMORY => self.memory[usize::from(record.location)] = record.value,
            kinds::INITIAL_REGISTER => {
                self.registers[processor][usize::from(record.register)] = record.value;
            }
            _ => {
                let steps = kinds::kind(record.kind).map_or(&[][..], |kind| kind.steps);
                self.programs[processor].extend(steps.iter().map(|&step| (record, step)));
            }
        }
    }
}
