//! What a call answers: the numbers of document 01 and of orders 1 and 2, each with its place.

use std::ops::RangeInclusive;

#[derive(Clone, Copy, Debug, PartialEq, Eq)]
pub struct Reply {
    pub number: u64,
    pub place: u64,
}

impl Reply {
    pub fn new(number: u64, place: usize) -> Reply {
        let place = place as u64;
        Reply { number, place }
    }
}

pub const DONE: u64 = 0;
pub const TABLE_LENGTH: u64 = 1;
pub const TABLE_KIND: u64 = 2;
pub const TABLE_FIELD_TOO_LARGE: u64 = 3;
pub const TABLE_UNUSED_FIELD: u64 = 4;
pub const INITIAL_AFTER_INSTRUCTION: u64 = 5;
pub const CELL_GIVEN_TWICE: u64 = 6;
pub const SEVENTEENTH_INSTRUCTION: u64 = 7;
pub const TRACE_LENGTH: u64 = 8;
pub const STEP_KIND: u64 = 9;
pub const STEP_FIELD: u64 = 10;
pub const UNFINISHED: u64 = 12;
pub const ROOM_TOO_SMALL: u64 = 13;
pub const ANOTHER_KIND_IS_NEXT: u64 = 14;
pub const NOT_THE_RIGHT_ONE: u64 = 15;
pub const LOCK_HELD: u64 = 16;
pub const BUFFER_NOT_EMPTY: u64 = 17;
pub const NOTHING_WAITS: u64 = 18;
pub const OUTSIDE_THE_GRAMMAR: u64 = 19;
pub const NO_SUCH_LOCATION_OR_PROCESSOR: u64 = 20;
pub const CONSTANT_OUT_OF_RANGE: u64 = 21;

/// Why a step is turned down.
pub const OF_A_STEP: RangeInclusive<u64> = ANOTHER_KIND_IS_NEXT..=NOTHING_WAITS;

/// All numbers of a check or a finish. 11 is given no more: since order 1 the last five stand in its
/// place.
pub fn numbers() -> impl Iterator<Item = u64> {
    (DONE..=STEP_FIELD).chain(UNFINISHED..=NOTHING_WAITS)
}

/// All numbers of a litmus text. No others of a table can come.
pub const OF_A_TEXT: [u64; 7] = [
    DONE,
    CELL_GIVEN_TWICE,
    SEVENTEENTH_INSTRUCTION,
    ROOM_TOO_SMALL,
    OUTSIDE_THE_GRAMMAR,
    NO_SUCH_LOCATION_OR_PROCESSOR,
    CONSTANT_OUT_OF_RANGE,
];
