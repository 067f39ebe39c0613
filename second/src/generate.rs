//! Cases, each made by a seed and its number alone.

mod buffers;
mod damage;
mod rooms;
mod tables;
mod tempting;
mod texts;
mod traces;

use crate::calls::finish;
use crate::case::{Call, Case};
use crate::dice::Dice;
use crate::record::{bytes, Record};
use crate::run::RESULT;
use crate::table;
use traces::Habit;

/// What cases are about.
#[derive(Clone, Copy, Debug, PartialEq, Eq)]
pub enum Family {
    /// Checking and finishing.
    Traces,
    /// Litmus texts.
    Texts,
}

impl Family {
    pub fn case(self, seed: u64, number: u64) -> Case {
        match self {
            Family::Traces => case(seed, number),
            Family::Texts => texts::case(seed, number),
        }
    }
}

/// A check or a finish.
pub fn case(seed: u64, number: u64) -> Case {
    let dice = &mut Dice::new(seed, number);
    let Plan {
        records,
        habit,
        whole,
    } = plan(dice);
    let mut table = bytes(&records);
    let walk = |table| traces::walk(dice, habit, &table);
    let mut trace = table::read(&table).map_or(Vec::new(), walk);
    let call = match whole {
        true => Call::Check,
        false => damaged(dice, &mut table, &mut trace),
    };
    let needed = match call {
        Call::Check => RESULT,
        // Finishing in no room says what it needs.
        _ => finish(&table, &trace, &mut []).place as usize,
    };
    let room = rooms::room(dice, call, needed);
    Case {
        call,
        table,
        trace,
        room,
    }
}

/// The call, and the damage done for it.
fn damaged(dice: &mut Dice, table: &mut Vec<u8>, trace: &mut Vec<u8>) -> Call {
    let call = dice.pick(&[Call::Check, Call::Finish]);
    match (dice.below(10), call) {
        (0..=2, _) => tables::damage(dice, table),
        (3..=7, _) => traces::damage(dice, table, trace),
        (_, Call::Finish) => traces::cut(dice, trace),
        _ => {}
    }
    // At times both are damaged: a table's number comes before any of a trace.
    match dice.below(8) {
        0 => damage::damage_bytes(dice, trace),
        1 => traces::damage(dice, table, trace),
        _ => {}
    }
    call
}

struct Plan {
    /// A readable table.
    records: Vec<Record>,
    habit: Habit,
    /// The walk is checked as it is: only then is it shown what it ends in.
    whole: bool,
}

fn plan(dice: &mut Dice) -> Plan {
    let habit = dice.pick(&[
        Habit::AsItComes,
        Habit::AsItComes,
        Habit::AtOnce,
        Habit::AtLast,
    ]);
    let (records, habit) = match dice.below(50) {
        0 => (tables::largest(dice), habit),
        1 => (tables::locked(dice), habit),
        2..=4 => (buffers::table(dice), Habit::AtLast),
        5..=9 => (tables::meeting(dice), habit),
        10 => (tables::reading_back(dice), habit),
        11..=13 => return read_back(dice),
        _ => (tables::table(dice), habit),
    };
    Plan {
        records,
        habit,
        whole: false,
    }
}

/// Many reads find an own write that waits.
fn read_back(dice: &mut Dice) -> Plan {
    Plan {
        records: tables::reading_back(dice),
        habit: dice.pick(&[
            Habit::AsItComes,
            Habit::AtLast,
            Habit::AtLast,
            Habit::AtLast,
        ]),
        whole: true,
    }
}
