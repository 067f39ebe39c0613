//! Walks of allowed steps, and the damage that makes each number of a trace.

use super::damage::{damage_bytes, damage_record};
use super::tempting::tempted;
use crate::dice::Dice;
use crate::kinds::Step;
use crate::record::{bytes, records, Field, Record, LOCATIONS, PROCESSORS};
use crate::run::Run;
use crate::table::Table;

/// When a walk drains.
#[derive(Clone, Copy)]
pub enum Habit {
    AsItComes,
    AtOnce,
    AtLast,
}

/// A finished trace of the table.
pub fn walk(dice: &mut Dice, habit: Habit, table: &Table) -> Vec<u8> {
    let mut run = Run::new(table);
    while let Some(step) = wander(dice, habit, run.moves()) {
        run.take(step);
    }
    bytes(run.steps())
}

fn wander(dice: &mut Dice, habit: Habit, moves: Vec<Record>) -> Option<Record> {
    let (drains, others): (Vec<Record>, Vec<Record>) =
        moves.iter().partition(|step| Step::Drain.is(step));
    let (first, then) = match habit {
        Habit::AsItComes => return dice.find(&moves),
        Habit::AtOnce => (drains, others),
        Habit::AtLast => (others, drains),
    };
    dice.find(&first).or_else(|| dice.find(&then))
}

/// After any number of steps, at times before the first.
pub fn cut(dice: &mut Dice, trace: &mut Vec<u8>) {
    let steps = trace.len() / Record::BYTES;
    let kept = if dice.one_in(4) {
        0
    } else {
        dice.below(steps + 1)
    };
    trace.truncate(kept * Record::BYTES);
}

/// One damage, or two, so that the order of the tests shows.
pub fn damage(dice: &mut Dice, table: &[u8], trace: &mut Vec<u8>) {
    for _ in 0..dice.pick(&[1, 1, 1, 2]) {
        let mut steps = records(trace);
        let at = dice.below(steps.len() + 1);
        match dice.below(30) {
            0 | 1 => {
                damage_bytes(dice, trace);
                continue;
            }
            2 | 3 => damage_record(dice, &mut steps, uses),
            4 => steps.truncate(at),
            // near its end: programs are done and writes wait
            5..=8 => steps.truncate(steps.len().saturating_sub(1 + dice.below(3))),
            9 => steps.insert(at, any_step(dice)),
            10 if at < steps.len() => steps[at] = changed(dice, steps[at]),
            11 if at < steps.len() => steps.insert(at, steps[at]),
            12 if at + 1 < steps.len() => steps.swap(at, at + 1),
            13 if at < steps.len() => drop(steps.remove(at)),
            _ => tempted(dice, table, &mut steps),
        }
        *trace = bytes(&steps);
    }
}

fn uses(kind: u8) -> Option<&'static [Field]> {
    Step::of(kind).map(Step::uses)
}

/// Any step. One that uses no location and no value has them mostly all the same.
fn any_step(dice: &mut Dice) -> Record {
    Record {
        kind: 1 + dice.below(7) as u8,
        processor: dice.below(PROCESSORS) as u8,
        register: 0,
        location: dice.below(LOCATIONS) as u8,
        value: dice.value(),
    }
}

/// One field of a step is another's.
fn changed(dice: &mut Dice, mut step: Record) -> Record {
    let other = any_step(dice);
    match dice.below(4) {
        0 => step.kind = other.kind,
        1 => step.processor = other.processor,
        2 => step.location = other.location,
        _ => step.value = other.value,
    }
    step
}
