//! Steps that look right.

use crate::calls::refusal;
use crate::dice::Dice;
use crate::kinds::Step;
use crate::record::{processors, Record, LOCATIONS};
use crate::run::Run;
use crate::table::{self, Table};

/// Somewhere a step that looks right and is turned down.
pub fn tempted(dice: &mut Dice, table: &[u8], steps: &mut Vec<Record>) {
    let found = match table::read(table) {
        Ok(table) => temptations(dice, &table, steps),
        Err(_) => return,
    };
    if let Some(tempting) = one(dice, found) {
        let rest = steps.split_off(tempting.place);
        steps.extend(tempting.lock);
        steps.push(tempting.step);
        steps.extend(rest.iter().take(dice.below(3)));
    }
}

/// A step that is turned down at a place of a trace, perhaps after a lock that is taken there.
#[derive(Clone, Copy)]
struct Tempting {
    place: usize,
    lock: Option<Record>,
    step: Record,
    looks: Looks,
}

/// What there is to see of such a step.
#[derive(Clone, Copy)]
struct Looks {
    kind: Step,
    /// Why it is turned down.
    number: u64,
    blocked: bool,
    /// A write waits in the own buffer; for a read, one to its location.
    waits: bool,
    /// It is the processor's next program step or oldest drain, stopped by lock or buffer alone.
    stopped: bool,
}

const EITHER: [bool; 2] = [false, true];

/// Most tests meet where a processor is blocked.
const BLOCKED: [bool; 3] = [false, true, true];

/// What fewer traces can have is wanted more often.
const NUMBERS: [u64; 14] = [14, 14, 15, 15, 15, 16, 16, 16, 16, 16, 17, 17, 17, 18];

/// One of them: what is rare among them is as likely as what is common.
fn one(dice: &mut Dice, mut found: Vec<Tempting>) -> Option<Tempting> {
    keep(dice, &mut found, &BLOCKED, |looks| looks.blocked);
    keep(dice, &mut found, &NUMBERS, |looks| looks.number);
    keep(dice, &mut found, &Step::ALL, |looks| looks.kind);
    keep(dice, &mut found, &EITHER, |looks| looks.waits);
    keep(dice, &mut found, &EITHER, |looks| looks.stopped);
    dice.find(&found)
}

/// Keeps those that look like one of what is wanted and is there.
fn keep<T: Copy + PartialEq>(
    dice: &mut Dice,
    found: &mut Vec<Tempting>,
    wanted: &[T],
    what: fn(Looks) -> T,
) {
    let is = |tempting: &Tempting, wanted: T| what(tempting.looks) == wanted;
    let there = |wanted: &T| found.iter().any(|tempting| is(tempting, *wanted));
    let wanted: Vec<T> = wanted.iter().copied().filter(there).collect();
    if let Some(wanted) = dice.find(&wanted) {
        found.retain(|tempting| is(tempting, wanted));
    }
}

/// How many places of a trace are looked at, at most.
const PLACES: usize = 16;

/// Those at some places of a trace, up to a step that is refused.
fn temptations(dice: &mut Dice, table: &Table, steps: &[Record]) -> Vec<Tempting> {
    let places = dice.some(PLACES, (0..=steps.len()).collect());
    let mut run = Run::new(table);
    let mut found = Vec::new();
    for place in 0..=steps.len() {
        if places.contains(&place) {
            found.extend(at_place(&mut run, place));
        }
        match steps.get(place) {
            Some(&step) if refusal(&run, step).is_none() => run.take(step),
            _ => break,
        }
    }
    found
}

/// Those after a run's steps, and those after a lock that could be taken next.
fn at_place(run: &mut Run, place: usize) -> Vec<Tempting> {
    let mut found = after(run, place, None);
    for lock in run.moves().into_iter().filter(|step| Step::Lock.is(step)) {
        run.take(lock);
        found.extend(after(run, place, Some(lock)));
        run.undo();
    }
    found
}

/// What is turned down of all that is in sight.
fn after(run: &Run, place: usize, lock: Option<Record>) -> Vec<Tempting> {
    let steps = processors().flat_map(|processor| in_sight(run, processor));
    let tempting = |step| {
        let looks = looks(run, step)?;
        Some(Tempting {
            place,
            lock,
            step,
            looks,
        })
    };
    steps.filter_map(tempting).collect()
}

/// None for a step that is allowed.
fn looks(run: &Run, step: Record) -> Option<Looks> {
    let (kind, processor) = (Step::of(step.kind)?, step.processor);
    let counts = |write: &(u8, u32)| kind != Step::Read || write.0 == step.location;
    Some(Looks {
        kind,
        number: run.why_not(step)?,
        blocked: run.blocked(processor),
        waits: run.waiting(processor).iter().any(counts),
        stopped: [run.next(processor), run.oldest(processor)].contains(&Some(step)),
    })
}

/// Each kind of step by the processor. Reads and writes are of its next program step's location,
/// with that step's value and with all that wait there or that memory holds, and of another
/// location; drains of what waits and of what does not.
fn in_sight(run: &Run, processor: u8) -> Vec<Record> {
    let next = run.next(processor);
    let (location, value) = next.map_or((0, 0), |next| (next.location, next.value));
    let other = (location + 1) % LOCATIONS as u8;
    let in_memory = |location| (location, run.memory(location));
    let waiting = run.waiting(processor);
    let mut cells = vec![(location, value), in_memory(location)];
    cells.extend(waiting.iter().filter(|write| write.0 == location));
    cells.extend([(other, value), in_memory(other)]);
    let mut steps = Vec::new();
    for kind in Step::ALL {
        let cells = match kind {
            Step::Read | Step::Write => cells.clone(),
            Step::Drain => [&waiting[..], &[(location, value)]].concat(),
            _ => vec![(0, 0)],
        };
        let step = |(location, value)| kind.by(processor, location, value);
        steps.extend(cells.into_iter().map(step));
    }
    steps
}
