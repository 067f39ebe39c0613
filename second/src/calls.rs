//! The three calls: the numbers of a trace and of a room, and the order of all.

use crate::kinds::Step;
use crate::litmus_text;
use crate::record::{bytes, records, Record};
use crate::reply::{self, Reply};
use crate::run::{Run, RESULT};
use crate::table::{self, Table};

/// Checks a whole trace. On 0 the room takes registers, memory and the number of own-buffer reads.
pub fn check(table: &[u8], trace: &[u8], room: &mut [u32]) -> Reply {
    reply(try_check(table, trace, room))
}

/// Finishes a trace. On 0 the room takes the k steps that were left.
pub fn finish(table: &[u8], trace: &[u8], room: &mut [u8]) -> Reply {
    reply(try_finish(table, trace, room))
}

/// Reads a litmus text. On 0 the room takes the records of its table.
pub fn litmus(text: &[u8], room: &mut [u8]) -> Reply {
    reply(try_litmus(text, room))
}

fn try_check(table: &[u8], trace: &[u8], room: &mut [u32]) -> Result<usize, Reply> {
    let table = table::read(table)?;
    let run = follow(&table, trace)?;
    let steps = run.steps().len();
    if !run.finished() {
        return Err(Reply::new(reply::UNFINISHED, steps));
    }
    lent(room, RESULT)?.copy_from_slice(&run.result());
    Ok(steps)
}

fn try_finish(table: &[u8], trace: &[u8], room: &mut [u8]) -> Result<usize, Reply> {
    let table = table::read(table)?;
    let mut run = follow(&table, trace)?;
    let k = run.left();
    let room = lent(room, k * Record::BYTES)?;
    for record in room.chunks_exact_mut(Record::BYTES) {
        if let Some(step) = run.finishing_step() {
            record.copy_from_slice(&step.bytes());
            run.take(step);
        }
    }
    Ok(k)
}

fn try_litmus(text: &[u8], room: &mut [u8]) -> Result<usize, Reply> {
    let records = litmus_text::read(text)?;
    let table = bytes(&records);
    table::read(&table)?;
    lent(room, table.len())?.copy_from_slice(&table);
    Ok(records.len())
}

/// The run after the whole trace, or the first refusal of it.
fn follow<'t>(table: &'t Table, trace: &[u8]) -> Result<Run<'t>, Reply> {
    let steps = records(trace);
    if trace.len() % Record::BYTES != 0 {
        return Err(Reply::new(reply::TRACE_LENGTH, steps.len()));
    }
    let run = beginning(table, &steps);
    let place = run.steps().len();
    match steps.get(place).and_then(|&step| refusal(&run, step)) {
        Some(number) => Err(Reply::new(number, place)),
        None => Ok(run),
    }
}

/// The run up to the first step that is refused.
pub fn beginning<'t>(table: &'t Table, steps: &[Record]) -> Run<'t> {
    let mut run = Run::new(table);
    for &step in steps {
        if refusal(&run, step).is_some() {
            break;
        }
        run.take(step);
    }
    run
}

/// Numbers 9 and 10 for one step, then 14 to 18.
pub fn refusal(run: &Run, step: Record) -> Option<u64> {
    let uses = match Step::of(step.kind) {
        Some(kind) => kind.uses(),
        None => return Some(reply::STEP_KIND),
    };
    if step.used_too_large(uses) || step.unused_not_zero(uses) {
        Some(reply::STEP_FIELD)
    } else {
        run.why_not(step)
    }
}

/// The part of the room that is needed, or 13.
fn lent<T>(room: &mut [T], needed: usize) -> Result<&mut [T], Reply> {
    room.get_mut(..needed)
        .ok_or_else(|| Reply::new(reply::ROOM_TOO_SMALL, needed))
}

fn reply(result: Result<usize, Reply>) -> Reply {
    match result {
        Ok(place) => Reply::new(reply::DONE, place),
        Err(refused) => refused,
    }
}
