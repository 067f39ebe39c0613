//! What generated cases reach: each reason to turn a step down, full buffers, the longest traces.

use second::calls::refusal;
use second::case::{Call, Case};
use second::generate;
use second::kinds::Step::{self, Drain, Fence, Local, Lock, Read, Unlock, Write};
use second::record::{records, Record};
use second::reply;
use second::run::Run;
use second::table::{self, INSTRUCTIONS};

/// Steps of the longest finished trace.
const LONGEST: u64 = 320;

fn cases() -> impl Iterator<Item = Case> {
    (0..5_000).map(|number| generate::case(1, number))
}

/// The trace up to the first step that is refused: each step and its number, and the run before it.
fn follow(case: &Case, mut see: impl FnMut(&Run, Record, Option<u64>)) {
    let whole = case.trace.len() % Record::BYTES == 0;
    if let (Ok(table), true) = (table::read(&case.table), whole) {
        let mut run = Run::new(&table);
        for step in records(&case.trace) {
            let number = refusal(&run, step);
            see(&run, step, number);
            if number.is_some() {
                return;
            }
            run.take(step);
        }
    }
}

/// What was so when a step came.
struct Seen {
    kind: Step,
    /// Why it was turned down.
    number: Option<u64>,
    blocked: bool,
    /// A write waits in the own buffer.
    waits: bool,
    /// It is the processor's next program step or its oldest drain.
    right: bool,
}

/// All well-formed steps, up to the first of a case that is refused.
fn seen() -> Vec<Seen> {
    let mut all = Vec::new();
    for case in cases() {
        follow(&case, |run, step, number| {
            let processor = step.processor;
            if let (Some(kind), None | Some(14..=18)) = (Step::of(step.kind), number) {
                all.push(Seen {
                    kind,
                    number,
                    blocked: run.blocked(processor),
                    waits: run.oldest(processor).is_some(),
                    right: [run.next(processor), run.oldest(processor)].contains(&Some(step)),
                });
            }
        });
    }
    all
}

/// The least of each kind of step with each of its numbers, and of each overlap.
const LEAST: usize = 10;

#[test]
fn each_kind_of_step_is_turned_down_with_each_of_its_numbers() {
    let seen = seen();
    for kind in Step::ALL {
        for &number in kind.tests() {
            let such = |seen: &&Seen| (seen.kind, seen.number) == (kind, Some(number));
            let times = seen.iter().filter(such).count();
            assert!(times >= LEAST, "{kind:?} {number}: {times}");
        }
    }
}

/// Kinds of steps with a number, and what must be so as well at times.
type Overlap = (&'static [Step], Option<u64>, fn(&Seen) -> bool);

/// Where a later test of the rule would fail too, or one that the rule does not have.
const OVERLAPS: [Overlap; 13] = [
    (&[Read, Write, Fence], Some(14), |seen| seen.blocked),
    (&[Lock, Unlock, Local], Some(14), |seen| seen.blocked),
    (&[Read, Write, Fence], Some(14), |seen| seen.waits),
    (&[Lock, Unlock, Local], Some(14), |seen| seen.waits),
    (&[Drain], Some(18), |seen| seen.blocked),
    (&[Read, Drain], Some(16), |seen| !seen.right),
    (&[Lock], Some(16), |seen| seen.waits),
    (&[Fence], Some(17), |seen| seen.blocked),
    (&[Write], Some(15), |seen| seen.blocked),
    (&[Read, Write], Some(15), |seen| seen.waits),
    (&[Drain], Some(15), |seen| seen.waits),
    (&[Write, Fence, Local], None, |seen| seen.blocked),
    (&[Read, Write, Local], None, |seen| seen.waits),
];

#[test]
fn the_order_of_the_tests_shows() {
    let seen = seen();
    for (place, &(kinds, number, so)) in OVERLAPS.iter().enumerate() {
        for &kind in kinds {
            let such = |seen: &&Seen| (seen.kind, seen.number) == (kind, number) && so(seen);
            let times = seen.iter().filter(such).count();
            assert!(times >= LEAST, "row {place}, {kind:?}: {times}");
        }
    }
}

#[test]
fn buffers_of_13_to_16_writes_drain() {
    let mut fullest = [0; INSTRUCTIONS + 1];
    for case in cases() {
        let mut most = 0;
        follow(&case, |run, step, number| {
            if number.is_none() && Drain.is(&step) {
                most = most.max(run.waiting(step.processor).len());
            }
        });
        fullest[most] += 1;
    }
    assert!(fullest[13..].iter().all(|&cases| cases > 0), "{fullest:?}");
}

#[test]
fn reads_find_the_oldest_of_fifteen_the_newest_or_none() {
    let (mut oldest, mut newest, mut none) = (0, 0, 0);
    for case in cases() {
        follow(&case, |run, step, number| {
            let waiting = run.waiting(step.processor);
            if number.is_none() && Read.is(&step) && waiting.len() == 15 {
                let to_it = |write: &(u8, u32)| write.0 == step.location;
                match waiting.iter().filter(|write| to_it(write)).count() {
                    0 => none += 1,
                    1 if to_it(&waiting[0]) => oldest += 1,
                    _ if to_it(&waiting[14]) => newest += 1,
                    _ => {}
                }
            }
        });
    }
    assert!(oldest > 0 && newest > 0 && none > 0);
}

#[test]
fn the_longest_traces_are_checked_finished_and_refused_late() {
    let (mut checked, mut finished, mut refused) = (0, 0, 0);
    for case in cases() {
        let reply = case.answer().reply;
        match (reply.number, case.call) {
            (reply::DONE, Call::Check) if reply.place == LONGEST => checked += 1,
            (reply::DONE, Call::Finish) if reply.place == LONGEST => finished += 1,
            (14..=18, _) if reply.place > 203 => refused += 1,
            _ => {}
        }
    }
    assert!(checked > 0 && finished > 0 && refused > 0);
}
