//! All runs of a table, from the start: what they end in, and how many of them do.
//!
//! All runs have the same number of steps, k. So the states that can be reached are gathered
//! layer by layer: those after no step, after one step, and so on.

use crate::kinds::Step;
use crate::record::{processors, Record};
use crate::run::{Run, CELLS};
use crate::table::Table;
use std::collections::{BTreeMap, BTreeSet};

/// Numbers of cells in a result, each with the value that the cell is to have.
pub type Condition = [(usize, u32)];

pub fn meets(cells: &[u32; CELLS], condition: &Condition) -> bool {
    condition.iter().all(|&(cell, value)| cells[cell] == value)
}

/// Every outcome, with the number of runs that end in it.
pub fn outcomes(table: &Table) -> BTreeMap<[u32; CELLS], u128> {
    let start = Run::new(table);
    let k = start.left();
    let mut layer = gather([(start, 1)]);
    for _ in 0..k {
        layer = after(&layer);
    }
    let ends = layer.into_values();
    let mut outcomes = BTreeMap::new();
    for (run, runs) in ends {
        let sum: &mut u128 = outcomes.entry(run.cells()).or_default();
        *sum = sum.saturating_add(runs);
    }
    outcomes
}

/// The nearest trace for a condition that no run meets. It would end in the condition. All its
/// steps are allowed but one, which reads another value than the one seen: a value that the
/// condition or the table names. Of all such traces it is one in which this step, whose place is
/// given, comes as late as possible.
pub fn nearest(table: &Table, condition: &Condition) -> Option<(Vec<Record>, usize)> {
    let start = Run::new(table);
    let k = start.left();
    let values = values(table, condition);
    let mut layers = vec![gather([(start, 1)])];
    while layers.len() < k {
        layers.extend(layers.last().map(after));
    }
    for (place, layer) in layers.iter().enumerate().rev() {
        let runs = layer.values().map(|(run, _)| run);
        let misled = runs.flat_map(|run| misled(run, &values));
        let mut layer = gather(misled.map(|run| (run, 1)));
        for _ in place + 1..k {
            layer = after(&layer);
        }
        let mut ends = layer.into_values();
        if let Some((run, _)) = ends.find(|(run, _)| meets(&run.cells(), condition)) {
            return Some((run.steps().to_vec(), place));
        }
    }
    None
}

// The runs that lead to one state have the same futures: one of them stands for all, with their
// number. The largest number stands for itself and all above it.
type Layer<'t> = BTreeMap<State, (Run<'t>, u128)>;

fn gather<'t>(reached: impl IntoIterator<Item = (Run<'t>, u128)>) -> Layer<'t> {
    let mut layer = Layer::new();
    for (run, runs) in reached {
        let (_, sum) = layer.entry(State::of(&run)).or_insert((run, 0));
        *sum = sum.saturating_add(runs);
    }
    layer
}

fn after<'t>(layer: &Layer<'t>) -> Layer<'t> {
    let moved = |(run, runs): &(Run<'t>, u128)| {
        let moved = run.moves().into_iter().map(|step| extended(run, step));
        moved.map(|run| (run, *runs)).collect::<Vec<_>>()
    };
    gather(layer.values().flat_map(moved))
}

// The run after each read that would be allowed if its value were the one seen.
fn misled<'t>(run: &Run<'t>, values: &BTreeSet<u32>) -> Vec<Run<'t>> {
    let mut misled = Vec::new();
    for read in run.moves().into_iter().filter(|step| Step::Read.is(step)) {
        for &value in values.iter().filter(|&&value| value != read.value) {
            misled.push(extended(run, Record { value, ..read }));
        }
    }
    misled
}

fn extended<'t>(run: &Run<'t>, step: Record) -> Run<'t> {
    let mut run = run.clone();
    run.take(step);
    run
}

fn values(table: &Table, condition: &Condition) -> BTreeSet<u32> {
    let named = condition.iter().map(|&(_, value)| value);
    let registers = table.registers.iter().flatten();
    let initial = registers.chain(&table.memory).copied();
    let program_steps = table.programs.iter().flatten();
    let constants = program_steps.map(|(instruction, _)| instruction.value);
    named.chain(initial).chain(constants).collect()
}

// All that the futures of a run depend on, worked out from its history.
#[derive(PartialEq, Eq, PartialOrd, Ord)]
struct State {
    cells: [u32; CELLS],
    holder: Option<u8>,
    processors: Vec<OfProcessor>,
}

#[derive(PartialEq, Eq, PartialOrd, Ord)]
struct OfProcessor {
    program_steps: usize,
    // The value of a read that is the last program step: an exchange keeps it aside until its
    // write, and a load has it in a register.
    kept: Option<u32>,
    waiting: Vec<(u8, u32)>,
}

impl State {
    fn of(run: &Run) -> State {
        let of_processor = |processor| {
            let own = |step: &&Record| step.processor == processor && !Step::Drain.is(step);
            let mut own = run.steps().iter().filter(own);
            OfProcessor {
                program_steps: own.clone().count(),
                kept: own
                    .next_back()
                    .filter(|step| Step::Read.is(step))
                    .map(|read| read.value),
                waiting: run.waiting(processor),
            }
        };
        State {
            cells: run.cells(),
            holder: run.holder(),
            processors: processors().map(of_processor).collect(),
        }
    }
}

#[cfg(test)]
mod tests {
    use super::*;
    use crate::record::bytes;
    use crate::table;
    use crate::text::{cells, table_bytes, trace_text};

    fn table(text: &str) -> Table {
        table::read(&table_bytes(text).unwrap()).unwrap()
    }

    // Counts each run by itself.
    fn one_by_one(run: &mut Run, outcomes: &mut BTreeMap<[u32; CELLS], u128>) {
        if run.finished() {
            *outcomes.entry(run.cells()).or_default() += 1;
        }
        for step in run.moves() {
            run.take(step);
            one_by_one(run, outcomes);
            run.undo();
        }
    }

    #[test]
    fn runs_are_counted_as_one_by_one() {
        for text in [
            "",
            "p0 store x 1, p0 load EAX y, p1 store y 1, p1 load EBX x",
            "init p0 EAX 1, init p1 EAX 1, p0 xadd x EAX, p1 xchg x EAX, p1 load EBX x",
            "init p0 EAX 1, init p1 EAX 2, p0 lock xadd x EAX, p1 store x EAX, p1 load EBX x",
            "p3 load EAX x, p3 set EAX 0, p2 store x 1, p2 fence, p2 store x 2",
        ] {
            let table = table(text);
            let mut counted = BTreeMap::new();
            one_by_one(&mut Run::new(&table), &mut counted);
            assert_eq!(outcomes(&table), counted, "{text}");
        }
    }

    #[test]
    fn the_false_read_comes_late() {
        let table = table("p0 store x 1, p0 store y 1, p1 load EAX y, p1 load EBX x");
        let (trace, place) = nearest(&table, &cells("p1 EAX 1, p1 EBX 0").unwrap()).unwrap();
        let trace = trace_text(&bytes(&trace)).replace('\n', " ");
        assert_eq!(
            (&trace[..], place),
            ("W0 x1 W0 y1 D0 x1 D0 y1 R1 y1 R1 x0 ", 5)
        );
        assert_eq!(nearest(&table, &cells("p0 EAX 1").unwrap()), None);
    }
}
