//! How often numbers are given.

use crate::case::Case;
use crate::generate::Family;
use crate::kinds::Step;
use crate::record::records;
use crate::reply::{self, Reply};
use std::collections::BTreeMap;

/// Each number's cases; those of 14 to 18 also by the kind of step that was turned down.
pub struct Tally {
    family: Family,
    numbers: BTreeMap<u64, u64>,
    kinds: BTreeMap<(u64, Step), u64>,
}

/// Of generated cases, as this implementation answers them.
pub fn tally(family: Family, count: u64, seed: u64) -> Tally {
    let mut tally = Tally::new(family);
    for case in (0..count).map(|number| family.case(seed, number)) {
        tally.add(&case, case.answer().reply);
    }
    tally
}

impl Tally {
    pub fn new(family: Family) -> Tally {
        Tally {
            family,
            numbers: BTreeMap::new(),
            kinds: BTreeMap::new(),
        }
    }

    pub fn add(&mut self, case: &Case, reply: Reply) {
        *self.numbers.entry(reply.number).or_default() += 1;
        if let Some(kind) = turned_down(case, reply) {
            *self.kinds.entry((reply.number, kind)).or_default() += 1;
        }
    }

    /// The numbers and, of traces, 14 to 18 by kinds of steps.
    pub fn text(&self) -> String {
        match self.family {
            Family::Traces => self.by_number(reply::numbers()) + "\n" + &self.by_kind(),
            Family::Texts => self.by_number(reply::OF_A_TEXT),
        }
    }

    fn by_number(&self, all: impl IntoIterator<Item = u64>) -> String {
        let (mut numbers, mut cases) = (vec!["number".into()], vec!["cases".into()]);
        for number in all {
            numbers.push(number.to_string());
            cases.push(count(self.numbers.get(&number)));
        }
        aligned(&[numbers, cases])
    }

    /// A dash where the rule of the step has no such condition.
    fn by_kind(&self) -> String {
        let mut rows = vec![vec!["number".into()]];
        rows[0].extend(Step::ALL.map(|kind| format!("{kind:?}").to_lowercase()));
        for number in reply::OF_A_STEP {
            let cell = |kind: Step| match kind.tests().contains(&number) {
                true => count(self.kinds.get(&(number, kind))),
                false => "-".into(),
            };
            let mut row = vec![number.to_string()];
            row.extend(Step::ALL.map(cell));
            rows.push(row);
        }
        aligned(&rows)
    }
}

fn count(times: Option<&u64>) -> String {
    times.unwrap_or(&0).to_string()
}

/// The kind of the step that was turned down with one of 14 to 18.
fn turned_down(case: &Case, reply: Reply) -> Option<Step> {
    if !reply::OF_A_STEP.contains(&reply.number) {
        return None;
    }
    let steps = records(&case.trace);
    Step::of(steps.get(reply.place as usize)?.kind)
}

/// Rows of equally many cells: the first column to the left, the others to the right.
fn aligned(rows: &[Vec<String>]) -> String {
    let width = |column: usize| rows.iter().map(|row| row[column].len()).max().unwrap_or(0);
    let line = |row: &Vec<String>| {
        let mut line = format!("{:1$}", row[0], width(0));
        for (column, cell) in row.iter().enumerate().skip(1) {
            line += &format!(" {cell:>0$}", width(column));
        }
        line + "\n"
    };
    rows.iter().map(line).collect()
}

#[cfg(test)]
mod tests {
    use super::*;

    const NONE: &str = "\
number 0 1 2 3 4 5 6 7 8 9 10 12 13 14 15 16 17 18
cases  0 0 0 0 0 0 0 0 0 0  0  0  0  0  0  0  0  0

number read write drain fence lock unlock local
14        0     0     -     0    0      0     0
15        0     0     0     -    -      -     -
16        0     -     0     -    0      -     -
17        -     -     -     0    0      0     -
18        -     -     0     -    -      -     -
";

    #[test]
    fn all_numbers_are_told() {
        assert_eq!(tally(Family::Traces, 0, 1).text(), NONE);
        let texts = "number 0 6 7 13 19 20 21\ncases  0 0 0  0  0  0  0\n";
        assert_eq!(tally(Family::Texts, 0, 1).text(), texts);
        let Tally { numbers, kinds, .. } = tally(Family::Traces, 100, 1);
        assert_eq!(numbers.values().sum::<u64>(), 100);
        let of_steps: u64 = numbers
            .range(reply::OF_A_STEP)
            .map(|(_, cases)| cases)
            .sum();
        assert_eq!(kinds.values().sum::<u64>(), of_steps);
    }
}
