//! The table of results of litmus tests.

use crate::litmus_tests::Judged;

/// The table of results, in the manner of source 000's A.9.
pub fn results(tests: &[Judged]) -> String {
    let mut rows = vec![HEADINGS.map(String::from)];
    rows.extend(tests.iter().map(row));
    let width = |column: usize| rows.iter().map(|row| row[column].len()).max();
    let widths = [0, 1, 2, 3, 4].map(|column| width(column).unwrap_or(0));
    rows.insert(1, widths.map(|width| "-".repeat(width)));
    let line = |row: Row| {
        let cells = row.into_iter().zip(widths);
        let cells = cells.map(|(cell, width)| format!("| {cell:width$} "));
        cells.collect::<String>() + "|\n"
    };
    rows.into_iter().map(line).collect()
}

type Row = [String; 5];

const HEADINGS: [&str; 5] = [
    "test",
    "x86-TSO (source 000)",
    "all runs",
    "meeting/runs",
    "the shown trace",
];

fn row(test: &Judged) -> Row {
    let verdict = format!("{:?}", test.verdict);
    let all_runs = match test.validated() {
        true => format!("{verdict} validated"),
        false => format!("{verdict} NOT validated"),
    };
    let shown = match &test.fault {
        None => test.shown.clone(),
        Some(fault) => format!("{}, WRONG: {fault}", test.shown),
    };
    let counts = format!("{}/{}", test.meeting, test.runs);
    [test.name.clone(), verdict, all_runs, counts, shown]
}
