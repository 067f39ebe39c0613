//! Litmus tests: the text of a case, with a verdict on a condition.
//!
//! ```text
//! allow p0 EAX 0, p1 EBX 0        # or: forbid .., or: require ..
//! ```
//!
//! The trace of a test that allows or requires is a run that meets the condition. The trace of one
//! that forbids is a nearest trace, and is refused where that one goes wrong.
//!
//! Beside the file of a test stands its litmus text, which gives the same table and ends with the
//! same condition.

use crate::case::{Answer, Call, Case};
use crate::kinds::Step;
use crate::record::{records, Record};
use crate::reply::{self, Reply};
use crate::run::{Run, CELLS};
use crate::search::{meets, nearest, outcomes};
use crate::stated::{marks, read_cases, Stated};
use crate::table::{self, Table};
use crate::text::{self, Wrong};
use std::path::Path;

/// Some run, no run or every run meets the condition.
#[derive(Clone, Copy, Debug, PartialEq, Eq)]
pub enum Verdict {
    Allow,
    Forbid,
    Require,
}

#[derive(Clone, Debug, PartialEq, Eq)]
pub struct Litmus {
    pub stated: Stated,
    pub table: Table,
    pub verdict: Verdict,
    pub condition: Vec<(usize, u32)>,
}

/// The tests of a folder's files `*.txt`, by name, each with the case of its litmus text.
pub fn read_folder(folder: &Path) -> Result<Vec<(Litmus, Stated)>, String> {
    let mut tests = Vec::new();
    let about = |path: &Path, why: &dyn std::fmt::Display| format!("{}: {why}", path.display());
    for entry in folder.read_dir().map_err(|why| about(folder, &why))? {
        let path = entry.map_err(|why| about(folder, &why))?.path();
        if path.to_string_lossy().ends_with(".txt") {
            let text = std::fs::read_to_string(&path).map_err(|why| about(&path, &why))?;
            let test = read(&text).map_err(|why| about(&path, &why))?;
            let path = path.with_extension("litmus");
            let text = std::fs::read(&path).map_err(|why| about(&path, &why))?;
            let text = as_text(&test, text).map_err(|why| about(&path, &why))?;
            tests.push((test, text));
        }
    }
    if tests.is_empty() {
        return Err(format!("{}: no litmus test", folder.display()));
    }
    tests.sort_by(|(one, _), (other, _)| one.stated.name.cmp(&other.stated.name));
    Ok(tests)
}

/// The test of a text. The lines without the verdict are a case.
pub fn read(text: &str) -> Result<Litmus, Wrong> {
    let mut verdicts = Vec::new();
    let mut case = String::new();
    for (line, text) in (1..).zip(text.lines()) {
        match verdict(text) {
            Some((verdict, cells)) => {
                let cells = text::cells(cells).map_err(|wrong| Wrong::new(line, wrong.why))?;
                verdicts.push((verdict, cells));
            }
            None => case += text,
        }
        case += "\n";
    }
    let (mut verdicts, mut cases) = (verdicts.into_iter(), read_cases(&case)?.into_iter());
    match (verdicts.next(), verdicts.next(), cases.next(), cases.next()) {
        (Some((verdict, condition)), None, Some(stated), None) => {
            litmus(stated, verdict, condition)
        }
        _ => Err(Wrong::new(1, "a litmus test has one case and one verdict")),
    }
}

fn verdict(line: &str) -> Option<(Verdict, &str)> {
    let line = text::without_comment(line).trim();
    let (word, cells) = line.split_once(char::is_whitespace)?;
    match word {
        "allow" => Some((Verdict::Allow, cells)),
        "forbid" => Some((Verdict::Forbid, cells)),
        "require" => Some((Verdict::Require, cells)),
        _ => None,
    }
}

fn litmus(stated: Stated, verdict: Verdict, condition: Vec<(usize, u32)>) -> Result<Litmus, Wrong> {
    let wrong = |why: String| Wrong::new(stated.line, why);
    if stated.case.call != Call::Check {
        return Err(wrong("a litmus test is a check".to_string()));
    }
    let refused = |Reply { number, place }| wrong(format!("table refused {number} at {place}"));
    let table = table::read(&stated.case.table).map_err(refused)?;
    Ok(Litmus {
        stated,
        table,
        verdict,
        condition,
    })
}

/// The case in which the test's litmus text gives its table.
fn as_text(test: &Litmus, text: Vec<u8>) -> Result<Stated, String> {
    let end = end_of_text(test);
    if !text.ends_with(end.as_bytes()) {
        return Err(format!("does not end with {end}"));
    }
    let table = &test.stated.case.table;
    let before = marks(table.len() + Record::BYTES);
    let room = [&table[..], &before[table.len()..]].concat();
    Ok(Stated {
        name: format!("{}, its litmus text", test.stated.name),
        case: Case {
            call: Call::Litmus,
            table: text,
            trace: Vec::new(),
            room: before,
        },
        gives: Answer {
            reply: Reply::new(reply::DONE, table.len() / Record::BYTES),
            room,
        },
        line: 1,
    })
}

/// Verdict and condition as a litmus text has them, with the locations' names as in the test.
fn end_of_text(test: &Litmus) -> String {
    let word = match test.verdict {
        Verdict::Allow => "exists",
        Verdict::Forbid => "~exists",
        Verdict::Require => "forall",
    };
    let mut cells = Vec::new();
    for &(cell, value) in &test.condition {
        let named = text::word_text(cell, value);
        let words: Vec<&str> = named.split(' ').collect();
        cells.push(match words[..] {
            [processor, register, value] => format!("{}:{register}={value}", &processor[1..]),
            _ => words.join("="),
        });
    }
    format!("\n{word} ({})\n", cells.join(" /\\ "))
}

#[derive(Clone, Debug, PartialEq, Eq)]
pub struct Judged {
    pub name: String,
    /// As the test has it.
    pub verdict: Verdict,
    /// By the search over all runs.
    pub found: Verdict,
    /// Runs that meet the condition, and all runs.
    pub meeting: u128,
    pub runs: u128,
    /// What the test's trace gives.
    pub shown: String,
    /// Why the trace is not the one that the verdict asks for.
    pub fault: Option<String>,
}

impl Judged {
    pub fn validated(&self) -> bool {
        match self.verdict {
            Verdict::Allow => self.found != Verdict::Forbid,
            verdict => self.found == verdict,
        }
    }
}

pub fn judge(test: &Litmus) -> Judged {
    let (mut meeting, mut runs) = (0_u128, 0_u128);
    for (cells, ending) in outcomes(&test.table) {
        runs = runs.saturating_add(ending);
        if meets(&cells, &test.condition) {
            meeting = meeting.saturating_add(ending);
        }
    }
    Judged {
        name: test.stated.name.clone(),
        verdict: test.verdict,
        found: match meeting {
            0 => Verdict::Forbid,
            _ if meeting == runs => Verdict::Require,
            _ => Verdict::Allow,
        },
        meeting,
        runs,
        shown: shown(test),
        fault: fault(test).err(),
    }
}

fn shown(test: &Litmus) -> String {
    let case = &test.stated.case;
    let Reply { number, place } = case.answer().reply;
    if number == reply::DONE {
        return format!("finished {place}");
    }
    let steps = text::trace_text(&case.trace);
    let step = (0..).zip(steps.lines()).find(|(at, _)| *at == place);
    let step = step.map_or_else(String::new, |(_, step)| format!(": {step}"));
    format!("refused {number} at {place}{step}")
}

// The trace gives what is stated and ends in the condition. Where that is forbidden, one step is
// let through for it, and no other trace can have this step later.
fn fault(test: &Litmus) -> Result<(), String> {
    let Stated { case, gives, .. } = &test.stated;
    if case.answer() != *gives {
        return Err("does not give what is stated".to_string());
    }
    let mut false_read = None;
    if test.verdict == Verdict::Forbid {
        let (_, place) = nearest(&test.table, &test.condition).ok_or("no trace is nearest")?;
        if gives.reply != Reply::new(reply::NOT_THE_RIGHT_ONE, place) {
            return Err(format!("a nearest trace is refused with 15 at {place}"));
        }
        false_read = Some(place);
    }
    let cells = end(&test.table, &records(&case.trace), false_read)?;
    if !meets(&cells, &test.condition) {
        return Err("does not end in the condition".to_string());
    }
    Ok(())
}

// The cells after a trace that is allowed and finished, but for a false read that is let through.
fn end(table: &Table, trace: &[Record], false_read: Option<usize>) -> Result<[u32; CELLS], String> {
    let mut run = Run::new(table);
    for (place, &step) in trace.iter().enumerate() {
        let as_seen = |seen: Record| match false_read {
            Some(false_read) if false_read == place => {
                let value = step.value;
                Step::Read.is(&seen) && Record { value, ..seen } == step
            }
            _ => seen == step,
        };
        if !run.moves().into_iter().any(as_seen) {
            return Err(format!("step {place} cannot be let through"));
        }
        run.take(step);
    }
    match run.finished() {
        true => Ok(run.cells()),
        false => Err("does not finish".to_string()),
    }
}

#[cfg(test)]
mod tests {
    use super::*;

    fn shipped() -> Vec<(Litmus, Stated)> {
        read_folder(&Path::new(env!("CARGO_MANIFEST_DIR")).join("../tests/litmus")).unwrap()
    }

    #[test]
    fn all_tests_of_source_000_are_validated() {
        let tests = shipped();
        assert!(tests.len() >= 25);
        for (test, text) in &tests {
            let judged = judge(test);
            assert!(judged.validated() && judged.fault.is_none(), "{judged:?}");
            assert_eq!(text.case.answer(), text.gives, "{}", text.name);
        }
    }

    #[test]
    fn a_wrong_verdict_or_trace_is_found() {
        let text = "case SB
            check room 25
            table
              p0 store x 1, p0 load EAX y, p1 store y 1, p1 load EBX x
            allow p0 EAX 0, p1 EBX 0
            trace
              W0 x1, W1 y1, R0 y0, R1 x0, D0 x1, D1 y1
            gives finished 6: x 1, y 1";
        let judged = |from: &str, to: &str| judge(&read(&text.replace(from, to)).unwrap());
        let fault = |from, to| judged(from, to).fault.unwrap_or_default();
        assert!(judged("", "").validated());
        assert_eq!(fault("", ""), "");
        assert!(!judged("allow", "forbid").validated());
        assert!(!judged("allow", "require").validated());
        assert_eq!(fault("x 1, y 1", "x 1"), "does not give what is stated");
        assert_eq!(fault("EBX 0", "EBX 1"), "does not end in the condition");
        assert_eq!(read(&text.replace("allow", "# allow")).unwrap_err().line, 1);
        assert_eq!(read(&text.replace("EBX 0", "EBX")).unwrap_err().line, 5);
    }

    #[test]
    fn a_text_with_another_end_is_found() {
        for (test, text) in shipped() {
            let bytes = text.case.table;
            assert!(as_text(&test, bytes[..bytes.len() - 1].to_vec()).is_err());
            let other = [&bytes[..bytes.len() - 3], b"7)\n"].concat();
            assert!(as_text(&test, other).is_err(), "{}", text.name);
            assert!(as_text(&test, bytes).is_ok());
        }
    }

    #[test]
    fn a_trace_that_is_refused_too_early_is_found() {
        let text = "case MP
            check room 25
            table
              p0 store x 1, p0 store y 1, p1 load EAX y, p1 load EBX x
            forbid p1 EAX 1, p1 EBX 0
            trace
              W0 x1, W0 y1, R1 y1, R1 x0, D0 x1, D0 y1
            gives refused 15 at 2";
        let judged = judge(&read(text).unwrap());
        assert_eq!(judged.shown, "refused 15 at 2: R1 y1");
        assert_eq!(
            judged.fault.unwrap(),
            "a nearest trace is refused with 15 at 5"
        );
        assert!(judged.verdict == judged.found);
    }
}
