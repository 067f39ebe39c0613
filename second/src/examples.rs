//! The examples of docs/LITMUS.md as cases: the small text at its beginning with the records below
//! it, and below the heading "Examples" each line of a text, an arrow and an answer.

use crate::case::{Answer, Call, Case};
use crate::escapes::unescaped;
use crate::record::Record;
use crate::reply::Reply;
use crate::stated::{marks, Stated};
use crate::text::{self, Wrong};

const INDENT: &str = "    ";
const ARROW: &str = "→ ";

pub fn read_examples(document: &str) -> Result<Vec<Stated>, Wrong> {
    let lines: Vec<&str> = document.lines().collect();
    let heading = lines.iter().position(|&line| line == "## Examples");
    let heading = heading.ok_or_else(|| Wrong::new(1, "no heading \"## Examples\""))?;
    let mut examples = vec![small_text(&lines[..heading])?];
    for (number, line) in (1..).zip(&lines).skip(heading) {
        if let Some(line) = line.strip_prefix(INDENT) {
            examples.push(example(line, number).map_err(|why| Wrong::new(number, why))?);
        }
    }
    match examples.len() {
        1 => Err(Wrong::new(heading + 1, "no example")),
        _ => Ok(examples),
    }
}

/// The first block of indented lines is a text, the second its records.
fn small_text(lines: &[&str]) -> Result<Stated, Wrong> {
    let blocks: Vec<&[&str]> = lines
        .split(|line| !line.starts_with(INDENT))
        .filter(|block| !block.is_empty())
        .collect();
    let block = |number: usize| {
        let lines = blocks.get(number).map(|block| block.iter());
        let lines = lines.ok_or_else(|| Wrong::new(1, "no small text"))?;
        Ok(lines
            .map(|line| line[INDENT.len()..].to_string() + "\n")
            .collect::<String>())
    };
    let records = text::table_bytes(&block(1)?)?;
    let reply = Reply::new(0, records.len() / Record::BYTES);
    Ok(stated(block(0)?.into_bytes(), reply, &records, 1))
}

fn example(line: &str, number: usize) -> Result<Stated, String> {
    let (text, answer) = match line.strip_prefix(ARROW) {
        Some(answer) => ("", answer),
        None => line.split_once(&format!(" {ARROW}")).ok_or("no arrow")?,
    };
    let text = unescaped(text)?;
    let (head, records) = answer.split_once(": ").unwrap_or((answer, ""));
    let records = text::table_bytes(records).map_err(|wrong| wrong.why)?;
    let words: Vec<&str> = head.split(' ').collect();
    let not_understood = || format!("not understood: {answer}");
    let (is_done, number_given, place) = match words[..] {
        [number, "with", place] => (true, number, place),
        [number, "at", place] => (false, number, place),
        _ => return Err(not_understood()),
    };
    let reply = Reply {
        number: number_given.parse().map_err(|_| not_understood())?,
        place: place.parse().map_err(|_| not_understood())?,
    };
    let counted = if is_done { reply.place } else { 0 };
    if is_done != (reply.number == 0) || counted != (records.len() / Record::BYTES) as u64 {
        return Err(not_understood());
    }
    Ok(stated(text, reply, &records, number))
}

/// The room is large enough: no text has as many records as bytes.
fn stated(text: Vec<u8>, reply: Reply, records: &[u8], line: usize) -> Stated {
    let before = marks(text.len() * Record::BYTES);
    let mut room = before.clone();
    room[..records.len()].copy_from_slice(records);
    Stated {
        name: "of the document".to_string(),
        case: Case {
            call: Call::Litmus,
            table: text,
            trace: Vec::new(),
            room: before,
        },
        gives: Answer { reply, room },
        line,
    }
}

#[cfg(test)]
mod tests {
    use super::*;

    const DOCUMENT: &str = "It reads
    X86 t {}
    P0 ; MFENCE ; exists
as
    p0 fence
## Examples
    → 19 at 0
    X86\\n → 19 at 4
Text.
    X86 t{x=-0;}P0;exists → 0 with 1: init x 0
";

    #[test]
    fn the_lines_of_a_document() {
        let examples = read_examples(DOCUMENT).unwrap();
        let lines: Vec<usize> = examples.iter().map(|example| example.line).collect();
        assert_eq!(lines, [1, 7, 8, 10]);
        assert_eq!(examples[0].case.table, b"X86 t {}\nP0 ; MFENCE ; exists\n");
        assert_eq!(examples[2].case.table, b"X86\n");
        for example in examples {
            assert_eq!(example.case.answer(), example.gives, "{}", example.line);
        }
    }

    #[test]
    fn wrong_documents_are_explained() {
        let wrong = |from: &str, to: &str| {
            assert!(DOCUMENT.contains(from));
            let wrong = read_examples(&DOCUMENT.replacen(from, to, 1)).unwrap_err();
            wrong.to_string()
        };
        assert_eq!(wrong("## E", "# E"), "line 1: no heading \"## Examples\"");
        assert_eq!(wrong("n → 19", "n -> 19"), "line 8: no arrow");
        assert_eq!(wrong("→ 19 at", "→ 19"), "line 7: not understood: 19 0");
        assert_eq!(wrong("19 at 0", "0 at 0"), "line 7: not understood: 0 at 0");
        let two = "line 10: not understood: 0 with 2: init x 0";
        assert_eq!(wrong("with 1", "with 2"), two);
        assert_eq!(wrong("\\n →", "\\q →"), "line 8: no such escape: \\q");
    }
}
