//! Cases and answers as text, to be looked at.

use crate::case::{words, Answer, Call, Case, WORD};
use crate::escapes::escaped;
use crate::origins;
use crate::reply::{self, Reply};
use crate::run::RESULT;
use crate::stated::{bytes_of_records, marks};
use crate::text;

/// The case as a text without a name. With `show_answer` after it, it can be read again.
pub fn show(case: &Case) -> String {
    let call = match case.call {
        Call::Check => "check",
        Call::Finish => "finish",
        Call::Litmus => "litmus",
    };
    let room = case.room.len() / case.call.unit();
    let mut text = format!("case\n{call} room {room}\n");
    if case.room != marks(case.room.len()) {
        let lines = case.room.chunks(16).map(text::hexadecimal);
        text += &part("room", &lines.collect::<Vec<_>>().join("\n"));
    }
    match case.call {
        Call::Litmus => text + &part("text", &quoted(&case.table)),
        Call::Check | Call::Finish => {
            text += &part("table", &text::table_text(&case.table));
            text + &part("trace", &origins::trace_text(&case.table, &case.trace))
        }
    }
}

/// A text's lines in quotes; long ones are broken.
fn quoted(text: &[u8]) -> String {
    let lines = text.split_inclusive(|&byte| byte == b'\n');
    let pieces = lines.flat_map(|line| line.chunks(120));
    let quoted = pieces.map(|piece| format!("\"{}\"\n", escaped(piece, b"\"#")));
    quoted.collect()
}

fn part(word: &str, text: &str) -> String {
    let lines = text.lines().map(|line| format!("  {line}\n"));
    format!("{word}\n{}", lines.collect::<String>())
}

/// The answer as a line `gives`, and below it the bytes of the room that it does not speak of and
/// that have changed.
pub fn show_answer(case: &Case, answer: &Answer) -> String {
    let Reply { number, place } = answer.reply;
    let (text, written) = match (number, case.call) {
        (reply::DONE, Call::Check) => {
            let result = result_shown(&answer.room);
            (format!("finished {place}: {result}"), RESULT * WORD)
        }
        (reply::DONE, Call::Finish) => written(place, &answer.room, text::trace_text),
        (reply::DONE, Call::Litmus) => written(place, &answer.room, text::table_text),
        _ => (format!("refused {number} at {place}"), 0),
    };
    let changes = changes(&case.room, &answer.room, written);
    format!("gives {}\n{changes}", text.trim_end_matches(": "))
}

/// So many records of the room, and their bytes.
fn written(count: u64, room: &[u8], text: fn(&[u8]) -> String) -> (String, usize) {
    let bytes = bytes_of_records(count).unwrap_or(usize::MAX);
    let records = text(room.get(..bytes).unwrap_or(&[]));
    let records = records.trim_end().replace('\n', ", ");
    (format!("written {count}: {records}"), bytes)
}

fn result_shown(room: &[u8]) -> String {
    let words = words(room).into_iter().take(RESULT).enumerate();
    let not_zero = words.filter(|&(_, value)| value != 0);
    let named = not_zero.map(|(word, value)| text::word_text(word, value));
    named.collect::<Vec<_>>().join(", ")
}

/// The changes from a byte of the room on; all of them, if the room does not reach so far.
fn changes(before: &[u8], after: &[u8], from: usize) -> String {
    let from = if from > after.len() { 0 } else { from };
    let mut text = String::new();
    let mut rest = from..before.len().min(after.len());
    while let Some(first) = rest.find(|&at| before[at] != after[at]) {
        let end = rest.find(|&at| before[at] == after[at]).unwrap_or(rest.end);
        let last = end - 1;
        let (before, after) = (&before[first..end], &after[first..end]);
        let (before, after) = (text::hexadecimal(before), text::hexadecimal(after));
        text += &format!("# but bytes {first} to {last} of the room are {after}, not {before}\n");
    }
    text
}

#[cfg(test)]
mod tests {
    use super::*;
    use crate::stated::read_cases;

    const FILE: &str = "
case
check room 26
table
  p0 store x 1
  p0 load EAX x
trace
  W0 x1, R0 x1, D0 x1
gives finished 3: x 1, p3 EDX 7, own 1
case
finish room 17
room
  01 02 03 04 05 06 07 08 09 0a 0b 0c 0d 0e 0f 10 11
table
  p0 store x 1
trace
gives written 2: W0 x1, D0 x1
case
finish room 2
table
trace
  F0
gives refused 14 at 0
case
litmus room 9
text
  \"X86 \\x22\\x23\\0 { x=1; }\\n\"
  \" P0 ; exists (x=1)\"
gives written 1: init x 1
case
litmus room 0
text
gives refused 19 at 0
";

    #[test]
    fn what_is_shown_can_be_read() {
        for stated in read_cases(FILE).unwrap() {
            let text = show(&stated.case) + &show_answer(&stated.case, &stated.gives);
            let again = &read_cases(&text).unwrap()[0];
            assert_eq!(
                (&again.case, &again.gives),
                (&stated.case, &stated.gives),
                "{text}"
            );
        }
    }

    #[test]
    fn an_odd_answer_is_shown() {
        let cases = read_cases(FILE).unwrap();
        let (case, mut answer) = (&cases[0].case, cases[0].gives.clone());
        answer.room[100] = 0;
        let found = show_answer(case, &answer);
        let but = "# but bytes 100 to 100 of the room are 00, not c7\n";
        let words = "p3 EDX 7, x 1, own 1";
        assert_eq!(found, format!("gives finished 3: {words}\n{but}"));
        answer.reply = Reply::new(reply::BUFFER_NOT_EMPTY, 2);
        assert!(
            show_answer(case, &answer).starts_with("gives refused 17 at 2\n# but bytes 0 to 100")
        );
        answer.reply = Reply {
            number: reply::DONE,
            place: u64::MAX,
        };
        assert!(
            show_answer(&cases[1].case, &answer).contains("18446744073709551615\n# but bytes 0 to")
        );
    }
}
