//! The text of a trace beside its table: a comment says of a read that its value came from the own
//! buffer, and from which waiting write.

use crate::calls::beginning;
use crate::record::records;
use crate::run::Origin;
use crate::table;
use crate::text;

/// The trace as text. Behind a read that an own waiting write served stands `# own` and the position
/// of that write.
pub fn trace_text(table: &[u8], trace: &[u8]) -> String {
    let text = text::trace_text(trace);
    let comments = origins(table, trace).into_iter().map(comment);
    let comments = comments.chain(std::iter::repeat(String::new()));
    let commented = |(line, comment)| format!("{line}{comment}\n");
    text.lines().zip(comments).map(commented).collect()
}

/// Where the reads before the first refused step got their values. Nothing for a table that is
/// refused; a rest of a record at the trace's end does not matter.
fn origins(table: &[u8], trace: &[u8]) -> Vec<Option<Origin>> {
    match table::read(table) {
        Ok(table) => beginning(&table, &records(trace)).origins(),
        Err(_) => Vec::new(),
    }
}

fn comment(origin: Option<Origin>) -> String {
    match origin {
        Some(Origin::Waiting(position)) => format!("  # own {position}"),
        Some(Origin::Memory) | None => String::new(),
    }
}

#[cfg(test)]
mod tests {
    use super::trace_text;
    use crate::generate;
    use crate::text::{self, table_bytes, trace_bytes};

    const TABLE: &str = "
        p0 store x 1, p0 store y 2, p0 store x 3, p0 load EAX x, p0 load EBX y, p0 load ECX z
        p1 store x 4, p1 xadd x EAX, p1 load EBX x, p1 load EBX x";

    const TRACE: &str = "
        W0 x1, W0 y2, W0 x3, W1 x4, R0 x3, R1 x4, W1 x4, D0 x1
        R0 y2, R0 z0, D1 x4, R1 x4, D1 x4, R1 x4";

    const SHOWN: &str = "\
W0 x1
W0 y2
W0 x3
W1 x4
R0 x3  # own 2
R1 x4  # own 0
W1 x4
D0 x1
R0 y2  # own 0
R0 z0
D1 x4
R1 x4  # own 0
D1 x4
R1 x4
";

    fn shown(table: &str, trace: &str) -> String {
        trace_text(&table_bytes(table).unwrap(), &trace_bytes(trace).unwrap())
    }

    #[test]
    fn own_buffer_reads_are_told() {
        assert_eq!(shown(TABLE, TRACE), SHOWN);
        let rest = "bytes 01 00\n";
        assert_eq!(
            shown(TABLE, &(TRACE.to_string() + "\n" + rest)),
            SHOWN.to_string() + rest
        );
    }

    #[test]
    fn nothing_is_told_from_a_refused_step_on() {
        let refused = shown(TABLE, &TRACE.replace("W1 x4, D0", "W1 x5, D0"));
        let (before, after) = refused.split_at(refused.find("W1 x5").unwrap());
        assert!(SHOWN.starts_with(before) && !after.contains('#'));
        let no_table = shown(&(TABLE.to_string() + "\ninit x 1"), TRACE);
        assert!(!no_table.contains('#'));
    }

    #[test]
    fn every_trace_comes_back() {
        for case in (0..1_000).map(|number| generate::case(1, number)) {
            let told = trace_text(&case.table, &case.trace);
            assert_eq!(trace_bytes(&told), Ok(case.trace.clone()));
            if !told.contains('#') {
                assert_eq!(told, text::trace_text(&case.trace));
            }
        }
    }
}
