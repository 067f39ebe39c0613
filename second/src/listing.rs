//! The listing program: table.rec and trace.rec of a folder, checked and printed.

use crate::calls::check;
use crate::record::{PROCESSORS, REGISTERS};
use crate::reply;
use crate::run::{CELLS, RESULT};
use std::fs::File;
use std::io::Read;
use std::path::Path;

/// The longest file that is taken, in bytes.
pub const LONGEST: usize = 32_768;

/// What the listing program prints, whole.
pub fn listing(folder: &Path) -> String {
    let table = match file(&folder.join("table.rec")) {
        Ok(bytes) => bytes,
        Err(line) => return line.to_string(),
    };
    let trace = match file(&folder.join("trace.rec")) {
        Ok(bytes) => bytes,
        Err(line) => return line.to_string(),
    };
    checked(&table, &trace)
}

/// The file's bytes, or the line that is printed instead. A file that can be
/// opened but not read, such as a directory, counts as one that cannot be opened.
fn file(path: &Path) -> Result<Vec<u8>, &'static str> {
    let mut bytes = Vec::new();
    let enough = LONGEST as u64 + 1;
    let read = File::open(path).and_then(|file| file.take(enough).read_to_end(&mut bytes));
    if read.is_err() {
        Err("no file\n")
    } else if bytes.len() > LONGEST {
        Err("file too long\n")
    } else {
        Ok(bytes)
    }
}

fn checked(table: &[u8], trace: &[u8]) -> String {
    let mut room = [0; RESULT];
    let answer = check(table, trace, &mut room);
    if answer.number != reply::DONE {
        return format!("refused {} at {}\n", answer.number, answer.place);
    }
    let (cells, own_reads) = room.split_at(CELLS);
    let (registers, memory) = cells.split_at(PROCESSORS * REGISTERS);
    let mut text = format!("finished {}\n", answer.place);
    for (processor, own) in registers.chunks(REGISTERS).enumerate() {
        text += &line(&format!("p{processor}"), own);
    }
    text + &line("m", memory) + &line("own", own_reads)
}

fn line(name: &str, values: &[u32]) -> String {
    let values: String = values.iter().map(|value| format!(" {value}")).collect();
    format!("{name}{values}\n")
}

#[cfg(test)]
mod tests {
    use super::{listing, LONGEST};
    use crate::text::{table_bytes, trace_bytes};
    use std::fs;

    const SB: &str = "p0 store x 1, p0 load EAX y, p1 store y 1, p1 load EBX x";
    const LINE_3: &str = "W0 x1, W1 y1, R0 y0, R1 x0, D0 x1";
    const LINE_1: &str = "W0 x1, W1 y1, R0 y0, R1 x0, D0 x1, D1 y1";
    const PRINTED: &str =
        "finished 6\np0 0 0 0 0\np1 0 0 0 0\np2 0 0 0 0\np3 0 0 0 0\nm 1 1 0 0 0 0 0 0\nown 0\n";
    const N6: &str = "p0 store x 1, p0 load EAX x, p0 load EBX y, p1 store y 2, p1 store x 2";
    const LINE_6: &str = "W1 y2, W0 x1, R0 x1, R0 y0, W1 x2, D1 y2, D1 x2, D0 x1";
    const PRINTED_6: &str =
        "finished 8\np0 1 0 0 0\np1 0 0 0 0\np2 0 0 0 0\np3 0 0 0 0\nm 1 2 0 0 0 0 0 0\nown 1\n";

    #[test]
    fn what_it_prints() {
        let folder = std::env::temp_dir().join(format!("second-listing-{}", std::process::id()));
        fs::create_dir(&folder).unwrap();
        let put = |name: &str, bytes: &[u8]| fs::write(folder.join(name), bytes).unwrap();
        assert_eq!(listing(&folder), "no file\n");
        put("table.rec", &[0; LONGEST + 1]);
        assert_eq!(listing(&folder), "file too long\n");
        put("table.rec", &[0; LONGEST]);
        assert_eq!(listing(&folder), "no file\n");
        fs::create_dir(folder.join("trace.rec")).unwrap();
        assert_eq!(listing(&folder), "no file\n");
        fs::remove_dir(folder.join("trace.rec")).unwrap();
        put("trace.rec", &[0; LONGEST + 1]);
        assert_eq!(listing(&folder), "file too long\n");
        put("trace.rec", &trace_bytes(LINE_1).unwrap());
        assert_eq!(listing(&folder), "refused 2 at 0\n");
        put("table.rec", &table_bytes(SB).unwrap());
        assert_eq!(listing(&folder), PRINTED);
        put("table.rec", &table_bytes(N6).unwrap());
        put("trace.rec", &trace_bytes(LINE_6).unwrap());
        assert_eq!(listing(&folder), PRINTED_6);
        put("table.rec", &table_bytes(SB).unwrap());
        put("trace.rec", &trace_bytes(LINE_3).unwrap());
        assert_eq!(listing(&folder), "refused 12 at 5\n");
        fs::remove_dir_all(&folder).unwrap();
    }
}
