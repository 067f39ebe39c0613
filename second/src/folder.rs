//! The two files of a folder, as text and as records.

use crate::origins;
use crate::text::{self, Wrong};
use std::fs;
use std::path::{Path, PathBuf};

/// A file by its name without the ending, and how its text is read.
struct Part {
    name: &'static str,
    bytes: fn(&str) -> Result<Vec<u8>, Wrong>,
}

const TABLE: Part = Part {
    name: "table",
    bytes: text::table_bytes,
};

const TRACE: Part = Part {
    name: "trace",
    bytes: text::trace_bytes,
};

impl Part {
    fn file(&self, folder: &Path, ending: &str) -> PathBuf {
        folder.join(self.name).with_extension(ending)
    }
}

/// The table, and the trace if its file is there.
fn parts(folder: &Path, ending: &str) -> Vec<(Part, PathBuf)> {
    let (table, trace) = (TABLE.file(folder, ending), TRACE.file(folder, ending));
    let mut parts = vec![(TABLE, table)];
    if trace.exists() {
        parts.push((TRACE, trace));
    }
    parts
}

fn failed(path: &Path) -> impl Fn(std::io::Error) -> String + '_ {
    move |why| format!("{}: {why}\n", path.display())
}

/// Texts become records. Nothing is written unless all can be read.
pub fn to_records(folder: &Path) -> Result<(), String> {
    let mut read = Vec::new();
    for (part, from) in parts(folder, "txt") {
        let text = fs::read_to_string(&from).map_err(failed(&from))?;
        let wrong = |wrong| format!("{}: {wrong}\n", from.display());
        let bytes = (part.bytes)(&text).map_err(wrong)?;
        read.push((part.file(folder, "rec"), bytes));
    }
    for (to, bytes) in read {
        fs::write(&to, bytes).map_err(failed(&to))?;
    }
    Ok(())
}

/// Records as texts, one after the other.
pub fn to_text(folder: &Path) -> Result<String, String> {
    let mut read = Vec::new();
    for (_, from) in parts(folder, "rec") {
        read.push(fs::read(&from).map_err(failed(&from))?);
    }
    let table = &read[0];
    let mut said = format!("# {}\n{}", TABLE.name, text::table_text(table));
    if let Some(trace) = read.get(1) {
        said += &format!("# {}\n{}", TRACE.name, origins::trace_text(table, trace));
    }
    Ok(said)
}
