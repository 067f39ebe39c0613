//! Ambercell: can this order of steps happen on x86, and what does it leave behind?
//!
//! A table says what the code of up to four processors does: stores, loads, fences, exchanges. A
//! trace proposes an order of their steps, with the moments when a waiting write reaches memory.
//! [`check`] says what registers and memory hold at the end, or which step cannot happen.
//! [`finish`] writes the steps that finish a run. [`litmus`] makes a table of a litmus text.
//!
//! Tables and traces are records of 8 bytes: kind, processor, register, location, and a value of
//! four bytes, lowest first. docs/FORMAT.md has their kinds, and says when a step is allowed.
//! Tables, traces, texts and rooms may have any length and any contents: each call gets a stated answer,
//! and the answers are proved.
//!
//! ```
//! use ambercell::{check, finish, Refusal, Refused, CHECK_WORDS, FINISH_BYTES};
//!
//! let table = [
//!     3, 0, 0, 0, 1, 0, 0, 0, // processor 0 stores 1 to location 0
//!     5, 0, 0, 1, 0, 0, 0, 0, // and loads EAX from location 1
//! ];
//! let trace = [
//!     2, 0, 0, 0, 1, 0, 0, 0, // it writes 1 to location 0, into its buffer
//!     1, 0, 0, 1, 0, 0, 0, 0, // it reads 0 from location 1
//!     3, 0, 0, 0, 1, 0, 0, 0, // the write drains: it reaches memory
//! ];
//! let mut words = [0; CHECK_WORDS];
//! assert_eq!(check(&table, &trace, &mut words), Ok(3));
//! assert_eq!(words[16], 1); // location 0
//!
//! // Without the drain the trace is unfinished, and the drain is what finishes it.
//! let unfinished = Refused { why: Refusal::Unfinished, place: 2 };
//! assert_eq!(check(&table, &trace[..16], &mut words), Err(unfinished));
//! let mut steps = [0; FINISH_BYTES];
//! assert_eq!(finish(&table, &trace[..16], &mut steps), Ok(1));
//! assert_eq!(steps[..8], trace[16..]);
//! ```

mod answer;
mod refused;
#[cfg(test)]
mod tests;

use answer::Answer;
pub use refused::{Refusal, Refused};

/// How many of the words that [`check`] writes are registers and memory.
pub const OUTCOME_WORDS: usize = 24;

/// The words that [`check`] writes: these, and how many reads own buffers served.
pub const CHECK_WORDS: usize = 25;

/// Bytes that are always enough for [`finish`]: the longest finished trace has 320 steps.
pub const FINISH_BYTES: usize = 2560;

/// Bytes that are always enough for [`litmus`]: no table has more than 88 records.
pub const LITMUS_BYTES: usize = 704;

// As in include/ambercell.h.
extern "C" {
    fn ambercell_check(
        table: *const u8,
        table_bytes: usize,
        trace: *const u8,
        trace_bytes: usize,
        room: *mut u32,
        room_words: usize,
    ) -> Answer;

    fn ambercell_finish(
        table: *const u8,
        table_bytes: usize,
        trace: *const u8,
        trace_bytes: usize,
        room: *mut u8,
        room_bytes: usize,
    ) -> Answer;

    fn ambercell_litmus(
        text: *const u8,
        text_bytes: usize,
        room: *mut u8,
        room_bytes: usize,
    ) -> Answer;
}

/// Checks that the steps of a trace can happen and finish the run, and gives their number.
///
/// The first 25 words of the room are then the registers EAX, EBX, ECX, EDX of processor 0, then of
/// 1, 2 and 3, then locations 0 to 7, and last how many of the reads got their value from a write
/// that waited in the reader's own buffer. Words past them keep their contents.
pub fn check(table: &[u8], trace: &[u8], room: &mut [u32]) -> Result<usize, Refused> {
    // Safety: slices are valid memory, and a mutable one overlaps no other.
    let answer = unsafe {
        ambercell_check(
            table.as_ptr(),
            table.len(),
            trace.as_ptr(),
            trace.len(),
            room.as_mut_ptr(),
            room.len(),
        )
    };
    answer.result()
}

/// Finishes a run from any allowed beginning (an empty trace is one), and gives the number of steps
/// that were missing.
///
/// Each has 8 bytes at the start of the room: behind the trace they make a finished one. Bytes past
/// them keep their contents. For a trace that is finished already that is none, in any room.
pub fn finish(table: &[u8], trace: &[u8], room: &mut [u8]) -> Result<usize, Refused> {
    // Safety: as in `check`.
    let answer = unsafe {
        ambercell_finish(
            table.as_ptr(),
            table.len(),
            trace.as_ptr(),
            trace.len(),
            room.as_mut_ptr(),
            room.len(),
        )
    };
    answer.result()
}

/// Makes a table of a litmus text, in the form that docs/LITMUS.md has, and gives the number of its
/// records.
///
/// Each has 8 bytes at the start of the room, and bytes past them keep their contents.
pub fn litmus(text: &[u8], room: &mut [u8]) -> Result<usize, Refused> {
    // Safety: as in `check`.
    let answer = unsafe {
        ambercell_litmus(
            text.as_ptr(),
            text.len(),
            room.as_mut_ptr(),
            room.len(),
        )
    };
    answer.result()
}
