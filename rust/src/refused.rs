//! Refusals: the numbers of documents 01 and 02, in their words.
use std::error::Error;
use std::fmt;

macro_rules! refusals {
    ($($name:ident = $number:literal, $words:literal;)*) => {
        /// Why a call was refused. `why as u64` is its number in docs/FORMAT.md.
        #[derive(Clone, Copy, Debug, PartialEq, Eq, Hash)]
        pub enum Refusal {
            $(#[doc = $words] $name = $number,)*
        }

        impl Refusal {
            pub(crate) fn of(number: u64) -> Refusal {
                match number {
                    $($number => Refusal::$name,)*
                    _ => unreachable!("the library gives no number {number}"),
                }
            }
        }

        impl fmt::Display for Refusal {
            fn fmt(&self, f: &mut fmt::Formatter<'_>) -> fmt::Result {
                f.write_str(match self {
                    $(Refusal::$name => $words,)*
                })
            }
        }
    };
}

refusals! {
    TableLength = 1, "table length no multiple of 8";
    TableKind = 2, "table kind unknown";
    TableRange = 3, "processor, register or location too large";
    TableUnused = 4, "unused field not zero";
    InitialLate = 5, "initial record after an instruction";
    CellTwice = 6, "same cell given twice";
    Seventeenth = 7, "seventeenth instruction of a processor";
    TraceLength = 8, "trace length no multiple of 8";
    TraceKind = 9, "step kind unknown";
    TraceField = 10, "used field too large, or unused field not zero";
    Unfinished = 12, "trace ends unfinished";
    RoomTooSmall = 13, "lent room too small";
    AnotherKind = 14, "the program's next step is another kind, or the program has ended";
    NotRight = 15, "location or value is not the right one";
    LockHeld = 16, "another processor holds the lock";
    BufferNotEmpty = 17, "own buffer not empty";
    NothingWaits = 18, "nothing waits to drain";
    TextGrammar = 19, "no litmus text goes on with this token, or ends here";
    TextLimit = 20, "a ninth location, or a processor above 3";
    TextConstant = 21, "a constant out of range";
}

/// Why a call was refused, and the place. The room keeps its contents.
///
/// For 1 and 8 the place is the number of whole records, for 12 that of the steps in the trace, for
/// 13 that of the words or bytes needed, for 19 to 21 it is the byte of the text, from 0. Else it is
/// the record of the table or trace, from 0.
#[derive(Clone, Copy, Debug, PartialEq, Eq, Hash)]
pub struct Refused {
    pub why: Refusal,
    pub place: usize,
}

/// As the listing program says it, and why: `refused 17 at 2, own buffer not empty`.
impl fmt::Display for Refused {
    fn fmt(&self, f: &mut fmt::Formatter<'_>) -> fmt::Result {
        let Refused { why, place } = self;
        write!(f, "refused {} at {place}, {why}", *why as u64)
    }
}

impl Error for Refused {}
