//! Document 01's kinds of table records and of steps.

use crate::record::Field::{self, Location, Processor, Register, Value};
use crate::record::Record;
use crate::reply::{
    ANOTHER_KIND_IS_NEXT, BUFFER_NOT_EMPTY, LOCK_HELD, NOTHING_WAITS, NOT_THE_RIGHT_ONE,
};

pub const INITIAL_MEMORY: u8 = 1;
pub const INITIAL_REGISTER: u8 = 2;
pub const STORE_CONSTANT: u8 = 3;
pub const STORE_REGISTER: u8 = 4;
pub const LOAD: u8 = 5;
pub const SET_REGISTER: u8 = 6;
pub const FENCE: u8 = 7;
pub const EXCHANGE: u8 = 8;
pub const LOCKED_EXCHANGE: u8 = 9;
pub const EXCHANGE_AND_ADD: u8 = 10;
pub const LOCKED_EXCHANGE_AND_ADD: u8 = 11;

/// The fields that a table kind uses, and its program steps, in order.
#[derive(Clone, Copy, Debug, PartialEq, Eq)]
pub struct Kind {
    pub uses: &'static [Field],
    pub steps: &'static [Step],
}

impl Kind {
    pub fn is_instruction(self) -> bool {
        !self.steps.is_empty()
    }
}

/// Document 01's table of kinds; none for an unknown one.
pub fn kind(number: u8) -> Option<Kind> {
    use Step::{Fence, Local, Lock, Read, Unlock, Write};
    let (uses, steps): (&[Field], &[Step]) = match number {
        INITIAL_MEMORY => (&[Location, Value], &[]),
        INITIAL_REGISTER => (&[Processor, Register, Value], &[]),
        STORE_CONSTANT => (&[Processor, Location, Value], &[Write]),
        STORE_REGISTER => (&[Processor, Register, Location], &[Write]),
        LOAD => (&[Processor, Register, Location], &[Read]),
        SET_REGISTER => (&[Processor, Register, Value], &[Local]),
        FENCE => (&[Processor], &[Fence]),
        EXCHANGE | EXCHANGE_AND_ADD => (&[Processor, Register, Location], &[Read, Write]),
        LOCKED_EXCHANGE | LOCKED_EXCHANGE_AND_ADD => (
            &[Processor, Register, Location],
            &[Lock, Read, Write, Unlock],
        ),
        _ => return None,
    };
    Some(Kind { uses, steps })
}

#[derive(Clone, Copy, Debug, PartialEq, Eq, PartialOrd, Ord)]
pub enum Step {
    Read = 1,
    Write = 2,
    Drain = 3,
    Fence = 4,
    Lock = 5,
    Unlock = 6,
    Local = 7,
}

impl Step {
    pub const ALL: [Step; 7] = [
        Step::Read,
        Step::Write,
        Step::Drain,
        Step::Fence,
        Step::Lock,
        Step::Unlock,
        Step::Local,
    ];

    pub fn of(number: u8) -> Option<Step> {
        Step::ALL.into_iter().find(|step| step.number() == number)
    }

    pub fn number(self) -> u8 {
        self as u8
    }

    /// The step of that kind by a processor.
    pub fn by(self, processor: u8, location: u8, value: u32) -> Record {
        Record {
            kind: self.number(),
            processor,
            register: 0,
            location,
            value,
        }
    }

    pub fn is(self, step: &Record) -> bool {
        step.kind == self.number()
    }

    pub fn uses(self) -> &'static [Field] {
        match self {
            Step::Read | Step::Write | Step::Drain => &[Processor, Location, Value],
            Step::Fence | Step::Lock | Step::Unlock | Step::Local => &[Processor],
        }
    }

    /// The conditions of the step's rule in document 01, each by the number that is given where it
    /// fails. An unlock's "this processor holds the lock" is not among them, since it never decides:
    /// the holder alone comes to an unlock. Nor can a lock find that its own processor holds it.
    pub fn tests(self) -> &'static [u64] {
        match self {
            Step::Read => &[ANOTHER_KIND_IS_NEXT, LOCK_HELD, NOT_THE_RIGHT_ONE],
            Step::Write => &[ANOTHER_KIND_IS_NEXT, NOT_THE_RIGHT_ONE],
            Step::Drain => &[NOTHING_WAITS, LOCK_HELD, NOT_THE_RIGHT_ONE],
            Step::Fence => &[ANOTHER_KIND_IS_NEXT, BUFFER_NOT_EMPTY],
            Step::Lock => &[ANOTHER_KIND_IS_NEXT, LOCK_HELD, BUFFER_NOT_EMPTY],
            Step::Unlock => &[ANOTHER_KIND_IS_NEXT, BUFFER_NOT_EMPTY],
            Step::Local => &[ANOTHER_KIND_IS_NEXT],
        }
    }
}
