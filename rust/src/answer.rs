//! What a call of the library answers: a number and its place, as in include/ambercell.h.
use crate::refused::{Refusal, Refused};

#[repr(C)]
pub(crate) struct Answer {
    pub(crate) number: u64,
    pub(crate) place: u64,
}

impl Answer {
    pub(crate) fn result(self) -> Result<usize, Refused> {
        let place = self.place as usize;
        match self.number {
            0 => Ok(place),
            number => Err(Refused {
                why: Refusal::of(number),
                place,
            }),
        }
    }
}
