//! A case is one call with all that it is given.

use crate::calls::{check, finish, litmus};
use crate::reply::Reply;

#[derive(Clone, Copy, Debug, PartialEq, Eq)]
pub enum Call {
    Check = 0,
    Finish = 1,
    Litmus = 2,
}

impl Call {
    pub const ALL: [Call; 3] = [Call::Check, Call::Finish, Call::Litmus];

    /// The bytes of one unit of the call's room: checking counts words, the others bytes.
    pub fn unit(self) -> usize {
        match self {
            Call::Check => WORD,
            Call::Finish | Call::Litmus => 1,
        }
    }
}

/// Bytes of a word.
pub const WORD: usize = 4;

#[derive(Clone, Debug, PartialEq, Eq)]
pub struct Case {
    pub call: Call,
    /// For litmus the text.
    pub table: Vec<u8>,
    pub trace: Vec<u8>,
    /// The lent room before the call. For checking its length is a multiple of 4.
    pub room: Vec<u8>,
}

#[derive(Clone, Debug, PartialEq, Eq)]
pub struct Answer {
    pub reply: Reply,
    /// The lent room after the call.
    pub room: Vec<u8>,
}

impl Case {
    pub fn answer(&self) -> Answer {
        match self.call {
            Call::Check => {
                let mut words = words(&self.room);
                let reply = check(&self.table, &self.trace, &mut words);
                let room = bytes_of_words(&words);
                Answer { reply, room }
            }
            Call::Finish => {
                let mut room = self.room.clone();
                let reply = finish(&self.table, &self.trace, &mut room);
                Answer { reply, room }
            }
            Call::Litmus => {
                let mut room = self.room.clone();
                let reply = litmus(&self.table, &mut room);
                Answer { reply, room }
            }
        }
    }
}

pub fn words(bytes: &[u8]) -> Vec<u32> {
    let word = |bytes: &[u8]| {
        bytes
            .iter()
            .rev()
            .fold(0, |word, &byte| word << 8 | u32::from(byte))
    };
    bytes.chunks(WORD).map(word).collect()
}

pub fn bytes_of_words(words: &[u32]) -> Vec<u8> {
    words.iter().flat_map(|word| word.to_le_bytes()).collect()
}
