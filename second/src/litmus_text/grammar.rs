//! "Productions" of docs/LITMUS.md, and how many tokens of a text can stand by them.
//!
//! A production is tried from the token where it could begin, and so is each of its alternatives
//! after another has failed. Every production can be brought to an end, so the tokens that any of
//! the attempts has taken begin a text of the grammar, and no more of them do than the furthest has
//! taken: the next token is the first that cannot stand.

use super::tokens::{all_digits, Token};
use crate::forms::REGISTERS;
use crate::kinds;
use std::ops::Range;

/// What a token is in a production.
#[derive(Clone, Copy, Debug, PartialEq, Eq)]
pub enum Part {
    /// A token as it is.
    Is(&'static str),
    Name,
    Location,
    Register,
    Processor,
    /// In braces.
    Constant,
    /// In a row, with its `$`.
    RowConstant,
    /// That of the processor.
    Heading(usize),
}

use Part::{Constant, Heading, Is, Location, Name, Processor, Register, RowConstant};

impl Part {
    fn named(word: &'static str) -> Part {
        match word {
            "NAME" => Name,
            "LOCATION" => Location,
            "REGISTER" => Register,
            "PROCESSOR" => Processor,
            "CONSTANT" => Constant,
            "$CONSTANT" => RowConstant,
            word => Is(word),
        }
    }

    fn fits(self, token: &[u8]) -> bool {
        match self {
            Is(bytes) => token == bytes.as_bytes(),
            Name => token != b"{",
            Location => matches!(token, [b'a'..=b'z']),
            Register => REGISTERS.iter().any(|name| name.as_bytes() == token),
            Processor => all_digits(token),
            Constant => all_digits(token.strip_prefix(b"-").unwrap_or(token)),
            RowConstant => token
                .strip_prefix(b"$")
                .map_or(false, |token| Constant.fits(token)),
            Heading(processor) => token == format!("P{processor}").as_bytes(),
        }
    }
}

/// A kind of record, and what is written for it: the names of docs/LITMUS.md, and tokens as they are,
/// with a space between two.
type Form = (u8, &'static str);

const INITIAL: [Form; 2] = [
    (kinds::INITIAL_MEMORY, "LOCATION = CONSTANT ;"),
    (kinds::INITIAL_REGISTER, "PROCESSOR : REGISTER = CONSTANT ;"),
];

const INSTRUCTIONS: [Form; 9] = [
    (kinds::STORE_CONSTANT, "MOV [ LOCATION ] , $CONSTANT"),
    (kinds::STORE_REGISTER, "MOV [ LOCATION ] , REGISTER"),
    (kinds::LOAD, "MOV REGISTER , [ LOCATION ]"),
    (kinds::SET_REGISTER, "MOV REGISTER , $CONSTANT"),
    (kinds::FENCE, "MFENCE"),
    (kinds::EXCHANGE, "XCHG [ LOCATION ] , REGISTER"),
    (kinds::LOCKED_EXCHANGE, "LOCK XCHG [ LOCATION ] , REGISTER"),
    (kinds::EXCHANGE_AND_ADD, "XADD [ LOCATION ] , REGISTER"),
    (
        kinds::LOCKED_EXCHANGE_AND_ADD,
        "LOCK XADD [ LOCATION ] , REGISTER",
    ),
];

const ENDS: [&str; 3] = ["exists", "~exists", "forall"];

/// An initial cell, or a cell of a row that is not empty.
#[derive(Clone, Debug, PartialEq, Eq)]
pub struct Cell {
    /// The kind of its record.
    pub kind: u8,
    /// Its column, in a row; an initial cell has none, and 0.
    pub column: usize,
    /// Its tokens, by number.
    pub tokens: Range<usize>,
}

/// How far the productions went.
#[derive(Default)]
pub struct Descent<'t> {
    tokens: &'t [Token<'t>],
    /// The token to be taken next.
    next: usize,
    columns: usize,
    /// The first tokens of the text, as many as can stand, each with what it is. One token is the
    /// same in all productions that take it.
    pub standing: Vec<Part>,
    /// The tokens that can stand are a text of the grammar, up to its end word.
    pub is_text: bool,
    /// The cells of a text, in its order.
    pub cells: Vec<Cell>,
}

pub fn descend<'t>(tokens: &'t [Token<'t>]) -> Descent<'t> {
    let mut descent = Descent {
        tokens,
        ..Descent::default()
    };
    descent.is_text = descent.text();
    descent
}

impl Descent<'_> {
    fn text(&mut self) -> bool {
        self.sequence("X86 NAME {")
            && self.any_number(Descent::initial)
            && self.sequence("}")
            && self.headings()
            && self.any_number(Descent::row)
            && ENDS.iter().any(|end| self.sequence(end))
    }

    fn initial(&mut self) -> bool {
        self.cell(&INITIAL, 0)
    }

    fn headings(&mut self) -> bool {
        while self.take(Heading(self.columns)) {
            self.columns += 1;
            if !self.sequence("|") {
                return self.sequence(";");
            }
        }
        false
    }

    fn row(&mut self) -> bool {
        for column in 0..self.columns {
            if column > 0 && !self.sequence("|") {
                return false;
            }
            // If it is none of the instructions, nothing is taken: the cell is empty.
            self.cell(&INSTRUCTIONS, column);
        }
        self.sequence(";")
    }

    fn cell(&mut self, forms: &[Form], column: usize) -> bool {
        let first = self.next;
        let written = |form: &&Form| self.attempt(|descent| descent.sequence(form.1));
        let found = forms.iter().find(written);
        if let Some(&(kind, _)) = found {
            self.cells.push(Cell {
                kind,
                column,
                tokens: first..self.next,
            });
        }
        found.is_some()
    }

    fn sequence(&mut self, words: &'static str) -> bool {
        words.split(' ').all(|word| self.take(Part::named(word)))
    }

    fn any_number(&mut self, production: fn(&mut Self) -> bool) -> bool {
        while self.attempt(production) {}
        true
    }

    /// Where it fails, all is as before it but what can stand.
    fn attempt(&mut self, production: impl FnOnce(&mut Self) -> bool) -> bool {
        let (next, cells) = (self.next, self.cells.len());
        let done = production(self);
        if !done {
            self.next = next;
            self.cells.truncate(cells);
        }
        done
    }

    fn take(&mut self, part: Part) -> bool {
        let token = self.tokens.get(self.next);
        let fits = token.map_or(false, |token| part.fits(token.bytes));
        if fits {
            if self.next == self.standing.len() {
                self.standing.push(part);
            }
            self.next += 1;
        }
        fits
    }
}
