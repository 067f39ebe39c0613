//! A plan in tokens.

use super::plan::Plan;
use crate::dice::Dice;
use crate::forms::REGISTERS;
use crate::kinds;
use crate::record::Record;

/// A token, and what it is.
#[derive(Clone)]
pub struct Piece {
    pub role: Role,
    pub bytes: Vec<u8>,
}

#[derive(Clone, Copy, PartialEq, Eq)]
pub enum Role {
    Head,
    Name,
    /// In braces.
    InitialLocation,
    Location,
    Register,
    Processor,
    Constant,
    RowConstant,
    Heading,
    /// What stands between and around cells and headings.
    Frame,
    Word,
    End,
}

impl Piece {
    pub fn is_location(&self) -> bool {
        [Role::InitialLocation, Role::Location].contains(&self.role)
    }

    pub fn new(role: Role, bytes: impl AsRef<[u8]>) -> Piece {
        let bytes = bytes.as_ref().to_vec();
        Piece { role, bytes }
    }
}

/// What is written for each kind, from 1 on.
const FORMS: [&str; 11] = [
    "location = constant",
    "processor : register = constant",
    "MOV [ location ] , $constant",
    "MOV [ location ] , register",
    "MOV register , [ location ]",
    "MOV register , $constant",
    "MFENCE",
    "XCHG [ location ] , register",
    "LOCK XCHG [ location ] , register",
    "XADD [ location ] , register",
    "LOCK XADD [ location ] , register",
];

const NAMES: [&str; 8] = [
    "SB",
    "n6",
    "iwp2.3.a/amd4",
    "-SB",
    "x",
    "0",
    "exists",
    "X86",
];

pub fn pieces(dice: &mut Dice, plan: &Plan) -> Vec<Piece> {
    let mut pieces = vec![
        Piece::new(Role::Head, "X86"),
        Piece::new(Role::Name, name(dice)),
        Piece::new(Role::Frame, "{"),
    ];
    for &record in &plan.initial {
        written(dice, record, plan, &mut pieces);
        pieces.push(Piece::new(Role::Frame, ";"));
    }
    pieces.push(Piece::new(Role::Frame, "}"));
    let headings = (0..plan.headings).map(|heading| vec![heading_piece(heading)]);
    row(headings.collect(), &mut pieces);
    for cells in &plan.rows {
        let mut row_pieces = Vec::new();
        for cell in cells {
            let mut cell_pieces = Vec::new();
            if let Some(record) = *cell {
                written(dice, record, plan, &mut cell_pieces);
            }
            row_pieces.push(cell_pieces);
        }
        row(row_pieces, &mut pieces);
    }
    let end = dice.pick(&["exists", "~exists", "forall"]);
    pieces.push(Piece::new(Role::End, end));
    pieces
}

fn heading_piece(heading: usize) -> Piece {
    Piece::new(Role::Heading, format!("P{heading}"))
}

/// Cells, with `|` between them and `;` behind.
fn row(cells: Vec<Vec<Piece>>, pieces: &mut Vec<Piece>) {
    for (column, cell) in cells.into_iter().enumerate() {
        if column > 0 {
            pieces.push(Piece::new(Role::Frame, "|"));
        }
        pieces.extend(cell);
    }
    pieces.push(Piece::new(Role::Frame, ";"));
}

/// A record in tokens.
fn written(dice: &mut Dice, record: Record, plan: &Plan, pieces: &mut Vec<Piece>) {
    for word in FORMS[usize::from(record.kind) - 1].split(' ') {
        pieces.push(match word {
            "location" => {
                let letter = plan.letters[usize::from(record.location)];
                let role = match record.kind {
                    kinds::INITIAL_MEMORY => Role::InitialLocation,
                    _ => Role::Location,
                };
                Piece::new(role, [letter])
            }
            "register" => Piece::new(Role::Register, REGISTERS[usize::from(record.register)]),
            "processor" => {
                let processor = zeros(dice) + &record.processor.to_string();
                Piece::new(Role::Processor, processor)
            }
            "constant" => Piece::new(Role::Constant, constant(dice, record.value)),
            "$constant" => {
                let constant = format!("${}", constant(dice, record.value));
                Piece::new(Role::RowConstant, constant)
            }
            word => Piece::new(Role::Word, word),
        });
    }
}

/// With a minus sign at times, where it can have one.
fn constant(dice: &mut Dice, value: u32) -> String {
    let negative = value == 0 || value >= 1 << 31;
    if negative && dice.one_in(2) {
        format!("-{}{}", zeros(dice), value.wrapping_neg())
    } else {
        format!("{}{value}", zeros(dice))
    }
}

fn zeros(dice: &mut Dice) -> String {
    "0".repeat(dice.pick(&[0, 0, 0, 0, 0, 1, 2, 25]))
}

/// A usual one, or of any bytes.
fn name(dice: &mut Dice) -> Vec<u8> {
    if dice.one_in(2) {
        return dice.pick(&NAMES).as_bytes().to_vec();
    }
    let mut name = Vec::new();
    for _ in 0..1 + dice.below(8) {
        let any = dice.number() as u8;
        let byte = dice.pick(&[b'}', b';', b'$', 9, 0, 128, 255, any]);
        name.push(match byte {
            b' ' | b'\n' | b'\r' | b'{' => b'_',
            byte => byte,
        });
    }
    name
}
