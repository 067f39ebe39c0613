//! Blanks before, between and behind tokens, and what stands behind the end word.

use super::pieces::{Piece, Role};
use crate::dice::Dice;

const BLANKS: [u8; 3] = [b' ', b'\n', b'\r'];

#[derive(Clone, Copy)]
enum Layout {
    /// No blank where none is needed.
    Tight,
    /// As people write it.
    Usual,
    /// Any blanks anywhere.
    Loose,
}

const BEHIND: [&[u8]; 8] = [
    b"",
    b"",
    b"\n",
    b" (x=1)\n",
    b"(0:EAX=0 /\\ 1:EBX=0)",
    b" ;|P9 4:EAX=1; $99999999999 exists",
    b"$\0\t\xFF",
    b"~exists",
];

pub fn text(dice: &mut Dice, pieces: &[Piece]) -> Vec<u8> {
    let layout = dice.pick(&[Layout::Tight, Layout::Usual, Layout::Loose]);
    let mut text: Vec<u8> = Vec::new();
    for piece in pieces {
        let touches = match (text.last(), piece.bytes.first()) {
            (Some(last), Some(first)) => {
                last.is_ascii_alphanumeric() && first.is_ascii_alphanumeric()
            }
            _ => false,
        };
        let blanks = blanks(dice, layout, &text, piece);
        text.extend(&blanks);
        if touches && blanks.is_empty() {
            text.push(dice.pick(&BLANKS));
        }
        text.extend(&piece.bytes);
    }
    if let Layout::Loose = layout {
        text.extend(any_blanks(dice));
    }
    text.extend(dice.pick(&BEHIND));
    text
}

/// What stands before a token.
fn blanks(dice: &mut Dice, layout: Layout, before: &[u8], piece: &Piece) -> Vec<u8> {
    match (layout, before.last(), piece.role) {
        (Layout::Tight, ..) | (Layout::Usual, None, _) => Vec::new(),
        (Layout::Usual, Some(b';' | b'}'), _) => dice.pick(&[&b"\n"[..], b"\n ", b"\r\n"]).to_vec(),
        (Layout::Usual, _, Role::Frame) => b" ".to_vec(),
        (Layout::Usual, ..) => vec![b' '; dice.below(2)],
        (Layout::Loose, ..) => any_blanks(dice),
    }
}

fn any_blanks(dice: &mut Dice) -> Vec<u8> {
    let many = dice.pick(&[0, 0, 1, 1, 2, 5]);
    (0..many).map(|_| dice.pick(&BLANKS)).collect()
}
