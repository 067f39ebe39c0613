//! Lent rooms: too small, exact, larger; filled with anything.

use crate::case::Call;
use crate::dice::Dice;

/// A room for a call that needs so many words or bytes.
pub fn room(dice: &mut Dice, call: Call, needed: usize) -> Vec<u8> {
    let lent = match dice.below(8) {
        0 => dice.below(needed + 1),
        1 => needed.saturating_sub(1),
        2 => needed + 1,
        3 => needed + dice.below(20),
        _ => needed,
    };
    (0..lent * call.unit())
        .map(|_| dice.number() as u8)
        .collect()
}
