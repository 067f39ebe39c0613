//! Damage that tables and traces share: to a byte, to the length, to the fields of a record.

use crate::dice::Dice;
use crate::record::{Field, Record};

/// The fields that a kind uses; none for an unknown kind.
pub type Uses = fn(u8) -> Option<&'static [Field]>;

/// Damage to the bytes: one to seven more or fewer, or one changed.
pub fn damage_bytes(dice: &mut Dice, bytes: &mut Vec<u8>) {
    let by = 1 + dice.below(7);
    match dice.below(4) {
        0 => bytes.extend((0..by).map(|_| dice.below(12) as u8)),
        1 => bytes.truncate(bytes.len().saturating_sub(by)),
        _ if bytes.is_empty() => {}
        _ => {
            let at = dice.below(bytes.len());
            bytes[at] ^= 1 + dice.below(255) as u8;
        }
    }
}

/// Damage to a record: an unknown kind, a used field too large, or an unused one not zero.
pub fn damage_record(dice: &mut Dice, records: &mut [Record], uses: Uses) {
    if records.is_empty() {
        return;
    }
    let record = &mut records[dice.below(records.len())];
    let used = uses(record.kind).unwrap_or(&[]);
    match dice.below(8) {
        0 | 1 => record.kind = unknown_kind(dice, uses),
        2 | 3 => make_too_large(dice, record, used),
        _ => use_unused(dice, record, used),
    }
}

/// Often the nearest to a kind that there is.
fn unknown_kind(dice: &mut Dice, uses: Uses) -> u8 {
    let unknown: Vec<u8> = (0..=255).filter(|&kind| uses(kind).is_none()).collect();
    let any = dice.pick(&unknown);
    dice.pick(&[unknown[0], unknown[1], any])
}

fn make_too_large(dice: &mut Dice, record: &mut Record, used: &[Field]) {
    let limited = |field: &Field| Some((*field, field.limit()?));
    let limited: Vec<(Field, usize)> = used.iter().filter_map(limited).collect();
    if let Some((field, limit)) = dice.find(&limited) {
        let number = dice.pick(&[limit, limit, limit + 1, 255]);
        record.set(field, number as u32);
    }
}

fn use_unused(dice: &mut Dice, record: &mut Record, used: &[Field]) {
    let unused: Vec<Field> = Field::others(used).collect();
    if let Some(field) = dice.find(&unused) {
        let number = dice.pick(&[1, 1, 3, 255]);
        record.set(field, number);
    }
}
