//! Litmus texts: a plan is written down in tokens, the tokens are laid out, and half of the texts
//! are damaged in between or at last.

mod damage;
mod layout;
mod pieces;
mod plan;

use super::rooms;
use crate::calls::litmus;
use crate::case::{Call, Case};
use crate::dice::Dice;
use crate::record::{bytes, Record};
use crate::reply;
use plan::Plan;

pub fn case(seed: u64, number: u64) -> Case {
    let dice = &mut Dice::new(seed, number);
    let plan = plan::plan(dice);
    let mut pieces = pieces::pieces(dice, &plan);
    let damages = dice.pick(&[0, 0, 0, 1, 1, 2]);
    let to_bytes = (0..damages).filter(|_| dice.one_in(4)).count();
    for _ in to_bytes..damages {
        damage::damage_pieces(dice, &mut pieces, &plan);
    }
    let mut text = layout::text(dice, &pieces);
    for _ in 0..to_bytes {
        damage::damage_bytes(dice, &mut text);
    }
    let needed = needed(dice, &text, &plan);
    Case {
        call: Call::Litmus,
        room: rooms::room(dice, Call::Litmus, needed),
        table: text,
        trace: Vec::new(),
    }
}

/// Where 13 can come, what it says in no room. For the others so much that it could come if they
/// did not, or nothing.
fn needed(dice: &mut Dice, text: &[u8], plan: &Plan) -> usize {
    let reply = litmus(text, &mut []);
    match reply.number {
        _ if dice.one_in(12) => 0,
        reply::ROOM_TOO_SMALL => reply.place as usize,
        reply::CELL_GIVEN_TWICE | reply::SEVENTEENTH_INSTRUCTION => bytes(&plan.records()).len(),
        _ => dice.below(8) * Record::BYTES,
    }
}

#[cfg(test)]
mod tests {
    use super::*;
    use crate::litmus_text;
    use crate::record::{LOCATIONS, PROCESSORS};

    #[test]
    fn an_undamaged_text_gives_its_plan() {
        let mut within = 0;
        for number in 0..3_000 {
            let dice = &mut Dice::new(7, number);
            let plan = plan::plan(dice);
            let pieces = pieces::pieces(dice, &plan);
            let read = litmus_text::read(&layout::text(dice, &pieces));
            let eight = |record: &Record| usize::from(record.location) < LOCATIONS;
            if plan.headings <= PROCESSORS && plan.records().iter().all(eight) {
                assert_eq!(read, Ok(plan.records()), "{number}");
                within += 1;
            } else {
                let number = read.map_err(|refused| refused.number);
                assert_eq!(number, Err(reply::NO_SUCH_LOCATION_OR_PROCESSOR));
            }
        }
        assert!((2_000..3_000).contains(&within));
    }
}
