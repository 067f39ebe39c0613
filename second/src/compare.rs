//! Generated cases, through a peer and through this implementation.

use crate::generate::Family;
use crate::peer::{Answers, Peer};
use crate::shown::{show, show_answer};
use crate::tally::Tally;

/// Nothing but the tally, or the first case on which the two differ, as text.
pub fn compare(family: Family, peer: &mut Peer, count: u64, seed: u64) -> Result<Tally, String> {
    let mut tally = Tally::new(family);
    for number in 0..count {
        let case = family.case(seed, number);
        let text = || format!("case {number} of seed {seed}\n{}", show(&case));
        let none = |_| format!("{}proved: no answer\n", text());
        let Answers { ours, theirs } = peer.ask(&case).map_err(none)?;
        if ours != theirs {
            let (ours, theirs) = (show_answer(&case, &ours), show_answer(&case, &theirs));
            return Err(format!("{}second: {ours}proved: {theirs}", text()));
        }
        tally.add(&case, ours.reply);
    }
    Ok(tally)
}
