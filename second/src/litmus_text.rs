//! Litmus texts, as docs/LITMUS.md says: the text is split into tokens; a descent along the
//! productions says how many of them can stand; a walk over these looks for what is beyond a limit;
//! a last one makes the records.

pub mod grammar;
mod limits;
mod records;
pub mod tokens;

use crate::record::Record;
use crate::reply::{self, Reply};

/// The records of a text, or 19, 20 or 21.
pub fn read(text: &[u8]) -> Result<Vec<Record>, Reply> {
    let tokens = tokens::tokens(text);
    let descent = grammar::descend(&tokens);
    // Whatever can stand comes before the token that cannot: 20 and 21 are looked for first.
    if let Some(refused) = limits::beyond(&tokens, &descent.standing) {
        return Err(refused);
    }
    if !descent.is_text {
        let cannot_stand = tokens.get(descent.standing.len());
        let place = cannot_stand.map_or(text.len(), |token| token.place);
        return Err(Reply::new(reply::OUTSIDE_THE_GRAMMAR, place));
    }
    Ok(records::records(&tokens, &descent))
}
