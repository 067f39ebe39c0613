//! What generated litmus texts reach: each number, each kind of record, each corner.

use second::case::Case;
use second::generate::Family;
use second::kinds;
use second::litmus_text::grammar::{descend, Part};
use second::litmus_text::tokens::tokens;
use second::record::{records, Field, Record};
use second::reply::{self, Reply};
use std::collections::{BTreeMap, BTreeSet};

/// A case, and what it is answered.
struct Seen {
    case: Case,
    reply: Reply,
    /// What is written on 0.
    records: Vec<Record>,
}

fn seen() -> Vec<Seen> {
    let each = (0..5_000).map(|number| {
        let case = Family::Texts.case(1, number);
        let answer = case.answer();
        let count = match answer.reply.number {
            reply::DONE => answer.reply.place as usize,
            _ => 0,
        };
        let records = records(&answer.room[..count * Record::BYTES]);
        let reply = answer.reply;
        Seen {
            case,
            reply,
            records,
        }
    });
    each.collect()
}

impl Seen {
    /// The text from the place of 19, 20 or 21 on.
    fn rest(&self) -> &[u8] {
        self.case
            .table
            .get(self.reply.place as usize..)
            .unwrap_or(&[])
    }

    fn gives(&self, number: u64, begins: &[u8]) -> bool {
        self.reply.number == number && self.rest().starts_with(begins)
    }

    /// The byte at the place of 19, 20 or 21.
    fn at(&self, number: u64, such: impl Fn(u8) -> bool) -> bool {
        let first = self.rest().first();
        self.reply.number == number && first.map_or(false, |&byte| such(byte))
    }

    fn has(&self, bytes: &[u8]) -> bool {
        self.case
            .table
            .windows(bytes.len())
            .any(|window| window == bytes)
    }

    fn is_done(&self) -> bool {
        self.reply.number == reply::DONE
    }

    fn is_done_with(&self, bytes: &[u8]) -> bool {
        self.is_done() && self.has(bytes)
    }
}

#[test]
fn each_number_comes_often() {
    let mut times: BTreeMap<u64, usize> = BTreeMap::new();
    for seen in seen() {
        *times.entry(seen.reply.number).or_default() += 1;
    }
    let numbers: Vec<u64> = times.keys().copied().collect();
    assert_eq!(numbers, reply::OF_A_TEXT);
    assert!(times.values().all(|&times| times >= 50), "{times:?}");
    assert!(times[&reply::DONE] >= 500, "{times:?}");
}

#[test]
fn each_kind_each_register_each_processor_and_each_location_is_written() {
    let uses = |kind| kinds::kind(kind).unwrap().uses;
    let name = |field: &Field| format!("{field:?}");
    let mut all = BTreeSet::new();
    for record in seen().iter().flat_map(|seen| &seen.records) {
        for field in uses(record.kind) {
            all.insert((record.kind, name(field), record.get(*field)));
        }
    }
    for kind in kinds::INITIAL_MEMORY..=kinds::LOCKED_EXCHANGE_AND_ADD {
        for field in uses(kind) {
            let mut all_of_it = 0..field.limit().unwrap_or(2) as u32;
            let missing = all_of_it.find(|&of| !all.contains(&(kind, name(field), of)));
            assert_eq!(missing, None, "kind {kind}, {field:?}");
        }
    }
}

/// The least of each corner.
const LEAST: usize = 3;

type Corner = (&'static str, fn(&Seen) -> bool);

fn assert_each_comes(corners: &[Corner]) {
    let seen = seen();
    for (corner, such) in corners {
        let times = seen.iter().filter(|seen| such(seen)).count();
        assert!(times >= LEAST, "{corner}: {times}");
    }
}

const DONE: [Corner; 19] = [
    ("no record", |seen| {
        seen.is_done() && seen.records.is_empty()
    }),
    ("88 records", |seen| seen.records.len() == 88),
    ("the most", |seen| seen.is_done_with(b"4294967295")),
    ("the least", |seen| seen.is_done_with(b"-2147483648")),
    ("minus zero", |seen| seen.is_done_with(b"=-0;")),
    ("minus zero in a row", |seen| seen.is_done_with(b",$-0;")),
    ("many zeros", |seen| seen.is_done_with(&[b'0'; 25])),
    ("a processor with zeros", |seen| seen.is_done_with(b"001:")),
    ("~exists", |seen| seen.is_done_with(b"~exists")),
    ("forall", |seen| seen.is_done_with(b"forall")),
    ("no blank but one", |seen| seen.is_done_with(b"{}P0;")),
    ("the second blank", |seen| seen.is_done_with(b"\nP0")),
    ("the third blank", |seen| seen.is_done_with(b"\rP0")),
    ("blanks at first", |seen| {
        seen.is_done_with(b"X86") && seen.case.table[0] <= b' '
    }),
    ("an odd name", |seen| seen.is_done_with(b"\xFF")),
    ("a name that touches", |seen| seen.is_done_with(b"X86$")),
    ("an empty cell", |seen| seen.is_done_with(b";|")),
    ("a room for more", |seen| {
        seen.is_done() && room_over(seen) > 0
    }),
    ("a room that is exact", |seen| {
        room_over(seen) == 0 && !seen.records.is_empty()
    }),
];

/// How many bytes stand behind the records.
fn room_over(seen: &Seen) -> usize {
    seen.case.room.len() - seen.records.len() * Record::BYTES
}

#[test]
fn what_is_read() {
    assert_each_comes(&DONE);
}

const REFUSED: [Corner; 34] = [
    ("21, a high constant", |seen| seen.gives(21, b"4294967296")),
    ("21, a low constant", |seen| seen.gives(21, b"-2147483649")),
    ("21, a high one in a row", |seen| {
        seen.gives(21, b"$4294967296")
    }),
    ("21, a low one in a row", |seen| {
        seen.gives(21, b"$-2147483649")
    }),
    ("21, the first that is 0 in 64 bits", |seen| {
        seen.gives(21, b"$18446744073709551616")
    }),
    ("20, a letter", |seen| {
        seen.at(20, |byte| byte.is_ascii_lowercase())
    }),
    ("20, a processor", |seen| seen.gives(20, b"4:")),
    ("20, a processor without its colon", |seen| {
        seen.gives(20, b"4=")
    }),
    ("20, a large processor", |seen| {
        seen.gives(20, b"18446744073709551616")
    }),
    ("20, a heading", |seen| seen.gives(20, b"P4")),
    ("19, the text's beginning", |seen| {
        seen.reply == Reply::new(19, 0) && !seen.case.table.is_empty()
    }),
    ("19, the text's end", |seen| {
        seen.reply.number == 19 && seen.rest().is_empty()
    }),
    ("19, no name", |seen| seen.gives(19, b"{")),
    ("19, tab", |seen| seen.gives(19, b"\t")),
    ("19, zero", |seen| seen.gives(19, b"\0")),
    ("19, from 128 up", |seen| seen.at(19, |byte| byte >= 128)),
    ("19, a cell too few", |seen| seen.gives(19, b";")),
    ("19, a cell too many", |seen| seen.gives(19, b"|")),
    ("19, P00", |seen| seen.gives(19, b"P00")),
    ("19, P5", |seen| seen.gives(19, b"P5")),
    ("19, P4", |seen| seen.gives(19, b"P4")),
    ("19, ~ exists", |seen| seen.gives(19, b"~ exists")),
    ("19, ~exists1", |seen| seen.gives(19, b"~exists1")),
    ("19, $1a", |seen| seen.gives(19, b"$4294967296a")),
    ("19, a lone $", |seen| seen.gives(19, b"$ ")),
    ("19, a lone -", |seen| {
        seen.gives(19, b"- ") || seen.gives(19, b"-;")
    }),
    ("19, a constant that would be 21", |seen| {
        seen.gives(19, b"4294967296")
    }),
    ("19, the same with its $", |seen| {
        seen.gives(19, b"$4294967296")
    }),
    ("6, in no room for it", |seen| {
        seen.reply.number == 6 && seen.has_no_room_for_it()
    }),
    ("7, in no room for it", |seen| {
        seen.reply.number == 7 && seen.has_no_room_for_it()
    }),
    ("7, in a long text", |seen| {
        seen.reply.number == 7 && seen.case.table.len() > 5_000
    }),
    ("13, no room", |seen| {
        seen.reply.number == 13 && seen.case.room.is_empty()
    }),
    ("13, a byte short", |seen| {
        seen.reply.number == 13 && short_by(seen) == 1
    }),
    ("13, a record short", |seen| {
        seen.reply.number == 13 && short_by(seen) > 8
    }),
];

fn short_by(seen: &Seen) -> usize {
    seen.reply.place as usize - seen.case.room.len()
}

impl Seen {
    /// For 6 and 7: the room ends before the record.
    fn has_no_room_for_it(&self) -> bool {
        self.case.room.len() < (self.reply.place as usize + 1) * Record::BYTES
    }
}

#[test]
fn what_is_refused() {
    assert_each_comes(&REFUSED);
}

/// A text with two faults, or with a token that would be 20 if it could stand.
const FAULTS: [Corner; 6] = [
    ("20 before a later 19", |seen| {
        seen.reply.number == 20 && !is_text(seen)
    }),
    ("21 before a later 19", |seen| {
        seen.reply.number == 21 && !is_text(seen)
    }),
    ("19 before a later 21", |seen| {
        seen.reply.number == 19 && later(seen, b"4294967296")
    }),
    ("20 before a later 21", |seen| {
        seen.reply.number == 20 && later(seen, b"4294967296")
    }),
    ("19, a ninth letter", |seen| {
        seen.reply.number == 19 && is_ninth_letter(seen)
    }),
    ("19, a processor above 3", |seen| {
        seen.gives(19, b"4") && !seen.gives(19, b"42")
    }),
];

fn is_text(seen: &Seen) -> bool {
    descend(&tokens(&seen.case.table)).is_text
}

fn later(seen: &Seen, bytes: &[u8]) -> bool {
    let behind = seen.rest().get(1..).unwrap_or(&[]);
    behind.windows(bytes.len()).any(|window| window == bytes)
}

/// The token that cannot stand is a small letter, and eight others stand before it.
fn is_ninth_letter(seen: &Seen) -> bool {
    let tokens = tokens(&seen.case.table);
    let standing = descend(&tokens).standing;
    let mut before = BTreeSet::new();
    for (token, part) in tokens.iter().zip(&standing) {
        if *part == Part::Location {
            before.insert(token.bytes);
        }
    }
    match tokens.get(standing.len()).map(|token| token.bytes) {
        Some(letter @ [b'a'..=b'z']) => before.len() == 8 && !before.contains(letter),
        _ => false,
    }
}

#[test]
fn what_the_order_decides() {
    assert_each_comes(&FAULTS);
}
