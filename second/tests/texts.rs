//! Litmus texts that are cut or disturbed between their tokens, and bytes of no meaning.

use second::calls::litmus;
use second::case::Case;
use second::dice::Dice;
use second::generate::Family;
use second::litmus_text::grammar::descend;
use second::litmus_text::tokens::tokens;
use second::reply::{self, Reply};
use std::collections::BTreeSet;

/// Texts that are read, each with the places of its tokens up to the end word.
fn texts() -> Vec<(Vec<u8>, Vec<usize>)> {
    let cases = (0..400).map(|number| Family::Texts.case(1, number));
    let read = cases.filter(|case| case.answer().reply.number == reply::DONE);
    let places = |case: Case| {
        let tokens = tokens(&case.table);
        let standing = descend(&tokens).standing.len();
        let places = tokens[..standing].iter().map(|token| token.place);
        (case.table.clone(), places.collect())
    };
    read.map(places).collect()
}

#[test]
fn a_text_that_is_cut_before_a_token_is_told_at_its_length() {
    for (text, places) in texts() {
        for place in places {
            let expected = Reply::new(reply::OUTSIDE_THE_GRAMMAR, place);
            assert_eq!(litmus(&text[..place], &mut []), expected);
        }
    }
}

#[test]
fn a_mark_that_fits_nowhere_is_told_where_it_stands() {
    for (text, places) in texts() {
        for (number, place) in places.into_iter().enumerate() {
            let disturbed = [&text[..place], b" ? ", &text[place..]].concat();
            // As the second token it is the name, and the next one cannot stand.
            let told = place + if number == 1 { 3 } else { 1 };
            let expected = Reply::new(reply::OUTSIDE_THE_GRAMMAR, told);
            assert_eq!(litmus(&disturbed, &mut []), expected);
        }
    }
}

#[test]
fn what_follows_the_end_word_is_not_looked_at() {
    for (text, places) in texts() {
        let end = tokens(&text)[places.len() - 1];
        let end = end.place + end.bytes.len();
        let mut rooms = [[7; 704]; 2];
        let cut = litmus(&text[..end], &mut rooms[0]);
        let longer = [&text[..end], b"\0x86 ; P4"].concat();
        assert_eq!(litmus(&longer, &mut rooms[1]), cut);
        assert_eq!(rooms[0], rooms[1]);
    }
}

const WORDS: [&str; 24] = [
    "X86", "t", "{", "}", "x", "=", "1", ";", "0", ":", "EAX", "P0", "P1", "|", "MOV", "[", "]",
    ",", "$1", "MFENCE", "LOCK", "XADD", "exists", "~",
];

#[test]
fn any_words_and_bytes_get_an_answer() {
    let dice = &mut Dice::new(1, 6);
    let mut seen = BTreeSet::new();
    for _ in 0..20_000 {
        let mut text = b"X86 t{".to_vec();
        text.truncate(dice.pick(&[0, 3, 6, 6, 6]));
        for _ in 0..dice.below(20) {
            match dice.below(20) {
                0 => text.push(dice.number() as u8),
                1 => text.push(b' '),
                _ => text.extend(dice.pick(&WORDS).bytes()),
            }
        }
        let mut room = [7; 20];
        let Reply { number, place } = litmus(&text, &mut room);
        seen.insert(number);
        assert!(number == reply::DONE || room == [7; 20]);
        assert!(number != reply::OUTSIDE_THE_GRAMMAR || place <= text.len() as u64);
    }
    assert!(seen.is_subset(&BTreeSet::from(reply::OF_A_TEXT)));
    assert!(seen.len() > 1);
}
