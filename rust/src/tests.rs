//! What needs no library: numbers, names, words and sizes are those of the header and of
//! docs/FORMAT.md, and an answer becomes a result. tests/calls.rs calls the library.
use crate::answer::Answer;
use crate::refused::{Refusal, Refused};
use crate::{CHECK_WORDS, FINISH_BYTES, LITMUS_BYTES, OUTCOME_WORDS};

/// 11 is given no more.
fn numbers() -> impl Iterator<Item = u64> {
    (1..=10).chain(12..=21)
}

/// The header has this name, and gives it this number.
fn in_header(name: &str, number: u64) -> bool {
    let (name, number) = (format!("AMBERCELL_{name}"), number.to_string());
    let header = include_str!("../../include/ambercell.h").replace(',', " ");
    let words: Vec<&str> = header.split_whitespace().collect();
    words
        .windows(3)
        .any(|three| three == [&name[..], "=", &number])
}

/// As C spells a name: `TableLength` is `TABLE_LENGTH`.
fn in_c(why: Refusal) -> String {
    let mut name = String::new();
    for letter in format!("{why:?}").chars() {
        if letter.is_uppercase() && !name.is_empty() {
            name.push('_');
        }
        name.push(letter.to_ascii_uppercase());
    }
    name
}

#[test]
fn each_number_is_one_refusal_with_the_headers_name() {
    for number in numbers() {
        let why = Refusal::of(number);
        assert_eq!(why as u64, number);
        assert!(in_header(&in_c(why), number), "{why:?} is {number}");
    }
}

#[test]
#[should_panic(expected = "no number 11")]
fn there_is_no_eleventh() {
    Refusal::of(11);
}

#[test]
#[should_panic(expected = "no number 22")]
fn there_is_no_twenty_second() {
    Refusal::of(22);
}

#[test]
fn each_refusal_has_the_words_of_the_format() {
    for number in numbers() {
        let row = format!("| {number} | {}", Refusal::of(number));
        assert!(
            include_str!("../../docs/FORMAT.md")
                .lines()
                .any(|line| line.starts_with(&row)),
            "no row {row}"
        );
    }
}

#[test]
fn a_refusal_says_its_number_its_place_and_why() {
    let refused = Refused {
        why: Refusal::BufferNotEmpty,
        place: 2,
    };
    assert_eq!(refused.to_string(), "refused 17 at 2, own buffer not empty");
}

#[test]
fn rooms_are_those_of_the_header() {
    assert!(in_header("OUTCOME_WORDS", OUTCOME_WORDS as u64));
    assert!(in_header("CHECK_WORDS", CHECK_WORDS as u64));
    assert!(in_header("FINISH_BYTES", FINISH_BYTES as u64));
    assert!(in_header("LITMUS_BYTES", LITMUS_BYTES as u64));
}

#[test]
fn number_0_is_done_and_any_other_a_refusal() {
    let answer = |number| Answer { number, place: 5 };
    assert!(in_header("DONE", 0));
    assert_eq!(answer(0).result(), Ok(5));
    for number in numbers() {
        let why = Refusal::of(number);
        assert_eq!(answer(number).result(), Err(Refused { why, place: 5 }));
    }
}
