//! The examples of the document on litmus texts.

use second::examples::read_examples;
use second::reply;
use std::collections::BTreeSet;

#[test]
fn the_document_is_right() {
    let path = concat!(env!("CARGO_MANIFEST_DIR"), "/../docs/LITMUS.md");
    let document = std::fs::read_to_string(path).unwrap();
    let mut numbers = BTreeSet::new();
    for example in read_examples(&document).unwrap() {
        let shown = format!("line {}", example.line);
        assert_eq!(example.case.answer(), example.gives, "{shown}");
        numbers.insert(example.gives.reply.number);
    }
    // The rooms of the examples are large enough.
    numbers.insert(reply::ROOM_TOO_SMALL);
    assert_eq!(numbers, BTreeSet::from(reply::OF_A_TEXT));
}
