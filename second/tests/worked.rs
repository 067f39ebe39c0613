//! The cases whose answers were worked out by hand.

use second::stated::read_cases;
use std::fs;

#[test]
fn answers_are_as_stated() {
    let folder = concat!(env!("CARGO_MANIFEST_DIR"), "/../tests/worked");
    let mut count = 0;
    for entry in fs::read_dir(folder).unwrap() {
        let path = entry.unwrap().path();
        for stated in read_cases(&fs::read_to_string(&path).unwrap()).unwrap() {
            let place = format!("{}, line {}", path.display(), stated.line);
            assert_eq!(stated.case.answer(), stated.gives, "{place}");
            count += 1;
        }
    }
    assert!(count > 0);
}
