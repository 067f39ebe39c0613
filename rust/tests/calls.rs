//! Calls from Rust, with answers of document 01's sheet.
use ambercell::{
    check, finish, litmus, Refusal, Refused, CHECK_WORDS, FINISH_BYTES, LITMUS_BYTES, OUTCOME_WORDS,
};

type Record = [u8; 8];

/// P0 stores x1, loads EAX from y; P1 stores y1, loads EBX from x.
const SB: [Record; 4] = [
    [3, 0, 0, 0, 1, 0, 0, 0],
    [5, 0, 0, 1, 0, 0, 0, 0],
    [3, 1, 0, 1, 1, 0, 0, 0],
    [5, 1, 1, 0, 0, 0, 0, 0],
];

const W0_X1: Record = [2, 0, 0, 0, 1, 0, 0, 0];
const W1_Y1: Record = [2, 1, 0, 1, 1, 0, 0, 0];
const R0_Y0: Record = [1, 0, 0, 1, 0, 0, 0, 0];
const R0_Y1: Record = [1, 0, 0, 1, 1, 0, 0, 0];
const R1_X0: Record = [1, 1, 0, 0, 0, 0, 0, 0];
const R1_X1: Record = [1, 1, 0, 0, 1, 0, 0, 0];
const D0_X1: Record = [3, 0, 0, 0, 1, 0, 0, 0];
const D1_Y1: Record = [3, 1, 0, 1, 1, 0, 0, 0];

fn refused(why: Refusal, place: usize) -> Result<usize, Refused> {
    Err(Refused { why, place })
}

#[test]
fn line_1_is_finished() {
    let trace = [W0_X1, W1_Y1, R0_Y0, R1_X0, D0_X1, D1_Y1].concat();
    let mut room = [7; CHECK_WORDS + 1];
    assert_eq!(check(&SB.concat(), &trace, &mut room), Ok(6));
    assert_eq!(room[..16], [0; 16]);
    assert_eq!(room[16..24], [1, 1, 0, 0, 0, 0, 0, 0]);
    assert_eq!(room[OUTCOME_WORDS..], [0, 7]);
}

#[test]
fn line_2_is_refused_and_the_room_kept() {
    let trace = [W0_X1, W1_Y1, R0_Y1, R1_X0, D0_X1, D1_Y1].concat();
    let mut room = [7; CHECK_WORDS];
    assert_eq!(
        check(&SB.concat(), &trace, &mut room),
        refused(Refusal::NotRight, 2)
    );
    assert_eq!(room, [7; CHECK_WORDS]);
}

#[test]
fn line_3_is_unfinished() {
    let trace = [W0_X1, W1_Y1, R0_Y0, R1_X0, D0_X1].concat();
    assert_eq!(
        check(&SB.concat(), &trace, &mut [0; CHECK_WORDS]),
        refused(Refusal::Unfinished, 5)
    );
}

#[test]
fn line_4_finishes_from_nothing() {
    let mut room = [7; 49];
    assert_eq!(finish(&SB.concat(), &[], &mut room), Ok(6));
    assert_eq!(
        room[..48],
        [W0_X1, D0_X1, R0_Y0, W1_Y1, D1_Y1, R1_X1].concat()
    );
    assert_eq!(room[48], 7);
    assert_eq!(
        check(&SB.concat(), &room[..48], &mut [0; CHECK_WORDS]),
        Ok(6)
    );
}

/// n6: worker 0 reads its own waiting write to x, and y from memory.
#[test]
fn line_6_counts_one_own_read() {
    let store = |p, x, v| [3, p, 0, x, v, 0, 0, 0];
    let load = |p, r, x| [5, p, r, x, 0, 0, 0, 0];
    let step = |kind, p, x, v| [kind, p, 0, x, v, 0, 0, 0];
    let (r, w, d) = (1, 2, 3);
    let table = [store(0, 0, 1), load(0, 0, 0), load(0, 1, 1), store(1, 1, 2), store(1, 0, 2)];
    let writes = [step(w, 1, 1, 2), step(w, 0, 0, 1)];
    let reads = [step(r, 0, 0, 1), step(r, 0, 1, 0), step(w, 1, 0, 2)];
    let drains = [step(d, 1, 1, 2), step(d, 1, 0, 2), step(d, 0, 0, 1)];
    let trace = [writes.concat(), reads.concat(), drains.concat()].concat();
    let mut room = [7; CHECK_WORDS];
    assert_eq!(check(&table.concat(), &trace, &mut room), Ok(8));
    assert_eq!(room[16..18], [1, 2]);
    assert_eq!(room[OUTCOME_WORDS], 1);
}

#[test]
fn empty_slices() {
    assert_eq!(finish(&[], &[], &mut []), Ok(0));
    assert_eq!(check(&[], &[], &mut [0; CHECK_WORDS]), Ok(0));
    assert_eq!(
        check(&[], &[], &mut []),
        refused(Refusal::RoomTooSmall, CHECK_WORDS)
    );
}

/// Each number as the library gives it, in its order.
#[test]
fn every_refusal() {
    let fence = [7, 0, 0, 0, 0, 0, 0, 0];
    let memory = [1, 0, 0, 0, 1, 0, 0, 0];
    let sb = SB.concat();
    let fenced = [SB[0], fence].concat();
    let locked = [[11, 0, 0, 0, 0, 0, 0, 0], [11, 1, 0, 0, 0, 0, 0, 0]].concat();
    let (lock_0, lock_1) = ([5, 0, 0, 0, 0, 0, 0, 0], [5, 1, 0, 0, 0, 0, 0, 0]);
    let calls: [(&[u8], &[u8]); 17] = [
        (&[0], &[]),
        (&[12, 0, 0, 0, 0, 0, 0, 0], &[]),
        (&[7, 4, 0, 0, 0, 0, 0, 0], &[]),
        (&[7, 0, 1, 0, 0, 0, 0, 0], &[]),
        (&[fence, memory].concat(), &[]),
        (&[memory, memory].concat(), &[]),
        (&[fence; 17].concat(), &[]),
        (&sb, &[0]),
        (&sb, &[8, 0, 0, 0, 0, 0, 0, 0]),
        (&sb, &[2, 4, 0, 0, 1, 0, 0, 0]),
        (&sb, &[]),
        (&[], &[]),
        (&sb, &[2, 2, 0, 0, 1, 0, 0, 0]),
        (&sb, &[2, 0, 0, 0, 2, 0, 0, 0]),
        (&locked, &[lock_0, lock_1].concat()),
        (&fenced, &[W0_X1, [4, 0, 0, 0, 0, 0, 0, 0]].concat()),
        (&sb, &D0_X1),
    ];
    // 11 is given no more, and 19 to 21 only for texts
    for (number, (table, trace)) in (1..=10).chain(12..).zip(calls) {
        let answer = check(table, trace, &mut []).unwrap_err();
        assert_eq!(answer.why as u64, number);
        assert!(answer
            .to_string()
            .starts_with(&format!("refused {number} at ")));
    }
}

#[test]
fn longest() {
    let table: Vec<u8> = (0..64).flat_map(|i| [9, i % 4, 0, 0, 0, 0, 0, 0]).collect();
    let mut steps = [0; FINISH_BYTES];
    assert_eq!(finish(&table, &[], &mut steps), Ok(320));
    assert_eq!(check(&table, &steps, &mut [0; CHECK_WORDS]), Ok(320));
}

/// A litmus text becomes a table, which is finished and checked.
#[test]
fn a_text_is_read() {
    let text = b"X86 SB { } P0 | P1 ; MOV [x],$1 | MOV [y],$1 ; MOV EAX,[y] | MOV EBX,[x] ; exists";
    let mut room = [7; LITMUS_BYTES];
    assert_eq!(litmus(text, &mut room), Ok(4));
    assert_eq!(room[..32], [SB[0], SB[2], SB[1], SB[3]].concat());
    assert_eq!(room[32..], [7; LITMUS_BYTES - 32]);
    let mut steps = [0; FINISH_BYTES];
    assert_eq!(finish(&room[..32], &[], &mut steps), Ok(6));
    assert_eq!(
        check(&room[..32], &steps[..48], &mut [0; CHECK_WORDS]),
        Ok(6)
    );
}

#[test]
fn texts_are_refused_and_the_room_kept() {
    let texts: [(&[u8], Refusal, usize); 5] = [
        (b"", Refusal::TextGrammar, 0),
        (b"X86 t{}P0;MOV x", Refusal::TextGrammar, 14),
        (b"X86 t{4:EAX=0;}P0;exists", Refusal::TextLimit, 6),
        (b"X86 t{x=-2147483649;}P0;exists", Refusal::TextConstant, 8),
        (b"X86 t{x=0;x=0;}P0;exists", Refusal::CellTwice, 1),
    ];
    for (text, why, place) in texts {
        let mut room = [7; LITMUS_BYTES];
        assert_eq!(litmus(text, &mut room), refused(why, place));
        assert_eq!(room, [7; LITMUS_BYTES]);
    }
    assert_eq!(
        litmus(b"X86 t{x=0;}P0;exists", &mut [0; 7]),
        refused(Refusal::RoomTooSmall, 8)
    );
}
