//! Walks through the machine, and bytes of no meaning for the calls.

use second::calls::{check, finish};
use second::dice::Dice;
use second::kinds::Step;
use second::record::{bytes, processors, Record};
use second::reply::{self, Reply};
use second::run::{Origin, Run, CELLS, RESULT};
use second::table::{self, Table};
use second::text::table_bytes;
use std::collections::BTreeSet;

const TABLES: [&str; 5] = [
    "p0 store x 1, p0 load EAX y, p1 store y 1, p1 load EBX x",
    "p0 store x 1, p0 load EAX x, p0 load EBX y, p1 store y 2, p1 store x 2",
    "init p0 EAX 5, p0 lock xchg x EAX, p1 store x 1, p1 load EAX x",
    "init p0 EAX 1, init p1 EAX 1, p0 xchg x EAX, p1 xchg x EAX",
    "init x 3, init y 6, init p0 EAX 4, init p3 EAX 4294967295
     p0 store y 5, p0 store x EAX, p0 load EBX y, p0 set ECX 2, p0 fence
     p0 xchg x EAX, p0 lock xchg x EAX, p0 xadd x EAX, p0 lock xadd x EAX
     p3 store y 5, p3 store x EAX, p3 load EBX y, p3 set ECX 2, p3 fence
     p3 xchg x EAX, p3 lock xchg x EAX, p3 xadd x EAX, p3 lock xadd x EAX",
];

fn tables() -> Vec<(Vec<u8>, Table)> {
    let read = |bytes: Vec<u8>| (bytes.clone(), table::read(&bytes).unwrap());
    let tables = TABLES.iter().map(|text| table_bytes(text).unwrap());
    tables.map(read).collect()
}

fn wander(run: &mut Run, dice: &mut Dice) {
    run.take(dice.pick(&run.moves()));
}

/// Finishing writes k steps, with which the run checks.
fn finishes(table: &[u8], run: &Run, steps: usize) {
    let mut room = vec![77; run.left() * Record::BYTES];
    let trace = bytes(run.steps());
    assert_eq!(
        finish(table, &trace, &mut room),
        Reply::new(reply::DONE, run.left())
    );
    let whole = [trace, room].concat();
    assert_eq!(
        check(table, &whole, &mut [77; RESULT]),
        Reply::new(reply::DONE, steps)
    );
    assert_eq!(run.steps().len() + run.left(), steps);
}

#[test]
fn any_walk_finishes() {
    let dice = &mut Dice::new(1, 1);
    for (bytes, table) in tables() {
        for _ in 0..10 {
            let mut run = Run::new(&table);
            let steps = run.left();
            while !run.finished() {
                finishes(&bytes, &run, steps);
                wander(&mut run, dice);
            }
            finishes(&bytes, &run, steps);
            assert_eq!((run.moves(), run.holder()), (vec![], None));
        }
    }
}

#[test]
fn each_step_lowers_k_by_one_and_can_be_taken_back() {
    let dice = &mut Dice::new(1, 2);
    for (_, table) in tables() {
        let mut run = Run::new(&table);
        while !run.finished() {
            let before = (run.moves(), run.cells(), run.left());
            for step in run.moves() {
                run.take(step);
                assert_eq!(run.left() + 1, before.2);
                run.undo();
                assert_eq!((run.moves(), run.cells(), run.left()), before);
            }
            wander(&mut run, dice);
        }
    }
}

/// What a read takes: the newest own waiting write to its location, by a look at what waits.
fn served_by(run: &Run, read: Record) -> Origin {
    let waiting = run.waiting(read.processor);
    let newest = (0..waiting.len()).rfind(|&position| waiting[position].0 == read.location);
    if let Some(position) = newest {
        assert_eq!(waiting[position].1, read.value);
    }
    newest.map_or(Origin::Memory, Origin::Waiting)
}

/// How many reads of a walk its own buffers serve, by a look before each.
fn counted_walk(table: &Table, dice: &mut Dice) -> u32 {
    let (mut run, mut own) = (Run::new(table), 0);
    while !run.finished() {
        let step = dice.pick(&run.moves());
        if Step::Read.is(&step) {
            let origin = served_by(&run, step);
            assert_eq!(run.origin(step.processor, step.location), origin);
            own += u32::from(origin != Origin::Memory);
        }
        run.take(step);
        assert_eq!(run.result()[CELLS], own);
    }
    own
}

#[test]
fn own_buffer_reads_are_counted_as_they_come() {
    let dice = &mut Dice::new(1, 7);
    let mut seen = BTreeSet::new();
    for (_, table) in tables() {
        seen.extend((0..50).map(|_| counted_walk(&table, dice)));
    }
    assert!((0..3).all(|own| seen.contains(&own)), "{seen:?}");
}

/// All well-formed steps with a value below the limit.
fn all_steps(limit: u32) -> Vec<Record> {
    let mut all = Vec::new();
    for number in 0..8 * 4 * 8 * limit {
        let [kind, processor, location] = [number % 8, number / 8 % 4, number / 32 % 8];
        if let Some(kind) = Step::of(kind as u8) {
            let step = kind.by(processor as u8, location as u8, number / 256);
            if !step.unused_not_zero(kind.uses()) {
                all.push(step);
            }
        }
    }
    all
}

#[test]
fn moves_are_all_that_is_allowed() {
    let (all, dice) = (all_steps(20), &mut Dice::new(1, 3));
    for (_, table) in tables() {
        let mut run = Run::new(&table);
        while !run.finished() {
            let moves = run.moves();
            assert!(moves.iter().all(|&step| run.allowed(step)));
            let mut others = all.iter().filter(|step| !moves.contains(step));
            assert!(!others.any(|&step| run.allowed(step)));
            wander(&mut run, dice);
        }
    }
}

#[test]
fn the_holder_alone_comes_to_an_unlock_and_comes_to_no_lock() {
    let dice = &mut Dice::new(1, 5);
    for (_, table) in tables() {
        let mut run = Run::new(&table);
        while !run.finished() {
            for next in processors().filter_map(|processor| run.next(processor)) {
                let holds = run.holder() == Some(next.processor);
                assert!(holds || !Step::Unlock.is(&next));
                assert!(!holds || !Step::Lock.is(&next));
            }
            wander(&mut run, dice);
        }
    }
}

/// Records with a kind up to the highest, mostly well formed; perhaps a rest.
fn noise(dice: &mut Dice, highest: usize) -> Vec<u8> {
    let length = dice.below(40);
    let byte = |place: usize| match place % Record::BYTES {
        0 => dice.below(highest + 1) as u8,
        1..=3 => (dice.below(64) as u8).saturating_sub(54),
        _ => (dice.below(64) as u8).saturating_sub(60),
    };
    (0..length).map(byte).collect()
}

#[test]
fn any_bytes_get_an_answer() {
    let dice = &mut Dice::new(1, 4);
    let mut seen = BTreeSet::new();
    for _ in 0..20_000 {
        let (table, trace) = (noise(dice, 12), noise(dice, 8));
        let mut room = vec![7; dice.below(2 * RESULT)];
        let checked = check(&table, &trace, &mut room);
        seen.insert(checked.number);
        assert!(checked.number == reply::DONE || room.iter().all(|&word| word == 7));
        let finished = finish(&table, &trace, &mut [0; 2560]);
        match checked.number {
            reply::DONE | reply::UNFINISHED | reply::ROOM_TOO_SMALL => {
                assert_eq!(finished.number, reply::DONE)
            }
            _ => assert_eq!(finished, checked),
        }
    }
    // Too short for a seventeenth instruction, too wild for what lock and buffer stop.
    for number in [7, 16, 17] {
        assert!(seen.insert(number));
    }
    assert_eq!(seen, reply::numbers().collect());
}
