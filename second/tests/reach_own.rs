//! What generated cases reach of order 3: reads of own buffers, of each sort, in traces whose count is
//! shown, and rooms about its size.

use second::case::{Call, Case};
use second::generate;
use second::kinds::Step::{Drain, Read};
use second::kinds::{EXCHANGE, EXCHANGE_AND_ADD, LOAD};
use second::record::{processors, records, Record};
use second::reply;
use second::run::{Origin, Run, RESULT};
use second::table;

/// The least of cases of each sort, among the first 5,000.
const LEAST: usize = 30;

fn cases() -> impl Iterator<Item = Case> {
    (0..5_000).map(|number| generate::case(1, number))
}

/// What was so when a read came.
struct Seen {
    processor: u8,
    /// The kind of its instruction.
    kind: u8,
    /// Of the own write that served it; none if memory did.
    position: Option<usize>,
    /// How many own writes wait, and how many of them to its location.
    waiting: usize,
    to_it: usize,
    /// A write of another processor to its location waits.
    of_another: bool,
    /// An own write to its location has drained.
    drained: bool,
    /// Memory holds the value that it reads.
    in_memory: bool,
}

impl Seen {
    fn of(run: &Run, read: Record) -> Seen {
        let (processor, location) = (read.processor, read.location);
        let to_it = |processor| {
            let waiting = run.waiting(processor).into_iter();
            waiting.filter(|write| write.0 == location).count()
        };
        let own_drain = |step: &Record| {
            Drain.is(step) && (step.processor, step.location) == (processor, location)
        };
        Seen {
            processor,
            kind: run.ahead(processor)[0].0.kind,
            position: match run.origin(processor, location) {
                Origin::Memory => None,
                Origin::Waiting(position) => Some(position),
            },
            waiting: run.waiting(processor).len(),
            to_it: to_it(processor),
            of_another: processors().any(|other| other != processor && to_it(other) > 0),
            drained: run.steps().iter().any(own_drain),
            in_memory: run.memory(location) == read.value,
        }
    }

    fn own(&self) -> bool {
        self.position.is_some()
    }
}

/// The reads of each trace that is checked as finished: only then is the count shown.
fn counted() -> Vec<Vec<Seen>> {
    let such = |case: &Case| {
        let done = case.answer().reply.number == reply::DONE;
        done && case.call == Call::Check
    };
    cases().filter(such).map(|case| reads(&case)).collect()
}

fn reads(case: &Case) -> Vec<Seen> {
    let table = table::read(&case.table).unwrap();
    let mut run = Run::new(&table);
    let mut reads = Vec::new();
    for step in records(&case.trace) {
        if Read.is(&step) {
            reads.push(Seen::of(&run, step));
        }
        run.take(step);
    }
    reads
}

#[test]
fn own_buffers_serve_no_read_one_or_more() {
    let mut times = [0; 5];
    for reads in counted() {
        let own = reads.iter().filter(|read| read.own()).count();
        times[own.min(4)] += 1;
    }
    assert!(times.iter().all(|&times| times >= LEAST), "{times:?}");
}

#[test]
fn own_buffers_of_no_processor_one_or_more_serve_reads() {
    let mut times = [0; 4];
    for reads in counted() {
        let reads_own = |processor: &u8| {
            let mut own = reads.iter().filter(|read| read.own());
            own.any(|read| read.processor == *processor)
        };
        times[processors().filter(reads_own).count().min(3)] += 1;
    }
    assert!(times.iter().all(|&times| times >= LEAST), "{times:?}");
}

/// What may be so of a read.
type Sort = (&'static str, fn(&Seen) -> bool);

const OWN: [Sort; 12] = [
    ("by processor 0", |read| read.processor == 0),
    ("by another", |read| read.processor != 0),
    ("of a load", |read| read.kind == LOAD),
    ("of an exchange", |read| read.kind == EXCHANGE),
    ("of an exchange-and-add", |read| {
        read.kind == EXCHANGE_AND_ADD
    }),
    ("one waits", |read| read.waiting == 1),
    ("the oldest of all", |read| {
        read.waiting > 1 && read.position == Some(0)
    }),
    ("the newest of all", |read| {
        read.waiting > 1 && read.position == Some(read.waiting - 1)
    }),
    ("between them", |read| {
        read.position > Some(0) && read.position < Some(read.waiting - 1)
    }),
    ("several to the location", |read| read.to_it > 1),
    ("memory holds the value too", |read| read.in_memory),
    ("memory holds another", |read| !read.in_memory),
];

const OF_MEMORY: [Sort; 3] = [
    ("own writes wait elsewhere", |read| read.waiting > 0),
    ("another's write waits", |read| read.of_another),
    ("the own write has drained", |read| read.drained),
];

#[test]
fn reads_are_of_each_sort() {
    let counted = counted();
    for (own, sorts) in [(true, &OWN[..]), (false, &OF_MEMORY[..])] {
        for (name, so) in sorts {
            let such = |read: &Seen| read.own() == own && so(read);
            let times = counted.iter().filter(|reads| reads.iter().any(such));
            let times = times.count();
            assert!(times >= LEAST, "{name}: {times}");
        }
    }
}

#[test]
fn rooms_lack_the_last_word_fit_or_have_one_more() {
    let (mut lacking, mut fitting, mut longer) = (0, 0, 0);
    for case in cases().filter(|case| case.call == Call::Check) {
        let words = case.room.len() / case.call.unit();
        match case.answer().reply.number {
            reply::ROOM_TOO_SMALL if words == RESULT - 1 => lacking += 1,
            reply::DONE if words == RESULT => fitting += 1,
            reply::DONE if words == RESULT + 1 => longer += 1,
            _ => {}
        }
    }
    let times = [lacking, fitting, longer];
    assert!(times.iter().all(|&times| times >= LEAST), "{times:?}");
}
