//! The machine, by its history: from the table and the steps so far it is
//! worked out, each time anew, what waits, what memory and registers hold,
//! who holds the lock and which program step is next.

use crate::kinds::{self, Step};
use crate::record::{processors, Record, LOCATIONS, PROCESSORS, REGISTERS};
use crate::reply;
use crate::table::Table;

/// All registers, then memory: an outcome.
pub const CELLS: usize = PROCESSORS * REGISTERS + LOCATIONS;

/// Words of a result: the cells, then the number of reads served from own buffers.
pub const RESULT: usize = CELLS + 1;

/// Where a read gets its value.
#[derive(Clone, Copy, Debug, PartialEq, Eq)]
pub enum Origin {
    Memory,
    /// The own waiting write at this position, counted from the oldest, from 0.
    Waiting(usize),
}

#[derive(Clone, Debug)]
pub struct Run<'t> {
    table: &'t Table,
    steps: Vec<Record>,
}

impl<'t> Run<'t> {
    pub fn new(table: &'t Table) -> Run<'t> {
        let steps = Vec::new();
        Run { table, steps }
    }

    /// The history.
    pub fn steps(&self) -> &[Record] {
        &self.steps
    }

    /// The history grows; no test.
    pub fn take(&mut self, step: Record) {
        self.steps.push(step);
    }

    /// The last step is taken back.
    pub fn undo(&mut self) {
        self.steps.pop();
    }

    /// Why a record that passes 9 and 10 is turned down: order 1's tests, in their order, of which
    /// a step is put to those that its rule has. None for a step that is allowed.
    pub fn why_not(&self, step: Record) -> Option<u64> {
        let processor = step.processor;
        let (next, oldest) = (self.next(processor), self.oldest(processor));
        let another_kind = next.map_or(true, |next| next.kind != step.kind);
        let right = [next, oldest].contains(&Some(step));
        let tests = [
            (reply::ANOTHER_KIND_IS_NEXT, another_kind),
            (reply::NOTHING_WAITS, oldest.is_none()),
            (reply::LOCK_HELD, self.blocked(processor)),
            (reply::BUFFER_NOT_EMPTY, oldest.is_some()),
            (reply::NOT_THE_RIGHT_ONE, !right),
        ];
        let own = Step::of(step.kind).map_or(&[][..], Step::tests);
        let failed = |&(number, fails)| (fails && own.contains(&number)).then_some(number);
        tests.iter().find_map(failed)
    }

    pub fn allowed(&self, step: Record) -> bool {
        self.why_not(step).is_none()
    }

    /// Every step allowed now: processors in order, drain first.
    pub fn moves(&self) -> Vec<Record> {
        processors()
            .flat_map(|processor| [self.oldest(processor), self.next(processor)])
            .flatten()
            .filter(|&step| self.allowed(step))
            .collect()
    }

    /// k: program steps left, plus writes not yet issued, plus writes waiting.
    pub fn left(&self) -> usize {
        let of_one = |processor| {
            let ahead = self.ahead(processor);
            let not_issued = ahead.iter().filter(|(_, step)| *step == Step::Write);
            ahead.len() + not_issued.count() + self.waiting_writes(processor).count()
        };
        processors().map(of_one).sum()
    }

    pub fn finished(&self) -> bool {
        self.left() == 0
    }

    /// The step that "Finishing a run" takes now; none when finished.
    pub fn finishing_step(&self) -> Option<Record> {
        let turn = |processor| self.oldest(processor).or_else(|| self.next(processor));
        match self.holder() {
            Some(holder) => turn(holder),
            None => processors().find_map(turn),
        }
    }

    /// The processor's waiting writes, as location and value, oldest first.
    pub fn waiting(&self, processor: u8) -> Vec<(u8, u32)> {
        self.waiting_writes(processor)
            .map(|write| (write.location, write.value))
            .collect()
    }

    /// What memory holds: the last drain to the location, or the initial value.
    pub fn memory(&self, location: u8) -> u32 {
        let to_it = |step: &&Record| Step::Drain.is(step) && step.location == location;
        match self.steps.iter().rev().find(to_it) {
            Some(drain) => drain.value,
            None => self.table.memory[usize::from(location)],
        }
    }

    /// Who holds the lock: the last lock or unlock decides.
    pub fn holder(&self) -> Option<u8> {
        let either = |step: &&Record| Step::Lock.is(step) || Step::Unlock.is(step);
        let last = self.steps.iter().rev().find(either)?;
        if Step::Lock.is(last) {
            Some(last.processor)
        } else {
            None
        }
    }

    /// Another processor holds the lock.
    pub fn blocked(&self, processor: u8) -> bool {
        self.holder().map_or(false, |holder| holder != processor)
    }

    /// Registers, processor by processor, then memory.
    pub fn cells(&self) -> [u32; CELLS] {
        let registers = processors().flat_map(|processor| self.registers(processor).0);
        let memory = (0..LOCATIONS as u8).map(|location| self.memory(location));
        let mut cells = [0; CELLS];
        for (cell, value) in cells.iter_mut().zip(registers.chain(memory)) {
            *cell = value;
        }
        cells
    }

    /// The words of a result.
    pub fn result(&self) -> [u32; RESULT] {
        let mut result = [0; RESULT];
        result[..CELLS].copy_from_slice(&self.cells());
        result[CELLS] = self.own_reads();
        result
    }

    /// How many reads of the history were served from own buffers.
    fn own_reads(&self) -> u32 {
        let own = |origin: &Option<Origin>| matches!(origin, Some(Origin::Waiting(_)));
        self.origins().into_iter().filter(own).count() as u32
    }

    /// Where each read of the history got its value, by the steps before it; none for a step of
    /// another kind.
    pub fn origins(&self) -> Vec<Option<Origin>> {
        let origin = |(place, step): (usize, &Record)| {
            let origin = || self.before(place).origin(step.processor, step.location);
            Step::Read.is(step).then(origin)
        };
        self.steps.iter().enumerate().map(origin).collect()
    }

    /// The run before a step of its history.
    fn before(&self, place: usize) -> Run<'t> {
        let steps = self.steps[..place].to_vec();
        Run { steps, ..*self }
    }

    /// The processor's write steps, without as many of the oldest as it has drains.
    fn waiting_writes(&self, processor: u8) -> impl Iterator<Item = &Record> {
        let own = move |kind: Step| {
            let of_kind = move |step: &&Record| kind.is(step) && step.processor == processor;
            self.steps.iter().filter(of_kind)
        };
        let drained = own(Step::Drain).count();
        own(Step::Write).skip(drained)
    }

    /// The drain that the processor's oldest waiting write asks for.
    pub fn oldest(&self, processor: u8) -> Option<Record> {
        let write = self.waiting_writes(processor).next()?;
        Some(Step::Drain.by(processor, write.location, write.value))
    }

    /// The processor's own program steps in the history.
    fn done(&self, processor: u8) -> impl Iterator<Item = &Record> {
        let own = move |step: &&Record| step.processor == processor && !Step::Drain.is(step);
        self.steps.iter().filter(own)
    }

    /// The processor's whole program as program steps, each with its instruction.
    fn program(&self, processor: u8) -> &'t [(Record, Step)] {
        let program = self.table.programs.get(usize::from(processor));
        program.map_or(&[], Vec::as_slice)
    }

    /// The program steps that are left, each with its instruction.
    pub fn ahead(&self, processor: u8) -> &'t [(Record, Step)] {
        let done = self.done(processor).count();
        self.program(processor).get(done..).unwrap_or(&[])
    }

    /// The processor's next program step, with the value that it must have.
    pub fn next(&self, processor: u8) -> Option<Record> {
        let &(instruction, step) = self.ahead(processor).first()?;
        let (location, value) = match step {
            Step::Read => (
                instruction.location,
                self.seen(processor, instruction.location),
            ),
            Step::Write => (instruction.location, self.issued(processor, instruction)),
            _ => (0, 0),
        };
        Some(step.by(processor, location, value))
    }

    /// What a read sees.
    fn seen(&self, processor: u8, location: u8) -> u32 {
        match self.origin(processor, location) {
            Origin::Memory => self.memory(location),
            Origin::Waiting(position) => self.waiting(processor)[position].1,
        }
    }

    /// Where a read gets its value: from the newest own waiting write to the location, or memory.
    pub fn origin(&self, processor: u8, location: u8) -> Origin {
        let to_it = |(_, write): &(usize, &Record)| write.location == location;
        let waiting = self.waiting_writes(processor).enumerate();
        match waiting.filter(to_it).last() {
            Some((position, _)) => Origin::Waiting(position),
            None => Origin::Memory,
        }
    }

    /// The value that the instruction's write issues now.
    fn issued(&self, processor: u8, instruction: Record) -> u32 {
        let (registers, kept) = self.registers(processor);
        let register = registers[usize::from(instruction.register)];
        match instruction.kind {
            kinds::STORE_CONSTANT => instruction.value,
            kinds::EXCHANGE_AND_ADD | kinds::LOCKED_EXCHANGE_AND_ADD => kept.wrapping_add(register),
            _ => register,
        }
    }

    /// The processor's registers, and the value that its last exchange's read kept aside.
    fn registers(&self, processor: u8) -> ([u32; REGISTERS], u32) {
        let mut registers = self.table.registers[usize::from(processor)];
        let mut kept = 0;
        for (done, &(instruction, step)) in self.done(processor).zip(self.program(processor)) {
            let register = &mut registers[usize::from(instruction.register)];
            match (step, instruction.kind) {
                (Step::Read, kinds::LOAD) => *register = done.value,
                (Step::Read, _) => kept = done.value,
                (Step::Write, kinds::STORE_CONSTANT | kinds::STORE_REGISTER) => {}
                (Step::Write, _) => *register = kept,
                (Step::Local, _) => *register = instruction.value,
                _ => {}
            }
        }
        (registers, kept)
    }
}
