//! Steps of each table: on its happy path and refused, numbers used again, what is kept, and the limits. A step whose allocation fails changes
//! nothing, and is taken again: `rt try --test --fail-alloc N` has the Nth fail.

use TableFault::{Full, OutOfMemory, Taken, TooMany, Unknown};
use cp_tables::{
    Answers, Counted, Embargoes, Exchange, Exports, Imports, Questions, Stage, TableFault,
};
use std::process::Abort;

/// What is done with an entry. No table has all of these.
#[derive(Clone, Copy)]
enum Step {
    Open,
    Raise,
    Lower(u32),
    Return,
    Finish,
    Close,
    /// Puts something else beside it.
    Put,
    /// Opens entries up to the limit, of which every number is a multiple of this one.
    Fill(u32),
}

use Step::{Close, Fill, Finish, Lower, Open, Put, Raise, Return};

/// The stage or the count that an entry is at, and what is kept with it.
type Left = Option<(u32, u8)>;

/// A step, the number of its entry, what it answers, and what is left then.
type Row = (Step, u32, Result<u32, TableFault>, Left);

const LAST: u32 = 65_535;

/// What is kept with a new entry.
const KEPT: u8 = b'a';

const OPEN: Left = Some((0, KEPT));

const RETURNED: Left = Some((1, KEPT));

const FINISHED: Left = Some((2, KEPT));

/// What is left of an entry that was raised once, twice, three times.
const ONCE: Left = Some((1, KEPT));

const TWICE: Left = Some((2, KEPT));

const THRICE: Left = Some((3, KEPT));

/// A table of any kind.
trait Table {
    /// Takes a step with this entry, where it is given a number, and answers its number.
    fn take(&mut self, step: Step, id: u32) -> Result<u32, TableFault>;

    fn left(&self, id: u32) -> Left;

    fn count(&self) -> usize;
}

/// Takes a step, which answers this. Where an allocation fails, nothing has changed.
fn go<T: Table>(
    rt: &impl Abort,
    table: &mut T,
    step: Step,
    id: u32,
    want: Result<u32, TableFault>,
) {
    let count = table.count();
    let mut got = table.take(step, id);
    if got == Err(OutOfMemory) {
        check!(rt; table.count() == count);
        got = table.take(step, id);
    }
    check!(rt; got == want);
}

/// Opens entries up to the limit.
fn fill<T: Table>(rt: &impl Abort, table: &mut T, times: u32) {
    for entry in 0..=LAST {
        let id = entry.wrapping_mul(times);
        go(rt, table, Open, id, Ok(id));
    }
}

/// Takes each step, and then the table has so many entries.
fn play<T: Table>(rt: &impl Abort, table: &mut T, rows: &[Row], count: usize) {
    for (step, id, want, left) in rows {
        match step {
            Fill(times) => fill(rt, table, *times),
            step => go(rt, table, *step, *id, *want),
        }
        check!(rt; table.left(*id) == *left);
    }
    check!(rt; table.count() == count);
}

/// Puts something else beside an entry.
fn put(kept: Option<&mut u8>, id: u32) -> Result<u32, TableFault> {
    match kept {
        Some(kept) => {
            *kept = b'b';
            Ok(id)
        }
        None => Err(Unknown),
    }
}

fn left_of(exchange: Option<&Exchange<u8>>) -> Left {
    let exchange = exchange?;
    let stage = match exchange.stage {
        Stage::Open => 0,
        Stage::Returned => 1,
        Stage::Finished => 2,
    };
    Some((stage, exchange.kept))
}

fn left_of_counted(counted: Option<&Counted<u8>>) -> Left {
    counted.map(|counted| (counted.count, counted.kept))
}

impl Table for Questions<u8> {
    fn take(&mut self, step: Step, id: u32) -> Result<u32, TableFault> {
        match step {
            Return => self.note_return(id).and(Ok(id)),
            Finish => self.note_finish(id).and(Ok(id)),
            Close => {
                self.close(id);
                Ok(id)
            }
            Put => put(self.kept_mut(id), id),
            _ => self.open(KEPT),
        }
    }

    fn left(&self, id: u32) -> Left {
        left_of(self.get(id))
    }

    fn count(&self) -> usize {
        self.len()
    }
}

/// Steps of questions.
const QUESTIONS: &[Row] = &[
    (Open, 0, Ok(0), OPEN),
    (Open, 1, Ok(1), OPEN),
    (Return, 2, Err(Unknown), None),
    (Finish, 2, Err(Unknown), None),
    (Return, 1, Ok(1), RETURNED),
    (Return, 1, Err(Taken), RETURNED),
    (Open, 2, Ok(2), OPEN),
    (Finish, 1, Ok(1), None),
    (Finish, 0, Ok(0), FINISHED),
    (Finish, 0, Err(Taken), FINISHED),
    (Return, 0, Ok(0), None),
    (Return, 0, Err(Unknown), None),
    (Open, 0, Ok(0), OPEN),
    (Open, 1, Ok(1), OPEN),
    (Open, 3, Ok(3), OPEN),
    (Close, 4, Ok(4), None),
    (Close, 3, Ok(3), None),
    (Put, 1, Ok(1), Some((0, b'b'))),
    (Put, 3, Err(Unknown), None),
];

#[test]
fn questions(rt: HostRuntime) {
    let mut questions = Questions::new(rt.alloc());
    play(&rt, &mut questions, QUESTIONS, 3);
    drop(questions);
}

/// Steps of questions at their limit.
const ALL_QUESTIONS: &[Row] = &[
    (Fill(1), LAST, Ok(LAST), OPEN),
    (Open, 65_536, Err(Full), None),
    (Return, 77, Ok(77), RETURNED),
    (Open, 65_536, Err(Full), None),
    (Finish, 77, Ok(77), None),
    (Open, 77, Ok(77), OPEN),
];

#[test]
fn questions_end_at_their_limit(rt: HostRuntime) {
    let mut questions = Questions::new(rt.alloc());
    play(&rt, &mut questions, ALL_QUESTIONS, 65_536);
    drop(questions);
}

impl Table for Answers<u8> {
    fn take(&mut self, step: Step, id: u32) -> Result<u32, TableFault> {
        match step {
            Return => self.note_return(id).and(Ok(id)),
            Finish => self.note_finish(id).and(Ok(id)),
            Close => {
                self.close(id);
                Ok(id)
            }
            Put => put(self.kept_mut(id), id),
            _ => self.open(id, KEPT).and(Ok(id)),
        }
    }

    fn left(&self, id: u32) -> Left {
        left_of(self.get(id))
    }

    fn count(&self) -> usize {
        self.len()
    }
}

/// Steps of answers.
const ANSWERS: &[Row] = &[
    (Open, u32::MAX, Ok(u32::MAX), OPEN),
    (Open, 5, Ok(5), OPEN),
    (Open, 5, Err(Taken), OPEN),
    (Return, 4, Err(Unknown), None),
    (Finish, 4, Err(Unknown), None),
    (Return, 5, Ok(5), RETURNED),
    (Return, 5, Err(Taken), RETURNED),
    (Open, 5, Err(Taken), RETURNED),
    (Finish, 5, Ok(5), None),
    (Finish, u32::MAX, Ok(u32::MAX), FINISHED),
    (Finish, u32::MAX, Err(Taken), FINISHED),
    (Return, u32::MAX, Ok(u32::MAX), None),
    (Return, u32::MAX, Err(Unknown), None),
    (Open, 5, Ok(5), OPEN),
    (Put, 5, Ok(5), Some((0, b'b'))),
    (Put, 4, Err(Unknown), None),
    (Close, 4, Ok(4), None),
    (Close, 5, Ok(5), None),
];

#[test]
fn answers(rt: HostRuntime) {
    let mut answers = Answers::new(rt.alloc());
    play(&rt, &mut answers, ANSWERS, 0);
    check!(&rt; answers.is_empty());
    drop(answers);
}

/// Steps of answers at their limit.
const ALL_ANSWERS: &[Row] = &[
    (Fill(3), 3 * LAST, Ok(3 * LAST), OPEN),
    (Open, 1, Err(Full), None),
    (Open, 3, Err(Taken), OPEN),
    (Finish, 3, Ok(3), FINISHED),
    (Open, 1, Err(Full), None),
    (Return, 3, Ok(3), None),
    (Open, 1, Ok(1), OPEN),
];

#[test]
fn answers_end_at_their_limit(rt: HostRuntime) {
    let mut answers = Answers::new(rt.alloc());
    play(&rt, &mut answers, ALL_ANSWERS, 65_536);
    drop(answers);
}

impl Table for Exports<u8> {
    fn take(&mut self, step: Step, id: u32) -> Result<u32, TableFault> {
        match step {
            Raise => self.raise(Some(id), b'x'),
            Lower(n) => self.lower(id, n).and(Ok(id)),
            Put => put(self.kept_mut(id), id),
            _ => self.raise(None, KEPT),
        }
    }

    fn left(&self, id: u32) -> Left {
        left_of_counted(self.get(id))
    }

    fn count(&self) -> usize {
        self.len()
    }
}

/// Steps of exports. What is kept is what came with the first.
const EXPORTS: &[Row] = &[
    (Raise, 0, Err(Unknown), None),
    (Open, 0, Ok(0), ONCE),
    (Open, 1, Ok(1), ONCE),
    (Raise, 0, Ok(0), TWICE),
    (Raise, 0, Ok(0), THRICE),
    (Lower(4), 0, Err(TooMany), THRICE),
    (Lower(0), 0, Ok(0), THRICE),
    (Lower(2), 0, Ok(0), ONCE),
    (Open, 2, Ok(2), ONCE),
    (Lower(1), 0, Ok(0), None),
    (Lower(0), 0, Err(Unknown), None),
    (Raise, 0, Err(Unknown), None),
    (Open, 0, Ok(0), ONCE),
    (Open, 3, Ok(3), ONCE),
    (Put, 3, Ok(3), Some((1, b'b'))),
    (Put, 4, Err(Unknown), None),
];

#[test]
fn exports(rt: HostRuntime) {
    let mut exports = Exports::new(rt.alloc());
    play(&rt, &mut exports, EXPORTS, 4);
    drop(exports);
}

/// Steps of exports at their limit.
const ALL_EXPORTS: &[Row] = &[
    (Fill(1), LAST, Ok(LAST), ONCE),
    (Open, 65_536, Err(Full), None),
    (Raise, LAST, Ok(LAST), TWICE),
    (Lower(2), LAST, Ok(LAST), None),
    (Open, LAST, Ok(LAST), ONCE),
];

#[test]
fn exports_end_at_their_limit(rt: HostRuntime) {
    let mut exports = Exports::new(rt.alloc());
    play(&rt, &mut exports, ALL_EXPORTS, 65_536);
    drop(exports);
}

impl Table for Imports<u8> {
    fn take(&mut self, step: Step, id: u32) -> Result<u32, TableFault> {
        match step {
            Raise => self.raise(id, b'x').and(Ok(id)),
            Lower(n) => self.lower(id, n).and(Ok(id)),
            Put => put(self.kept_mut(id), id),
            _ => self.raise(id, KEPT).and(Ok(id)),
        }
    }

    fn left(&self, id: u32) -> Left {
        left_of_counted(self.get(id))
    }

    fn count(&self) -> usize {
        self.len()
    }
}

/// Steps of imports. What is kept is what came with the first.
const IMPORTS: &[Row] = &[
    (Lower(1), 9, Err(Unknown), None),
    (Open, 9, Ok(9), ONCE),
    (Raise, 9, Ok(9), TWICE),
    (Open, u32::MAX, Ok(u32::MAX), ONCE),
    (Lower(3), 9, Err(TooMany), TWICE),
    (Lower(0), 9, Ok(9), TWICE),
    (Lower(2), 9, Ok(9), None),
    (Lower(0), 9, Err(Unknown), None),
    (Open, 9, Ok(9), ONCE),
    (Put, 9, Ok(9), Some((1, b'b'))),
    (Put, 1, Err(Unknown), None),
];

#[test]
fn imports(rt: HostRuntime) {
    let mut imports = Imports::new(rt.alloc());
    play(&rt, &mut imports, IMPORTS, 2);
    drop(imports);
}

/// Steps of imports at their limit.
const ALL_IMPORTS: &[Row] = &[
    (Fill(3), 3 * LAST, Ok(3 * LAST), ONCE),
    (Open, 1, Err(Full), None),
    (Raise, 3, Ok(3), TWICE),
    (Lower(2), 3, Ok(3), None),
    (Open, 1, Ok(1), ONCE),
];

#[test]
fn imports_end_at_their_limit(rt: HostRuntime) {
    let mut imports = Imports::new(rt.alloc());
    play(&rt, &mut imports, ALL_IMPORTS, 65_536);
    drop(imports);
}

#[test]
fn import_numbers_rise(rt: HostRuntime) {
    let mut imports = Imports::new(rt.alloc());
    for id in &[7, u32::MAX, 0, 7, 3] {
        imports.raise(*id, KEPT).expect(&rt, "an entry");
    }
    let ids = imports.ids().copied().collect::<Vec<u32>>(rt.alloc());
    let ids = ids.expect(&rt, "memory");
    drop(imports);
    check!(&rt; ids.as_slice() == [0, 3, 7, u32::MAX].as_slice());
    drop(ids);
}

impl Table for Embargoes<u8> {
    /// Closing an entry answers what was kept with it.
    fn take(&mut self, step: Step, id: u32) -> Result<u32, TableFault> {
        match step {
            Close => self.close(id).map(|kept| kept as u32),
            Put => put(self.kept_mut(id), id),
            _ => self.open(KEPT),
        }
    }

    fn left(&self, id: u32) -> Left {
        self.get(id).map(|kept| (0, *kept))
    }

    fn count(&self) -> usize {
        self.len()
    }
}

/// Steps of embargoes.
const EMBARGOES: &[Row] = &[
    (Close, 0, Err(Unknown), None),
    (Open, 0, Ok(0), OPEN),
    (Open, 1, Ok(1), OPEN),
    (Open, 2, Ok(2), OPEN),
    (Put, 1, Ok(1), Some((0, b'b'))),
    (Put, 3, Err(Unknown), None),
    (Close, 1, Ok(98), None),
    (Close, 1, Err(Unknown), None),
    (Open, 1, Ok(1), OPEN),
];

#[test]
fn embargoes(rt: HostRuntime) {
    let mut embargoes = Embargoes::new(rt.alloc());
    play(&rt, &mut embargoes, EMBARGOES, 3);
    drop(embargoes);
}

/// Steps of embargoes at their limit.
const ALL_EMBARGOES: &[Row] = &[
    (Fill(1), LAST, Ok(LAST), OPEN),
    (Open, 65_536, Err(Full), None),
    (Close, 0, Ok(97), None),
    (Open, 0, Ok(0), OPEN),
];

#[test]
fn embargoes_end_at_their_limit(rt: HostRuntime) {
    let mut embargoes = Embargoes::new(rt.alloc());
    play(&rt, &mut embargoes, ALL_EMBARGOES, 65_536);
    drop(embargoes);
}
