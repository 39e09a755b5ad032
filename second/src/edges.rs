//! Edges: how often the states handed in come up to each single test of soundness, and of the event, from either side.
//! A test is alone where no other fails, and just met where it holds and stands at its edge.
//! The tests are document 01's sentence, said apart from sound.rs. The tables of the counts stand in turns.rs.

use crate::cell::{Cell, PRIVATE_CELLS, ROW_CELLS};
use crate::handed::{edition_has, needs, Trial};
use crate::lock::*;
use std::collections::HashMap;

/// The cells of a row that hold a processor or none.
const REF_CELLS: &[Cell] = &[Cell::Next, Cell::Pred, Cell::Succ, Cell::Nx];

/// A single test.
#[derive(Clone, Copy, PartialEq, Eq, Hash, Debug)]
pub enum Test {
    Edition,
    NotZero,
    AtMost,
    /// L, next, pred, succ or nx is none or below N.
    NoneOrBelow(Cell),
    Locked,
    Place,
    /// A place has what it needs in a private cell.
    Needs(u8, Cell),
    /// A place does not need a private cell, so none and a processor are both met, and it never fails.
    NeedsNot(u8, Cell),
    /// In a row from N on a cell is as fresh.
    Fresh(u8, Cell),
    Event,
    Processor,
}

/// Adds a test and the value it is asked of, once for each state.
fn note(list: &mut Vec<(Test, u8)>, test: Test, value: u8) {
    if !list.contains(&(test, value)) {
        list.push((test, value));
    }
}

/// The tests of soundness that a state fails, with the values that fail them. As in document 01 each is asked of all
/// sixteen rows, so "as fresh" is alone only where the value would do in a row in use.
fn failing(lock: &Lock) -> Vec<(Test, u8)> {
    let mut list = Vec::new();
    let mut ask = |holds: bool, test: Test, value: u8| {
        if !holds {
            note(&mut list, test, value);
        }
    };
    let n = lock.n;
    let none_or_below = |v: u8| v == NONE || v < n;
    // An edition out of range has no column in the table of places, so nothing is asked of its places.
    let in_range = lock.edition <= LAST_EDITION;
    ask(in_range, Test::Edition, lock.edition);
    ask(n != 0, Test::NotZero, n);
    ask(n <= MOST, Test::AtMost, n);
    ask(none_or_below(lock.tail), Test::NoneOrBelow(Cell::Tail), lock.tail);
    for (i, row) in (0..).zip(&lock.rows) {
        for &cell in REF_CELLS {
            ask(none_or_below(row.cell(cell)), Test::NoneOrBelow(cell), row.cell(cell));
        }
        ask(row.locked <= R_P, Test::Locked, row.locked);
        ask(!in_range || edition_has(lock.edition, row.place), Test::Place, row.place);
        for &cell in PRIVATE_CELLS {
            ask(!needs(row.place, cell) || row.cell(cell) != NONE, Test::Needs(row.place, cell), NONE);
        }
        for &cell in ROW_CELLS {
            ask(i < n || row.cell(cell) == FRESH_ROW.cell(cell), Test::Fresh(i, cell), row.cell(cell));
        }
    }
    list
}

/// The tests that a sound state meets, with the values of its rows in use. A need is noted where the row has the
/// private cells its place needs and no other, and "as fresh" where the last row in use is not so.
fn meeting(lock: &Lock) -> Vec<(Test, u8)> {
    let mut list = vec![(Test::Edition, lock.edition), (Test::NotZero, lock.n), (Test::AtMost, lock.n)];
    list.push((Test::NoneOrBelow(Cell::Tail), lock.tail));
    for row in &lock.rows[..lock.n as usize] {
        for &cell in REF_CELLS {
            note(&mut list, Test::NoneOrBelow(cell), row.cell(cell));
        }
        note(&mut list, Test::Locked, row.locked);
        note(&mut list, Test::Place, row.place);
        for &cell in PRIVATE_CELLS.iter().filter(|&&cell| !needs(row.place, cell)) {
            // Which processor it is does not matter.
            let value = if row.cell(cell) == NONE { NONE } else { 0 };
            note(&mut list, Test::NeedsNot(row.place, cell), value);
        }
        if PRIVATE_CELLS.iter().all(|&cell| needs(row.place, cell) == (row.cell(cell) != NONE)) {
            for &cell in PRIVATE_CELLS {
                note(&mut list, Test::Needs(row.place, cell), 0);
            }
        }
    }
    let last = lock.n - 1;
    let last_row = &lock.rows[last as usize];
    for &cell in ROW_CELLS.iter().filter(|&&cell| last_row.cell(cell) != FRESH_ROW.cell(cell)) {
        note(&mut list, Test::Fresh(last, cell), last_row.cell(cell));
    }
    list
}

/// A test with the value it was asked of, and the edition and N of the state.
#[derive(PartialEq, Eq, Hash)]
pub struct Asked {
    pub edition: u8,
    pub n: u8,
    pub test: Test,
    pub value: u8,
}

/// How many trials had each.
#[derive(Default)]
pub struct Census(HashMap<Asked, u64>);

impl Census {
    fn add(&mut self, lock: &Lock, test: Test, value: u8) {
        *self.0.entry(Asked { edition: lock.edition, n: lock.n, test, value }).or_insert(0) += 1;
    }

    pub fn count<F: Fn(&Asked) -> bool>(&self, wanted: F) -> u64 {
        self.0.iter().filter(|(asked, _)| wanted(asked)).map(|(_, count)| count).sum()
    }
}

/// The trials counted so far.
#[derive(Default)]
pub struct Edges {
    pub alone: Census,
    pub met: Census,
    /// States that fail more than one test.
    pub several: u64,
}

impl Edges {
    /// Counts a trial, and gives the refusal that document 01 wants for it, or 0.
    pub fn count(&mut self, trial: &Trial) -> u8 {
        let lock = &trial.lock;
        match failing(lock)[..] {
            [] => (),
            [(test, value)] => {
                self.alone.add(lock, test, value);
                return REFUSED_STATE;
            }
            _ => {
                self.several += 1;
                return REFUSED_STATE;
            }
        }
        for (test, value) in meeting(lock) {
            self.met.add(lock, test, value);
        }
        match (trial.good_event(), trial.good_processor()) {
            (true, true) => {
                self.met.add(lock, Test::Event, trial.event);
                self.met.add(lock, Test::Processor, trial.processor);
                0
            }
            (true, false) => {
                self.alone.add(lock, Test::Processor, trial.processor);
                REFUSED_PROCESSOR
            }
            (false, true) => {
                self.alone.add(lock, Test::Event, trial.event);
                REFUSED_EVENT
            }
            (false, false) => REFUSED_EVENT,
        }
    }
}
