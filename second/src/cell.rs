//! Cells: the cells of a state in the order of docs/RANDOM.md, each to be read or put by its name.

use crate::lock::*;
use Cell::*;

#[derive(Clone, Copy, PartialEq, Eq, Hash, Debug)]
pub enum Cell {
    Next,
    Locked,
    Guard,
    Flag,
    Place,
    Pred,
    Succ,
    Nx,
    Edition,
    N,
    Tail,
    /// N once more: when it is put, all else but the edition is made fresh, so that no other test depends on N.
    FreshN,
}

/// All cells, each once; a cell's number is its index.
pub const CELLS: &[Cell] = &[Next, Locked, Guard, Flag, Place, Pred, Succ, Nx, Edition, N, Tail];
/// Those that each row has.
pub const ROW_CELLS: &[Cell] = &[Next, Locked, Guard, Flag, Place, Pred, Succ, Nx];
pub const PRIVATE_CELLS: &[Cell] = &[Pred, Succ, Nx];
/// Those that a state has once, and N once more.
pub const STATE_CELLS: &[Cell] = &[Edition, N, Tail, FreshN];

impl Cell {
    /// Document 01's word.
    pub fn name(self) -> &'static str {
        const NAMES: [&str; 12] =
            ["next", "locked", "guard", "flag", "place", "pred", "succ", "nx", "edition", "N", "L", "N"];
        NAMES[self as usize]
    }
}

impl Row {
    /// A row's cells in order; guard and flag are 0 or 1.
    pub fn cells(&self) -> [u8; 8] {
        let marks = [self.guard as u8, self.flag as u8];
        [self.next, self.locked, marks[0], marks[1], self.place, self.pred, self.succ, self.nx]
    }

    pub fn cell(&self, cell: Cell) -> u8 {
        self.cells()[cell as usize]
    }
}

impl Lock {
    /// Makes a cell's value v, in row r if rows have it. Guard and flag are set if v is odd.
    pub fn put(&mut self, cell: Cell, r: u8, v: u8) {
        let row = &mut self.rows[r as usize];
        match cell {
            Next => row.next = v,
            Locked => row.locked = v,
            Guard => row.guard = v % 2 == 1,
            Flag => row.flag = v % 2 == 1,
            Place => row.place = v,
            Pred => row.pred = v,
            Succ => row.succ = v,
            Nx => row.nx = v,
            Edition => self.edition = v,
            N => self.n = v,
            Tail => self.tail = v,
            FreshN => *self = Lock { edition: self.edition, n: v, tail: NONE, rows: [FRESH_ROW; MOST as usize] },
        }
    }
}
