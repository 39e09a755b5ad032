//! Canon: a spot of watch.rs in 53 bits, and the same bits for all spots that differ only in the processors' numbers
//! or in cells that are no longer read.

use crate::lock::*;
use crate::sound::{needs_pred, needs_succ};
use crate::watch::Spot;

/// The most processors that fit.
pub const MOST_PACKED: u8 = 4;
const ROWS: usize = MOST_PACKED as usize;
/// None among numbers of processors.
const NO_ONE: u8 = MOST_PACKED;

/// The places that a processor has between two bundles. A place's code is its index.
const PLACES_BETWEEN: [u8; 16] =
    [REST, SWAP, ARM, LINK, CLAIM, SPIN, SETTLE, INSIDE, SERVICE, CLOSE, HAND, PARK, PEEK, TAKE, REREAD, LOST];
/// The widths of code, locked, later, next, and pred or succ in a row's bits. A place that has one of the last two
/// needs it, so it is never none there. No step reads an nx that an earlier one has written, so it is left out: what
/// peek has found is written over by a take that fails, and by the reread that follows one that succeeds.
const WIDTHS: [u32; 5] = [4, 2, 1, 3, 2];
const ROW_WIDTH: usize = 12;
const TAIL_AT: usize = ROW_WIDTH * ROWS;
const WATCH_AT: usize = TAIL_AT + 3;

/// The ways to give n processors other numbers.
pub struct Canon {
    n: u8,
    /// In each, the new number of each processor, and at last of no one.
    orders: Vec<[u8; ROWS + 1]>,
}

impl Canon {
    pub fn new(n: u8) -> Canon {
        let mut orders = Vec::new();
        for code in 0..=u8::MAX {
            let order = [code & 3, code >> 2 & 3, code >> 4 & 3, code >> 6, NO_ONE];
            let each_once = (0..NO_ONE).all(|number| order.contains(&number));
            // The rows from n on keep their numbers.
            if each_once && (n..NO_ONE).all(|p| order[p as usize] == p) {
                orders.push(order);
            }
        }
        Canon { n, orders }
    }

    /// A spot in bits: of all orders the one with the least bits. The watched one always becomes 0.
    pub fn pack(&self, spot: &Spot) -> u64 {
        let mut rows = [[0; WIDTHS.len()]; ROWS];
        for (p, row) in rows.iter_mut().enumerate().take(self.n as usize) {
            *row = row_values(spot, p);
        }
        let tail = number(spot.lock.tail) as usize;
        let watch = (spot.watched != NONE) as u64 + spot.passed as u64;
        let may = |order: &&[u8; ROWS + 1]| spot.watched == NONE || order[spot.watched as usize] == 0;
        let all = self.orders.iter().filter(may).map(|order| {
            let mut bits = watch << WATCH_AT | (order[tail] as u64) << TAIL_AT;
            for (p, row) in rows[..self.n as usize].iter().enumerate() {
                bits |= row_bits(row, order) << (ROW_WIDTH * order[p] as usize);
            }
            bits
        });
        all.min().expect("there is an order")
    }

    /// A spot with these bits.
    pub fn unpack(&self, bits: u64) -> Spot {
        let mut spot = Spot::fresh(self.n);
        for p in 0..self.n as usize {
            let [code, locked, later, next, other] = row_parts(bits >> (ROW_WIDTH * p));
            let row = &mut spot.lock.rows[p];
            row.place = PLACES_BETWEEN[code as usize];
            row.locked = locked;
            row.next = cell(next);
            if needs_pred(row.place) {
                row.pred = other;
            }
            if needs_succ(row.place) {
                row.succ = other;
            }
            spot.later[p] = later == 1;
        }
        spot.lock.tail = cell((bits >> TAIL_AT & 7) as u8);
        let watch = bits >> WATCH_AT;
        spot.watched = if watch > 0 { 0 } else { NONE };
        spot.passed = watch > 1;
        spot
    }
}

fn number(cell: u8) -> u8 {
    cell.min(NO_ONE)
}

fn cell(number: u8) -> u8 {
    if number == NO_ONE {
        NONE
    } else {
        number
    }
}

/// The values of a row in the order of WIDTHS, with no one for each cell that is no longer read.
fn row_values(spot: &Spot, p: usize) -> [u8; WIDTHS.len()] {
    let row = &spot.lock.rows[p];
    let code = PLACES_BETWEEN.iter().position(|&place| place == row.place).expect("a bundle ends at these places");
    let later = spot.later[p] && !spot.passed && may_enter(row);
    let next = if next_is_read(&spot.lock, p) { row.next } else { NONE };
    let other = match row.place {
        place if needs_pred(place) => row.pred,
        place if needs_succ(place) => row.succ,
        _ => NONE,
    };
    [code as u8, row.locked, later as u8, number(next), number(other)]
}

/// A row's bits with the new numbers. No one in a cell of two bits is cut to 0.
fn row_bits(values: &[u8; WIDTHS.len()], order: &[u8; ROWS + 1]) -> u64 {
    let [code, locked, later, next, other] = *values;
    let values = [code, locked, later, order[next as usize], order[other as usize] & 3];
    values.iter().zip(WIDTHS).fold(0, |bits, (&value, width)| bits << width | value as u64)
}

fn row_parts(mut bits: u64) -> [u8; WIDTHS.len()] {
    let mut parts = [0; WIDTHS.len()];
    for (part, width) in parts.iter_mut().zip(WIDTHS).rev() {
        *part = (bits & ((1 << width) - 1)) as u8;
        bits >>= width;
    }
    parts
}

/// Whether a processor is in an interrupt and has lost its place, so that it will join again.
fn has_lost(row: &Row) -> bool {
    row.place == SERVICE && row.locked != PREEMPTED && row.locked != R_P
}

/// Whether a processor may enter without joining again. Only then it matters whether its latest join is later.
fn may_enter(row: &Row) -> bool {
    matches!(row.place, ARM | LINK | CLAIM | SPIN | SETTLE | SERVICE) && !has_lost(row)
}

/// Whether p's next may be read before p clears it. At rest, with a succ, at lost, and where it has lost its place, p
/// itself will not read it. Another reads it at peek, and again at reread, where it comes from peek by take with p
/// still its succ. It comes to peek only when it finds p's locked 2. Only p's own poll makes it 2, and p comes there
/// only after it has cleared its next.
fn next_is_read(lock: &Lock, p: usize) -> bool {
    let row = &lock.rows[p];
    let not_by_itself = matches!(row.place, REST | LOST) || needs_succ(row.place) || has_lost(row);
    let may_read = |other: &Row| matches!(other.place, PEEK | TAKE | REREAD) && other.succ as usize == p;
    !not_by_itself || lock.rows.iter().any(may_read)
}
