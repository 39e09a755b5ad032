//! Handed: the states handed in at random of docs/RANDOM.md, each with one event, and what comes back.
//! First what document 01 says of places, then a trial's state, damage, event and answer, then the lines printed.
//! How near the states come to each test of soundness is counted in edges.rs.

use crate::cell::{Cell, CELLS, PRIVATE_CELLS, ROW_CELLS, STATE_CELLS};
use crate::lock::*;
use crate::random::{self, Random};
use std::panic::catch_unwind;

/// How many states are handed in.
pub const TRIALS: u64 = 78_000;
/// The first of those that are of the old edition. Before it the edition is drawn among the others.
const FIRST_OLD: u64 = 60_000;
/// How many of them share a printed line.
const BLOCK: u64 = 600;

/// Near its limit the edition, locked or the place is any number below these.
const EDITIONS_TRIED: u8 = 5;
const LOCKED_TRIED: u8 = 5;
const PLACES_TRIED: u8 = 32;
/// What a place needs is taken away at these places, and at those beside them that do not need it.
const FIRST_WITHOUT_PRED: u8 = SWAP;
const LAST_WITHOUT_PRED: u8 = SPIN;
const FIRST_WITHOUT_SUCC: u8 = AWAIT;
const LAST_WITHOUT_SUCC: u8 = LOST;
const FIRST_WITHOUT_NX: u8 = PEEK;
const LAST_WITHOUT_NX: u8 = LIFT;

/// In the place of a refusal when the event fails in the middle, as it can on a state that should have been refused.
const FAILED: u8 = 255;

/// The places of each edition, in rising order. Document 01's lists stand here and in `needs` apart from sound.rs:
/// a fault there must not change the states that are to show it.
const PLACES_OF: [&[u8]; EDITIONS.len()] = [
    &[0, 2, 3, 4, 5, 7, 9, 14, 15, 16, 17],
    &[0, 2, 3, 4, 5, 6, 7, 8, 9, 10, 11, 12, 13, 14, 15, 16, 17, 19, 20, 21, 27, 28],
    &[0, 1, 2, 3, 4, 5, 6, 7, 8, 9, 10, 11, 12, 13, 14, 15, 16, 17, 18, 19, 20, 21, 22],
    &[0, 9, 23, 24, 25, 26],
];

/// Whether an edition in range has a place.
pub fn edition_has(edition: u8, place: u8) -> bool {
    PLACES_OF[edition as usize].contains(&place)
}

/// Whether a place needs a processor in a private cell.
pub fn needs(place: u8, cell: Cell) -> bool {
    match cell {
        Cell::Pred => matches!(place, ARM..=CLAIM),
        Cell::Succ => matches!(place, HAND..=LIFT | REREAD),
        Cell::Nx => place == TAKE,
        _ => false,
    }
}

/// A state, sound or not, and the event handed in with it.
pub struct Trial {
    pub lock: Lock,
    pub event: u8,
    pub processor: u8,
}

/// A draw for one byte, `k` from 1 to 256.
fn draw(random: &mut Random, k: u16) -> u8 {
    random.draw(k as u64) as u8
}

/// A draw below a limit that is itself a byte.
fn below(random: &mut Random, limit: u8) -> u8 {
    draw(random, limit as u16)
}

/// A draw from `first` to `last`.
fn between(random: &mut Random, first: u8, last: u8) -> u8 {
    first + below(random, last - first + 1)
}

/// The (draw M)-th of a list of M.
fn pick<T: Copy>(random: &mut Random, list: &[T]) -> T {
    list[random.draw(list.len() as u64) as usize]
}

/// A `ref`: a processor below N, or none.
fn reference(random: &mut Random, n: u8) -> u8 {
    let v = below(random, n + 1);
    if v == n {
        NONE
    } else {
        v
    }
}

/// A `ref`, and when that is none where a processor is needed, a processor drawn anew.
fn private(random: &mut Random, n: u8, needed: bool) -> u8 {
    let v = reference(random, n);
    if v == NONE && needed {
        below(random, n)
    } else {
        v
    }
}

/// The sound state of trial t.
fn sound_state(random: &mut Random, t: u64) -> Lock {
    let edition = if t < FIRST_OLD { draw(random, 3) } else { OLD };
    let n = 1 + below(random, MOST);
    let tail = reference(random, n);
    let mut lock = Lock { edition, n, tail, rows: [FRESH_ROW; MOST as usize] };
    for row in lock.rows[..n as usize].iter_mut() {
        row.next = reference(random, n);
        row.locked = below(random, R_P + 1);
        row.guard = draw(random, 2) == 1;
        row.flag = draw(random, 2) == 1;
        row.place = pick(random, PLACES_OF[edition as usize]);
        row.pred = private(random, n, needs(row.place, Cell::Pred));
        row.succ = private(random, n, needs(row.place, Cell::Succ));
        row.nx = private(random, n, needs(row.place, Cell::Nx));
    }
    lock
}

/// The damage to a sound state.
fn damage(random: &mut Random, lock: &mut Lock) {
    match draw(random, 4) {
        0 | 1 => (),
        2 => {
            let cell = pick(random, CELLS);
            let v = draw(random, 256);
            let r = below(random, MOST);
            lock.put(cell, r, v);
        }
        _ => damage_near(random, lock),
    }
}

/// Damage near the edges of soundness.
fn damage_near(random: &mut Random, lock: &mut Lock) {
    let n = lock.n;
    let edge = draw(random, 8);
    let cell = match edge {
        0 => pick(random, STATE_CELLS),
        1 | 2 => pick(random, PRIVATE_CELLS),
        3 | 4 => Cell::Place,
        _ => pick(random, ROW_CELLS),
    };
    let in_use = edge <= 5;
    let r = match draw(random, 3) {
        0 if in_use => 0,
        0 => n % MOST,
        1 if in_use => n - 1,
        1 => MOST - 1,
        _ if in_use => below(random, n),
        _ => below(random, MOST),
    };
    if edge == 1 || edge == 2 {
        take_away(random, lock, cell, r);
    } else {
        put_near(random, lock, cell, r);
    }
}

/// Puts none where it is needed, or beside that.
fn take_away(random: &mut Random, lock: &mut Lock, cell: Cell, r: u8) {
    let k = match cell {
        Cell::Pred => between(random, FIRST_WITHOUT_PRED, LAST_WITHOUT_PRED),
        Cell::Succ => between(random, FIRST_WITHOUT_SUCC, LAST_WITHOUT_SUCC),
        _ => between(random, FIRST_WITHOUT_NX, LAST_WITHOUT_NX),
    };
    if edition_has(lock.edition, k) {
        lock.put(Cell::Place, r, k);
    }
    lock.put(cell, r, NONE);
}

/// Puts a value near those at which a test turns.
fn put_near(random: &mut Random, lock: &mut Lock, cell: Cell, r: u8) {
    let n = lock.n;
    let v = match cell {
        Cell::Locked => below(random, LOCKED_TRIED),
        Cell::Edition => below(random, EDITIONS_TRIED),
        Cell::Guard | Cell::Flag => 1,
        Cell::Place => below(random, PLACES_TRIED),
        Cell::Next | Cell::Pred | Cell::Succ | Cell::Nx | Cell::N | Cell::Tail | Cell::FreshN => {
            pick(random, &[0, 1, MOST, MOST + 1, NONE - 1, NONE, n - 1, n, n + 1])
        }
    };
    lock.put(cell, r, v);
}

/// Trial t. The draws stand in the order of the page.
pub fn trial(t: u64) -> Trial {
    let random = &mut Random { x: (t * 7919 + 29) % 2147483648 };
    let mut lock = sound_state(random, t);
    // The event keeps to this N, whatever the damage puts into the cell.
    let n = lock.n;
    damage(random, &mut lock);
    let event = match draw(random, 8) {
        0 => RAISE,
        1 => draw(random, 256),
        2 => draw(random, 4),
        _ => STEP,
    };
    let processor = match draw(random, 8) {
        0 => draw(random, 256),
        1 => n - 1 + draw(random, 3),
        _ => below(random, n),
    };
    Trial { lock, event, processor }
}

impl Trial {
    pub fn good_event(&self) -> bool {
        self.event == STEP || self.event == RAISE
    }

    pub fn good_processor(&self) -> bool {
        self.processor < self.lock.n
    }

    /// The refusal, or 0 for accepted, and the state that comes back.
    pub fn answer(&self) -> (u8, Lock) {
        let result = catch_unwind(|| {
            let mut lock = self.lock;
            let refusal = lock.event_handed(self.event, self.processor).err();
            (refusal.unwrap_or(0), lock)
        });
        result.unwrap_or((FAILED, self.lock))
    }
}

/// The lines of all blocks.
pub fn print() -> String {
    let mut text = String::new();
    for block in 0..TRIALS / BLOCK {
        let mut accepted = 0;
        let mut bytes = Vec::new();
        for t in block * BLOCK..(block + 1) * BLOCK {
            let (refusal, lock) = trial(t).answer();
            accepted += (refusal == 0) as u64;
            bytes.extend_from_slice(&[refusal, lock.edition, lock.n, lock.tail]);
            for row in &lock.rows {
                bytes.extend_from_slice(&row.cells());
            }
        }
        text += &format!("{} {} {}\n", block, accepted, random::digest(&bytes));
    }
    text
}
