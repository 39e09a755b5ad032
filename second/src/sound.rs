//! Soundness: the test of a state handed in, which places an edition has, and what a place needs.
//! What each single test catches is seen in the states of handed.rs, which for that reason asks nothing here.

use crate::lock::*;

impl Lock {
    /// Whether the state is sound.
    pub fn sound(&self) -> bool {
        let used = self.n as usize;
        self.edition <= LAST_EDITION
            && self.n >= 1
            && self.n <= MOST
            && self.none_or_processor(self.tail)
            && self.rows.iter().take(used).all(|row| self.row_sound(row))
            && self.rows.iter().skip(used).all(|row| *row == FRESH_ROW)
    }

    /// The same for one row in use.
    fn row_sound(&self, row: &Row) -> bool {
        self.none_or_processor(row.next)
            && row.locked <= R_P
            && has(self.edition, row.place)
            && self.none_or_processor(row.pred)
            && self.none_or_processor(row.succ)
            && self.none_or_processor(row.nx)
            && (!needs_pred(row.place) || row.pred != NONE)
            && (!needs_succ(row.place) || row.succ != NONE)
            && (!needs_nx(row.place) || row.nx != NONE)
    }

    fn none_or_processor(&self, cell: u8) -> bool {
        cell == NONE || cell < self.n
    }
}

/// Whether an edition has a place. The edition is in range.
fn has(edition: u8, place: u8) -> bool {
    let plain = matches!(place, 0 | 2 | 3 | 4 | 5 | 7 | 9 | 14 | 15 | 16 | 17);
    match edition {
        PLAIN => plain,
        DRAWN => plain || matches!(place, 6 | 8 | 10..=13 | 19 | 20 | 21 | 27 | 28),
        GUARDED => place <= LIFT,
        _ => matches!(place, 0 | 9 | 23..=26),
    }
}

pub fn needs_pred(place: u8) -> bool {
    (ARM..=CLAIM).contains(&place)
}

pub fn needs_succ(place: u8) -> bool {
    (HAND..=LIFT).contains(&place) || place == REREAD
}

fn needs_nx(place: u8) -> bool {
    place == TAKE
}
