//! Places: the states of docs/RANDOM.md with every place in every edition, in each row, and what is printed of their
//! answers. Which places an edition has is read off these alone; answers.rs holds them to the documents.

use crate::handed::Trial;
use crate::lock::*;
use crate::random;
use std::array::from_fn;
use std::ops::RangeInclusive;

/// The editions tried: those in range, and two that are not.
pub const EVERY_EDITION: RangeInclusive<u8> = 0..=5;
/// The places tried: all that a byte can hold.
pub const EVERY_PLACE: RangeInclusive<u8> = 0..=255;

/// What the rows of a state hold before one of them gets its place: no place lacks what it needs.
const ROW: Row = Row { pred: 0, succ: 0, nx: 0, ..FRESH_ROW };

/// An edition's refusals, 0 for accepted: place after place, and in each place row after row.
pub struct Tried([[u8; MOST as usize]; 256]);

impl Tried {
    pub fn of(edition: u8) -> Tried {
        Tried(from_fn(|place| from_fn(|row| trial(edition, place as u8, row).answer().0)))
    }

    /// Whether a place is answered so in all rows.
    pub fn all(&self, place: u8, refusal: u8) -> bool {
        self.0[place as usize] == [refusal; MOST as usize]
    }
}

/// The state with a place in one row, and a raise.
fn trial(edition: u8, place: u8, row: usize) -> Trial {
    let mut lock = Lock { edition, n: MOST, tail: NONE, rows: [ROW; MOST as usize] };
    lock.rows[row].place = place;
    Trial { lock, event: RAISE, processor: 0 }
}

/// The lines of all editions.
pub fn print() -> String {
    let mut text = String::new();
    for edition in EVERY_EDITION {
        let tried = Tried::of(edition);
        let refusals = tried.0.concat();
        let accepted = refusals.iter().filter(|&&refusal| refusal == 0).count();
        text += &format!("{} {} {}", edition, accepted, random::digest(&refusals));
        for place in EVERY_PLACE.filter(|&place| tried.all(place, 0)) {
            text += &format!(" {}", place);
        }
        text += "\n";
    }
    text
}
