//! Reachable: every state that N processors can reach from fresh, and the sides of the step table taken on the way.

use crate::coverage::{self, Counts, SIDES};
use crate::lock::*;
use crate::sound::{needs_pred, needs_succ};
use std::collections::HashSet;

/// The most processors searched for: a state of three fits 57 bits, and four have too many states.
pub const MOST_SEARCHED: u8 = 3;

/// A state in few bits. Private cells that the place no longer uses are left out: no later act reads them
/// before it writes them, so states that differ only there go on alike. Take's nx is kept in drawn too, where no later
/// act reads it: without it the state would not be sound.
fn pack(lock: &Lock) -> u64 {
    let cell = |c: u8| if c == NONE { 7 } else { c as u64 };
    let mut bits = cell(lock.tail);
    for row in &lock.rows[..lock.n as usize] {
        let pred_or_succ = match row.place {
            place if needs_pred(place) => row.pred,
            place if needs_succ(place) => row.succ,
            _ => NONE,
        };
        let nx = if row.place == TAKE || row.place == LIFT { row.nx } else { NONE };
        for &(value, width) in &[
            (cell(row.next), 3),
            (row.locked as u64, 2),
            (row.guard as u64, 1),
            (row.flag as u64, 1),
            (row.place as u64, 5),
            (cell(pred_or_succ), 3),
            (cell(nx), 3),
        ] {
            bits = (bits << width) | value;
        }
    }
    bits
}

fn unpack(edition: u8, n: u8, mut bits: u64) -> Lock {
    let mut part = |width: u32| {
        let value = (bits & ((1 << width) - 1)) as u8;
        bits >>= width;
        value
    };
    let cell = |value: u8| if value == 7 { NONE } else { value };
    let mut lock = Lock { edition, n, tail: NONE, rows: [FRESH_ROW; MOST as usize] };
    for row in lock.rows[..n as usize].iter_mut().rev() {
        row.nx = cell(part(3));
        let pred_or_succ = cell(part(3));
        row.place = part(5);
        row.flag = part(1) == 1;
        row.guard = part(1) == 1;
        row.locked = part(2);
        row.next = cell(part(3));
        if needs_pred(row.place) {
            row.pred = pred_or_succ;
        }
        if needs_succ(row.place) {
            row.succ = pred_or_succ;
        }
    }
    lock.tail = cell(part(3));
    lock
}

/// What must not be in a state of one edition, in words and as a test.
type Rule = (&'static str, fn(&Lock) -> bool);

fn rule(edition: u8) -> Option<Rule> {
    match edition {
        DRAWN => Some(("one is at 28 and another at 9", lost_and_inside)),
        GUARDED => Some(("a second read of next, after a take, finds another", second_read_differs)),
        OLD => Some(("L is not who is at 9 or 26", misnames_holder)),
        _ => None,
    }
}

/// Whether one has lost the lock, and yet another has it.
fn lost_and_inside(lock: &Lock) -> bool {
    let is_any_at = |place: u8| lock.rows.iter().any(|row| row.place == place);
    is_any_at(LOST) && is_any_at(INSIDE)
}

/// Whether one that has taken the lock back, or whose next step does, would not find its nx if it read again. At lift
/// only such a one has an nx that is not its succ: a park that fails makes them the same.
fn second_read_differs(lock: &Lock) -> bool {
    lock.rows.iter().filter(|row| matches!(row.place, TAKE | LIFT)).any(|row| {
        let succ = &lock.rows[row.succ as usize];
        let takes = row.place == TAKE && succ.locked == R_P;
        let has_taken = row.place == LIFT && row.nx != NONE && row.nx != row.succ;
        (takes || has_taken) && succ.next != row.nx
    })
}

/// Whether L is not the one processor that is inside or at free, or not none where nobody is.
fn misnames_holder(lock: &Lock) -> bool {
    (0..).zip(&lock.rows).any(|(p, row)| matches!(row.place, INSIDE | FREE) != (lock.tail == p))
}

/// The findings of each edition, and whether all is as it should be: every state is sound, no two are inside together,
/// the edition's rule is kept, and the list of sides that are not reachable is borne out. Three processors must find
/// every other side. What three can do, more can do too.
pub fn print(n: u8) -> (String, bool) {
    let mut text = String::new();
    let mut good = true;
    let mut counts = Counts::new();
    for edition in PLAIN..=LAST_EDITION {
        let fresh = pack(&Lock { edition, n, tail: NONE, rows: [FRESH_ROW; MOST as usize] });
        let mut seen = HashSet::new();
        seen.insert(fresh);
        let mut to_do = vec![fresh];
        let mut unsound = 0u64;
        let mut inside = 0;
        let mut broken = 0u64;
        while let Some(bits) = to_do.pop() {
            let before = unpack(edition, n, bits);
            unsound += !before.sound() as u64;
            inside = inside.max(before.rows.iter().filter(|row| row.place == INSIDE).count());
            broken += rule(edition).map_or(false, |(_, breaks)| breaks(&before)) as u64;
            for p in 0..n {
                for event in [STEP, RAISE] {
                    let mut after = before;
                    after.event(event, p).expect("the event is in range");
                    if event == STEP {
                        counts.step(&before, &after, p as usize);
                    }
                    let bits = pack(&after);
                    if seen.insert(bits) {
                        to_do.push(bits);
                    }
                }
            }
        }
        text += &format!("{:<8}N {}: {} states, ", EDITIONS[edition as usize], n, seen.len());
        text += &format!("{} of them not sound, at most {} inside at once\n", unsound, inside);
        if let Some((words, _)) = rule(edition) {
            text += &format!("{:<8}{} in {} of them\n", EDITIONS[edition as usize], words, broken);
        }
        good = good && unsound == 0 && inside <= 1 && broken == 0;
        for (i, side) in SIDES.iter().enumerate().filter(|(_, side)| side.editions.contains(&edition)) {
            let found = counts.taken[edition as usize][i] > 0;
            let listed = coverage::not_reachable(edition, side).is_some();
            if !found {
                let words = if listed { "not reachable, as listed" } else { "not reached" };
                text += &format!("{} {}\n", coverage::label(edition, side), words);
            }
            good = good && if listed { !found } else { found || n < 3 };
        }
    }
    (text, good)
}
