//! Coverage: how often the random schedules take each side of each test in the step table, and each refusal.

use crate::bench;
use crate::lock::*;
use crate::random;

/// One side of one test, told from the state before and after a step of processor p.
pub struct Side {
    pub editions: &'static [u8],
    pub place: u8,
    pub words: &'static str,
    /// The drawn edition's choice in place of 22 is a second test in the same step.
    choice: bool,
    holds: fn(before: &Lock, after: &Lock, p: usize) -> bool,
}

const ALL: &[u8] = &[PLAIN, DRAWN, GUARDED, OLD];
const QUEUES: &[u8] = &[PLAIN, DRAWN, GUARDED];
const ONLY_PLAIN: &[u8] = &[PLAIN];
const ONLY_DRAWN: &[u8] = &[DRAWN];
const ONLY_GUARDED: &[u8] = &[GUARDED];
const ONLY_OLD: &[u8] = &[OLD];
const NOT_PLAIN: &[u8] = &[DRAWN, GUARDED];

type Holds = fn(&Lock, &Lock, usize) -> bool;

const fn side(editions: &'static [u8], place: u8, words: &'static str, holds: Holds) -> Side {
    Side { editions, place, words, choice: false, holds }
}

const fn choice(place: u8, words: &'static str, holds: Holds) -> Side {
    Side { editions: ONLY_DRAWN, place, words, choice: true, holds }
}

const NO_TEST: &str = "no test";
const CHOICE_NONE: &str = "in place of 22: nx none";
const CHOICE_OTHERWISE: &str = "in place of 22: otherwise";

/// Every place with its sides. A place without a test has one line.
pub const SIDES: &[Side] = &[
    side(ALL, REST, "flag set", |b, _, p| b.rows[p].flag),
    side(ALL, REST, "otherwise", |b, _, p| !b.rows[p].flag),
    side(ONLY_GUARDED, GATE, "own guard set", |b, _, p| b.rows[p].guard),
    side(ONLY_GUARDED, GATE, "otherwise", |b, _, p| !b.rows[p].guard),
    side(QUEUES, CLEAR, NO_TEST, |_, _, _| true),
    side(QUEUES, SWAP, "old L none", |b, _, _| b.tail == NONE),
    side(QUEUES, SWAP, "otherwise", |b, _, _| b.tail != NONE),
    side(QUEUES, ARM, NO_TEST, |_, _, _| true),
    side(QUEUES, LINK, NO_TEST, |_, _, _| true),
    side(NOT_PLAIN, CLAIM, "pred's locked 3", |b, _, p| pred(b, p).locked == R_P),
    side(NOT_PLAIN, CLAIM, "otherwise", |b, _, p| pred(b, p).locked != R_P),
    side(QUEUES, SPIN, "own locked 0", |b, _, p| b.rows[p].locked == RELEASED),
    side(QUEUES, SPIN, "otherwise", |b, _, p| b.rows[p].locked != RELEASED),
    side(NOT_PLAIN, SETTLE, NO_TEST, |_, _, _| true),
    side(ALL, INSIDE, NO_TEST, |_, _, _| true),
    side(NOT_PLAIN, POLL, "flag set, own locked 1", |b, _, p| b.rows[p].flag && b.rows[p].locked == LOCKED),
    side(NOT_PLAIN, POLL, "flag set, own locked not 1", |b, _, p| b.rows[p].flag && b.rows[p].locked != LOCKED),
    side(NOT_PLAIN, POLL, "flag clear", |b, _, p| !b.rows[p].flag),
    side(NOT_PLAIN, SERVICE, NO_TEST, |_, _, _| true),
    side(NOT_PLAIN, BACK, "own locked 2", |b, _, p| b.rows[p].locked == PREEMPTED),
    side(NOT_PLAIN, BACK, "otherwise", |b, _, p| b.rows[p].locked != PREEMPTED),
    side(NOT_PLAIN, REGAIN, "own locked 3", |b, _, p| b.rows[p].locked == R_P),
    side(NOT_PLAIN, REGAIN, "otherwise", |b, _, p| b.rows[p].locked != R_P),
    side(QUEUES, LOOK, "own next none", |b, _, p| b.rows[p].next == NONE),
    side(QUEUES, LOOK, "otherwise", |b, _, p| b.rows[p].next != NONE),
    side(QUEUES, CLOSE, "L is self", |b, _, p| b.tail as usize == p),
    side(QUEUES, CLOSE, "otherwise", |b, _, p| b.tail as usize != p),
    side(QUEUES, AWAIT, "own next none", |b, _, p| b.rows[p].next == NONE),
    side(QUEUES, AWAIT, "otherwise", |b, _, p| b.rows[p].next != NONE),
    side(ONLY_PLAIN, HAND, NO_TEST, |_, _, _| true),
    side(NOT_PLAIN, HAND, "succ's locked 1", |b, _, p| succ(b, p).locked == LOCKED),
    side(NOT_PLAIN, HAND, "otherwise", |b, _, p| succ(b, p).locked != LOCKED),
    side(ONLY_GUARDED, FENCE, NO_TEST, |_, _, _| true),
    side(NOT_PLAIN, PARK, "succ's locked 2", |b, _, p| succ(b, p).locked == PREEMPTED),
    side(NOT_PLAIN, PARK, "otherwise", |b, _, p| succ(b, p).locked != PREEMPTED),
    choice(PARK, CHOICE_NONE, |b, a, p| succ(b, p).locked != PREEMPTED && a.rows[p].nx == NONE),
    choice(PARK, CHOICE_OTHERWISE, |b, a, p| succ(b, p).locked != PREEMPTED && a.rows[p].nx != NONE),
    side(NOT_PLAIN, PEEK, "succ's next none", |b, _, p| succ(b, p).next == NONE),
    side(NOT_PLAIN, PEEK, "otherwise", |b, _, p| succ(b, p).next != NONE),
    choice(PEEK, CHOICE_NONE, |b, a, p| succ(b, p).next == NONE && a.rows[p].nx == NONE),
    choice(PEEK, CHOICE_OTHERWISE, |b, a, p| succ(b, p).next == NONE && a.rows[p].nx != NONE),
    side(NOT_PLAIN, TAKE, "succ's locked 3", |b, _, p| succ(b, p).locked == R_P),
    side(NOT_PLAIN, TAKE, "otherwise", |b, _, p| succ(b, p).locked != R_P),
    choice(TAKE, CHOICE_NONE, |b, a, p| succ(b, p).locked != R_P && a.rows[p].nx == NONE),
    choice(TAKE, CHOICE_OTHERWISE, |b, a, p| succ(b, p).locked != R_P && a.rows[p].nx != NONE),
    side(ONLY_GUARDED, LIFT, "nx none", |b, _, p| b.rows[p].nx == NONE),
    side(ONLY_GUARDED, LIFT, "otherwise", |b, _, p| b.rows[p].nx != NONE),
    side(ONLY_OLD, TRY, "L none", |b, _, _| b.tail == NONE),
    side(ONLY_OLD, TRY, "otherwise", |b, _, _| b.tail != NONE),
    side(ONLY_OLD, OLD_POLL, "flag set", |b, _, p| b.rows[p].flag),
    side(ONLY_OLD, OLD_POLL, "otherwise", |b, _, p| !b.rows[p].flag),
    side(ONLY_OLD, OLD_SERVICE, NO_TEST, |_, _, _| true),
    side(ONLY_OLD, FREE, NO_TEST, |_, _, _| true),
    side(ONLY_DRAWN, REREAD, "succ's next none", |b, _, p| succ(b, p).next == NONE),
    side(ONLY_DRAWN, REREAD, "otherwise", |b, _, p| succ(b, p).next != NONE),
    side(ONLY_DRAWN, LOST, NO_TEST, |_, _, _| true),
];

/// The sides that no run from fresh can take, with the reason.
/// `reachable` bears them out: it finds every other side, and never one of these.
const NOT_REACHABLE: [(u8, u8, &str, &str); 3] = [
    (DRAWN, PARK, CHOICE_NONE, "park comes to the choice with nx := succ, and a processor at park has a succ"),
    (DRAWN, PEEK, CHOICE_OTHERWISE, "peek comes to the choice only when nx is none; otherwise it goes to 21"),
    (DRAWN, TAKE, CHOICE_OTHERWISE, "take comes to the choice only with nx := none; otherwise it goes to 27"),
];

fn pred(lock: &Lock, p: usize) -> &Row {
    &lock.rows[lock.rows[p].pred as usize]
}

fn succ(lock: &Lock, p: usize) -> &Row {
    &lock.rows[lock.rows[p].succ as usize]
}

/// Where a raise is counted by its place too: "changes nothing" is said of a step at 28, not of a raise. These runs
/// come to 28 with the flag set only; the states handed in have both.
const RAISED_AT: [u8; 2] = [REREAD, LOST];

/// Why a side cannot be taken, if it cannot.
pub fn not_reachable(edition: u8, side: &Side) -> Option<&'static str> {
    let known = NOT_REACHABLE.iter().find(|k| k.0 == edition && k.1 == side.place && k.2 == side.words);
    known.map(|k| k.3)
}

/// How often each side was taken, by edition.
pub struct Counts {
    pub taken: [[u64; SIDES.len()]; EDITIONS.len()],
}

impl Counts {
    pub fn new() -> Counts {
        Counts { taken: [[0; SIDES.len()]; EDITIONS.len()] }
    }

    /// Counts one step of p. The sides of a test exclude each other and leave nothing out, so exactly one holds.
    pub fn step(&mut self, before: &Lock, after: &Lock, p: usize) {
        let edition = before.edition;
        let mut held = 0;
        for (i, side) in SIDES.iter().enumerate() {
            if side.place == before.rows[p].place && side.editions.contains(&edition) && (side.holds)(before, after, p)
            {
                self.taken[edition as usize][i] += 1;
                held += !side.choice as u32;
            }
        }
        assert_eq!(held, 1, "a step takes one side");
    }
}

/// The beginning of a side's line: edition, place, name and words.
pub fn label(edition: u8, side: &Side) -> String {
    format!("{:<8}{:>2} {:<8}{:<28}", EDITIONS[edition as usize], side.place, PLACES[side.place as usize], side.words)
}

/// The table, and whether every reachable side and every refusal from 1 to 9 is met.
pub fn print() -> (String, bool) {
    let mut counts = Counts::new();
    // A raise has no place; it is counted by whether the flag was clear or already set.
    let mut raises = [[0u64; 2]; EDITIONS.len()];
    let mut raises_at = [0u64; PLACES.len()];
    let mut refusals = [0u64; 10];
    let mut refusals_old = [0u64; 10];
    let mut refusals_lowered = [0u64; 10];
    for i in 0..random::SCHEDULES {
        let (_, refusal) = bench::follow(&random::schedule(i), |h| {
            let p = h.processor as usize;
            if h.event == STEP {
                counts.step(h.before, h.after, p);
            } else {
                raises[h.before.edition as usize][h.before.rows[p].flag as usize] += 1;
                raises_at[h.before.rows[p].place as usize] += 1;
            }
        });
        refusals[refusal as usize] += 1;
        refusals_old[refusal as usize] += (random::edition(i) == OLD) as u64;
        refusals_lowered[refusal as usize] += (i >= random::FIRST_LOWERED) as u64;
    }

    let mut text = String::new();
    let mut missed = Vec::new();
    let mut line = |label: String, count: u64, impossible: Option<&str>| match impossible {
        Some(reason) if count == 0 => text += &format!("{} not reachable: {}\n", label, reason),
        Some(_) => {
            text += &format!("{} {:>13}\n", label, count);
            missed.push(format!("taken, but listed as not reachable: {}", label));
        }
        None => {
            text += &format!("{} {:>13}\n", label, count);
            if count == 0 {
                missed.push(format!("never met: {}", label));
            }
        }
    };
    for edition in PLAIN..=LAST_EDITION {
        for (i, side) in SIDES.iter().enumerate() {
            if side.editions.contains(&edition) {
                line(label(edition, side), counts.taken[edition as usize][i], not_reachable(edition, side));
            }
        }
        for (set, words) in ["flag clear before", "flag set before"].iter().enumerate() {
            let label = format!("{:<8}   {:<8}{:<28}", EDITIONS[edition as usize], "raise", words);
            line(label, raises[edition as usize][set], None);
        }
        for place in RAISED_AT.into_iter().filter(|_| edition == DRAWN) {
            let label = format!("{:<8}   {:<8}at {:<25}", EDITIONS[edition as usize], "raise", PLACES[place as usize]);
            line(label, raises_at[place as usize], None);
        }
    }
    for refusal in 1..refusals.len() {
        line(format!("refusal {:<39}", refusal), refusals[refusal], None);
        line(format!("refusal {}{:<38}", refusal, ", of those made for old"), refusals_old[refusal], None);
        let lowered = ", of those in lower or mixed case";
        line(format!("refusal {}{:<38}", refusal, lowered), refusals_lowered[refusal], None);
    }

    text += &format!("schedules without a refusal: {} of {}\n", refusals[0], random::SCHEDULES);
    for words in &missed {
        text += &format!("{}\n", words.trim_end());
    }
    if missed.is_empty() {
        text += "every reachable side and every refusal from 1 to 9 is met\n";
    }
    (text, missed.is_empty())
}
