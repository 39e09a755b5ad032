//! Watch: runs of the drawn edition in which one waiter is watched, told bundle by bundle.
//!
//! A bundle is a few events of one processor, with nothing between them. The search of shortest.rs has bundles only.
//! That keeps the least number of events: any schedule can be made into one of bundles that is not longer and has the
//! same joins, entries, taken interrupts and comings to lost in the same order.
//!
//! - A processor's flag is read at rest and at poll only, and only by itself. A raise whose flag is cleared at rest
//!   goes out together with that step, which stays at rest. A raise of a raised processor goes out, and so does one
//!   whose flag is never cleared: a poll that clears no flag goes to spin with it and without it. Every other raise
//!   has its flag cleared by a poll that takes an interrupt, and moves to right before that poll. So no flag is set
//!   between two bundles, and a step at rest always leaves it.
//! - A poll that takes no interrupt goes back to spin, and the step that led from spin to it has changed nothing else:
//!   both go out. The step that led to a poll that takes one moves to right before the raise. Locked is 1 there, so
//!   this step goes to poll there too.
//! - A step that changes nothing goes out: await without a next, and every step at lost.
//! - A step is quiet if it changes nothing but the processor's own place, and would do the same wherever it stood
//!   before that processor's next event. It moves to right before that next event, or goes out if there is none. Quiet
//!   are rest, inside and service, which have no test (rest has no flag to find); back where locked is not 2, and then
//!   regain where it is not 3, for only the processor's own poll makes it 2, and only a park that finds 2 makes it 3;
//!   and close where L is another, for only the processor's own swap makes L itself. Peek and reread are not quiet: the
//!   next that they find may be another later on.
//!
//! No other processor reads a place or a flag, so what moves or goes out changes nothing for the others.

use crate::lock::*;

/// What a run is to come to.
#[derive(Clone, Copy, PartialEq, Eq)]
pub enum Goal {
    /// The watched one enters, after it was passed over.
    Passed,
    /// A processor comes to lost. For that nobody need be watched.
    Lost,
}

/// A state between two bundles, with what has to be known of the run so far.
#[derive(Clone, Copy)]
pub struct Spot {
    pub lock: Lock,
    /// Who is watched since its latest join, or none so far.
    pub watched: u8,
    /// Whether the watched one was passed over since.
    pub passed: bool,
    /// For each processor, whether its latest join is later than that of the watched one.
    pub later: [bool; MOST as usize],
}

/// A bundle with the spot it leads to.
pub struct Move {
    pub processor: u8,
    pub events: &'static [u8],
    pub to: Spot,
    /// Whether this is the goal.
    pub found: bool,
}

/// The events of processor p's next bundle: its quiet steps and the step that follows them, or the way into an
/// interrupt. Empty as long as no step of p would change anything but its place.
fn bundle(lock: &Lock, p: u8) -> &'static [u8] {
    const S: u8 = STEP;
    let row = &lock.rows[p as usize];
    match (row.place, row.locked) {
        (REST, _) => &[S, S],
        (SPIN, RELEASED) => &[S],
        (SPIN, LOCKED) => &[S, RAISE, S],
        (SPIN, _) => &[],
        (INSIDE, _) => &[S, S],
        (SERVICE, PREEMPTED) => &[S, S],
        (SERVICE, R_P) => &[S, S, S],
        (SERVICE, _) => &[S, S, S, S],
        (CLOSE, _) if lock.tail == p => &[S],
        (CLOSE, _) if row.next == NONE => &[],
        (CLOSE, _) => &[S, S],
        (LOST, _) => &[],
        _ => &[S],
    }
}

impl Spot {
    /// The fresh state of n processors.
    pub fn fresh(n: u8) -> Spot {
        let lock = Lock { edition: DRAWN, n, tail: NONE, rows: [FRESH_ROW; MOST as usize] };
        Spot { lock, watched: NONE, passed: false, later: [false; MOST as usize] }
    }

    /// All that can come next.
    pub fn moves(&self, goal: Goal) -> Vec<Move> {
        let mut moves = Vec::new();
        for processor in 0..self.lock.n {
            let events = bundle(&self.lock, processor);
            // The watched one takes no interrupt.
            let interrupt = events.contains(&RAISE);
            if events.is_empty() || interrupt && processor == self.watched {
                continue;
            }
            let (to, entry) = self.after(processor, events);
            let ended = entry && processor == self.watched;
            let found = match goal {
                Goal::Passed => ended && self.passed,
                Goal::Lost => to.lock.rows[processor as usize].place == LOST,
            };
            // Whoever enters without having been passed over need not have been watched.
            if found || !ended {
                moves.push(Move { processor, events, to, found });
            }
            // A join behind another is where a watch may begin.
            if goal == Goal::Passed && self.watched == NONE && self.joins(processor) && !entry {
                let to = Spot { watched: processor, ..to };
                moves.push(Move { processor, events, to, found });
            }
        }
        moves
    }

    /// Whether p's next bundle is a join.
    fn joins(&self, p: u8) -> bool {
        self.lock.rows[p as usize].place == SWAP
    }

    /// The spot after a bundle of p, and whether the bundle ends with an entry.
    fn after(&self, p: u8, events: &[u8]) -> (Spot, bool) {
        let mut to = *self;
        let mut entry = false;
        for &event in events {
            entry = to.lock.event(event, p).expect("the event is in range");
        }
        if self.watched != NONE {
            // The join comes before the entry: if the swap finds no one, one step is both.
            to.later[p as usize] |= self.joins(p);
            to.passed |= entry && to.later[p as usize];
        }
        (to, entry)
    }
}
