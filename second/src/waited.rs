//! Waited: who made whom wait. The report of one schedule: what it adds to the table, and what it lays down in the lent
//! rows. The run is recorded whole, and both are counted from the record by the words of request [4].

use crate::bench::{self, Happening};
use crate::frame;
use crate::lock::*;
use crate::table::Table;

/// Refusal 13: fewer rows lent than N.
pub const REFUSED_ROWS: u8 = 13;

/// A lent row.
#[derive(Clone, Copy, PartialEq, Eq)]
pub struct Lent {
    pub entries: u32,
    pub interrupts: u32,
    pub joins: u32,
}

impl Lent {
    pub const EMPTY: Lent = Lent { entries: 0, interrupts: 0, joins: 0 };
}

/// What is said of a schedule: the refusal with its line, both 0 for none, and how many rows are laid down.
#[derive(Clone, Copy, PartialEq, Eq)]
pub struct Answer {
    pub refusal: u8,
    pub line: u16,
    pub laid: u8,
}

/// An accepted event, and what it was of the three things counted. Join and entry may be one step.
struct Act {
    processor: u8,
    join: bool,
    entry: bool,
    interrupt: bool,
}

impl Act {
    fn of(h: &Happening) -> Act {
        let from = h.before.rows[h.processor as usize].place;
        let to = h.after.rows[h.processor as usize].place;
        let step = h.event == STEP;
        Act {
            processor: h.processor,
            join: step && from == SWAP,
            entry: h.entry,
            interrupt: step && matches!((from, to), (POLL, SERVICE) | (OLD_POLL, OLD_SERVICE)),
        }
    }
}

/// The record of a run in which nothing was refused.
struct Run {
    n: u8,
    acts: Vec<Act>,
}

impl Run {
    /// The run of a schedule, or the schedule's own refusal with its line.
    fn of(schedule: &[u8]) -> Result<Run, (u8, u16)> {
        let mut log = Vec::new();
        let mut acts = Vec::new();
        bench::run(schedule, &mut log, |h| acts.push(Act::of(h)))?;
        // The log begins with the header as the writer gives it.
        let [_, _, n, _] = frame::read(&log, 1).expect("nothing was refused");
        Ok(Run { n, acts })
    }

    /// The join that led to an entry: the latest of that processor up to and with it. The old edition has none.
    fn join_to(&self, entered: usize) -> Option<usize> {
        let b = self.acts[entered].processor;
        self.acts[..=entered].iter().rposition(|act| act.join && act.processor == b)
    }

    /// What the run adds to the table. Every entry is charged by itself, for all that lies between its join and it. So
    /// a join that was passed over, or that led to no entry until the end, charges nothing.
    fn charges(&self) -> Table {
        let mut charges = Table::ZERO;
        for (entered, entry) in self.acts.iter().enumerate().filter(|(_, act)| act.entry) {
            let Some(joined) = self.join_to(entered) else { continue };
            let between = self.acts.iter().take(entered).skip(joined + 1);
            for other in between.filter(|act| act.entry) {
                charges.counts[other.processor as usize][entry.processor as usize] += 1;
            }
        }
        charges
    }

    /// What the run lays down, a row for each processor.
    fn rows(&self) -> Vec<Lent> {
        let mut rows = vec![Lent::EMPTY; self.n as usize];
        for act in &self.acts {
            let row = &mut rows[act.processor as usize];
            row.entries += act.entry as u32;
            row.interrupts += act.interrupt as u32;
            row.joins += act.join as u32;
        }
        rows
    }
}

/// The table with the schedule added, and the rows to lay down; or a refusal with its line. First come those of the
/// schedule, then 13, then 12.
fn added(schedule: &[u8], table: &Table, lent: usize) -> Result<(Table, Vec<Lent>), (u8, u16)> {
    let run = Run::of(schedule)?;
    if lent < run.n as usize {
        return Err((REFUSED_ROWS, 0));
    }
    let sum = table.plus(&run.charges()).map_err(|refusal| (refusal, 0))?;
    Ok((sum, run.rows()))
}

/// The report of one schedule. If it is refused, the table and the lent rows stay; otherwise the rows from N on do.
pub fn report(schedule: &[u8], table: &mut Table, lent: &mut [Lent]) -> Answer {
    match added(schedule, table, lent.len()) {
        Ok((sum, rows)) => {
            *table = sum;
            lent[..rows.len()].copy_from_slice(&rows);
            Answer { refusal: 0, line: 0, laid: rows.len() as u8 }
        }
        Err((refusal, line)) => Answer { refusal, line, laid: 0 },
    }
}
