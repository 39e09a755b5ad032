//! Wanted: the report that the documents want of a schedule, said apart from waited.rs. The line of a refusal is
//! counted from the log, and the charges come from the verdict, which carries the open joins along with its run.

use crate::bench;
use crate::lock::*;
use crate::table::{Table, REFUSED_COUNT};
use crate::verdict::{self, End, Stretch, Verdict};
use crate::waited::{Answer, Lent, REFUSED_ROWS};

/// What is known of a schedule before a table and rows are handed in.
pub struct Wanted {
    pub refusal: u8,
    line: u16,
    /// The accepted events, unless line 1 is refused. A schedule that is refused later has those before.
    pub run: Option<Verdict>,
    /// By processor, as the verdict has them of all together only.
    interrupts: [u32; MOST as usize],
}

/// Counts that can be added without a limit.
type Sums = [[u64; MOST as usize]; MOST as usize];

impl Wanted {
    pub fn of(schedule: &[u8]) -> Wanted {
        let mut interrupts = [0; MOST as usize];
        let (log, refusal) = bench::follow(schedule, |h| {
            let to = h.after.rows[h.processor as usize].place;
            // Only a poll leads to service.
            interrupts[h.processor as usize] += (h.event == STEP && [SERVICE, OLD_SERVICE].contains(&to)) as u32;
        });
        // Each accepted line has one in the log, and the 05 line stands for the line refused.
        let lines = log.iter().filter(|&&byte| byte == b'\n').count() as u16;
        let line = if [0, bench::REFUSED_SCHEDULE].contains(&refusal) { 0 } else { lines };
        Wanted { refusal, line, run: verdict::of(schedule), interrupts }
    }

    /// The joins, with what came of them. The verdict's first tries of the old edition are none.
    pub fn joins(&self) -> impl Iterator<Item = &Stretch> {
        let joining = self.run.iter().filter(|run| run.edition != OLD);
        joining.flat_map(|run| run.stretches.iter())
    }

    /// What the accepted events charge, if the schedule is refused too.
    pub fn charges(&self) -> Sums {
        let mut charges = Sums::default();
        for join in self.joins().filter(|join| matches!(join.end, End::Entered(_))) {
            for entry in &join.entries {
                charges[entry.processor as usize][join.processor as usize] += 1;
            }
        }
        charges
    }

    /// The sums that the charges above 0 come to, from a table.
    pub fn sums(&self, before: &Table) -> Vec<u64> {
        let charges = self.charges();
        let pairs = charges.iter().flatten().zip(before.cells());
        pairs.filter(|(charge, _)| **charge > 0).map(|(charge, count)| charge + count as u64).collect()
    }

    /// Whether fewer rows are lent than N, where N is known.
    pub fn short(&self, lent: usize) -> bool {
        self.run.as_ref().is_some_and(|run| lent < run.n as usize)
    }

    /// Whether a count would pass.
    pub fn passing(&self, before: &Table) -> bool {
        self.sums(before).iter().any(|&sum| sum > u32::MAX as u64)
    }

    pub fn answer(&self, before: &Table, lent: usize) -> Answer {
        let refused = |refusal, line| Answer { refusal, line, laid: 0 };
        match &self.run {
            Some(run) if self.refusal == 0 => match (self.short(lent), self.passing(before)) {
                (true, _) => refused(REFUSED_ROWS, 0),
                (_, true) => refused(REFUSED_COUNT, 0),
                _ => Answer { refusal: 0, line: 0, laid: run.n },
            },
            _ => refused(self.refusal, self.line),
        }
    }

    /// The table after the answer.
    pub fn table(&self, before: &Table, answer: &Answer) -> Table {
        let mut table = *before;
        if answer.refusal == 0 {
            let cells = table.counts.iter_mut().flatten();
            cells.zip(self.charges().iter().flatten()).for_each(|(count, charge)| *count += *charge as u32);
        }
        table
    }

    /// The row of processor p, if the schedule is not refused.
    pub fn row(&self, p: u8) -> Lent {
        let count = |is: fn(&Stretch) -> bool| {
            let stretches = self.run.iter().flat_map(|run| run.stretches.iter());
            stretches.filter(|stretch| stretch.processor == p && is(stretch)).count() as u32
        };
        // In the old edition each entry ends the stretch of a first try.
        let entries = count(|stretch| matches!(stretch.end, End::Entered(_)));
        let joins = self.joins().filter(|join| join.processor == p).count() as u32;
        Lent { entries, interrupts: self.interrupts[p as usize], joins }
    }
}
