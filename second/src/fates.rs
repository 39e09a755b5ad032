//! Fates: what comes of the joins in the accepted schedules of the lists, and what their entries are charged with, by
//! edition.

use crate::lists::Reported;
use crate::lock::*;
use crate::report::Report;
use crate::verdict::{End, Stretch};
use crate::wanted::Wanted;

fn entered(join: &Stretch) -> bool {
    matches!(join.end, End::Entered(_))
}

fn at_once(join: &Stretch) -> bool {
    matches!(join.end, End::Entered(line) if line == join.joined)
}

fn passed_over(join: &Stretch) -> bool {
    matches!(join.end, End::Again(_))
}

fn open(join: &Stretch) -> bool {
    matches!(join.end, End::Open)
}

const QUEUES: &[u8] = &[PLAIN, DRAWN, GUARDED];
/// A processor joins again only after an interrupt, and plain takes none.
const INTERRUPTIBLE: &[u8] = &[DRAWN, GUARDED];

/// What comes of a join, and the editions in which that must be met. In the others it must not.
struct Fate {
    words: &'static str,
    editions: &'static [u8],
    is: fn(&Stretch) -> bool,
}

const fn fate(words: &'static str, editions: &'static [u8], is: fn(&Stretch) -> bool) -> Fate {
    Fate { words, editions, is }
}

const FATES: &[Fate] = &[
    fate("joins", QUEUES, |_| true),
    fate("their own entry", QUEUES, at_once),
    fate("entered, through no entry of another", QUEUES, |j| entered(j) && !at_once(j) && j.entries.is_empty()),
    fate("entered, through 1", QUEUES, |j| entered(j) && j.entries.len() == 1),
    fate("entered, through more", QUEUES, |j| entered(j) && j.entries.len() > 1),
    fate("passed over, through no entry", INTERRUPTIBLE, |j| passed_over(j) && j.entries.is_empty()),
    fate("passed over, through some, not charged", INTERRUPTIBLE, |j| passed_over(j) && !j.entries.is_empty()),
    fate("open at the end, through no entry", QUEUES, |j| open(j) && j.entries.is_empty()),
    fate("open at the end, through some, not charged", QUEUES, |j| open(j) && !j.entries.is_empty()),
];

/// What the accepted schedules of one edition show.
#[derive(Clone, Copy, Default)]
pub struct Shown {
    schedules: u64,
    entries: u64,
    interrupts: u64,
    fates: [u64; FATES.len()],
    charges: u64,
    /// By processor, what is charged of its entries, and for its waiting.
    of: [u64; MOST as usize],
    to: [u64; MOST as usize],
    /// The most that one entry is charged with, of all others together and of a single one.
    most: u64,
    most_of_one: u64,
}

impl Shown {
    pub fn add(&mut self, reported: &Reported, wanted: &Wanted) {
        self.schedules += 1;
        let rows = &reported.lent[..reported.answer.laid as usize];
        self.entries += rows.iter().map(|row| row.entries as u64).sum::<u64>();
        self.interrupts += rows.iter().map(|row| row.interrupts as u64).sum::<u64>();
        for (cell, (before, after)) in reported.before.cells().zip(reported.after.cells()).enumerate() {
            let (a, b) = (cell / MOST as usize, cell % MOST as usize);
            self.charges += (after - before) as u64;
            self.of[a] += (after - before) as u64;
            self.to[b] += (after - before) as u64;
        }
        wanted.joins().for_each(|join| self.join(join));
    }

    fn join(&mut self, join: &Stretch) {
        for (count, fate) in self.fates.iter_mut().zip(FATES) {
            *count += (fate.is)(join) as u64;
        }
        if entered(join) {
            self.most = self.most.max(join.entries.len() as u64);
            let of_one = |a: u8| join.entries.iter().filter(|entry| entry.processor == a).count() as u64;
            self.most_of_one = self.most_of_one.max((0..MOST).map(of_one).max().unwrap_or(0));
        }
    }
}

pub fn print(editions: &[Shown; EDITIONS.len()], report: &mut Report) {
    let names: String = EDITIONS.iter().map(|name| format!("{:>9}", name)).collect();
    report.line(&format!("{:<44}{}", "accepted schedules", names));
    columns(editions, report, "schedules", |shown| shown.schedules);
    columns(editions, report, "entries", |shown| shown.entries);
    columns(editions, report, "interrupts taken", |shown| shown.interrupts);
    for (i, fate) in FATES.iter().enumerate() {
        columns(editions, report, fate.words, |shown| shown.fates[i]);
    }
    columns(editions, report, "charged in all", |shown| shown.charges);
    columns(editions, report, "most entries that one entry is charged with", |shown| shown.most);
    columns(editions, report, "of these, most of a single processor", |shown| shown.most_of_one);
    for (edition, shown) in (PLAIN..=LAST_EDITION).zip(editions) {
        demand_edition(edition, shown, report);
    }
    report.line("");
    print_processors(editions, report);
}

/// Which processors are charged: in the rows of the table, and in its columns.
fn print_processors(editions: &[Shown], report: &mut Report) {
    let numbers: String = (0..MOST).map(|p| format!("{:>5}", p)).collect();
    report.line(&format!("{:<20}{}", "processor", numbers));
    print_charged(report, "its entries charged", |p| editions.iter().map(|shown| shown.of[p]).sum());
    print_charged(report, "charged its waiting", |p| editions.iter().map(|shown| shown.to[p]).sum());
}

/// A line of them.
fn print_charged(report: &mut Report, words: &str, charged: impl Fn(usize) -> u64) {
    let numbers: Vec<u64> = (0..MOST as usize).map(charged).collect();
    let text: String = numbers.iter().map(|number| format!("{:>5}", number)).collect();
    report.line(&format!("{:<20}{}", words, text));
    for (p, &number) in numbers.iter().enumerate() {
        report.demand(number, 1, &format!("{}, processor {}", words, p));
    }
}

fn columns(editions: &[Shown], report: &mut Report, words: &str, number: impl Fn(&Shown) -> u64) {
    let numbers: String = editions.iter().map(|shown| format!("{:>9}", number(shown))).collect();
    report.line(&format!("{:<44}{}", words, numbers));
}

fn demand_edition(edition: u8, shown: &Shown, report: &mut Report) {
    let name = EDITIONS[edition as usize];
    report.demand(shown.entries, 1, &format!("{}, entries", name));
    if edition == PLAIN {
        report.forbid(shown.interrupts, &format!("{}, interrupts taken", name));
    } else {
        report.demand(shown.interrupts, 1, &format!("{}, interrupts taken", name));
    }
    for (fate, number) in FATES.iter().zip(shown.fates) {
        let what = format!("{}, {}", name, fate.words);
        if fate.editions.contains(&edition) {
            report.demand(number, 1, &what);
        } else {
            report.forbid(number, &what);
        }
    }
    if edition == OLD {
        report.forbid(shown.charges, &format!("{}, charged", name));
    }
    // Nobody enters twice while another keeps its place. Drawn makes no claim of it.
    if edition != DRAWN {
        report.forbid(shown.most_of_one.saturating_sub(1), &format!("{}, charged a pair more than once", name));
    }
}
