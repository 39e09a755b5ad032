//! Charged: which refusals the reports over the lists of docs/RANDOM.md meet, with the edges of 12 and 13, and whether
//! each report is as wanted. What comes of the joins stands in fates.rs, the two orders of a list in turned.rs.

use crate::bench::REFUSED_SCHEDULE;
use crate::fates::{self, Shown};
use crate::lists::{self, Reported, LISTS};
use crate::lock::*;
use crate::report::Report;
use crate::table::REFUSED_COUNT;
use crate::turned::Orders;
use crate::waited::REFUSED_ROWS;
use crate::wanted::Wanted;
use std::collections::HashMap;
use std::ops::Range;

/// One past the most rows lent.
const LENT: usize = 18;
/// The last count that fits.
const LAST: u64 = u32::MAX as u64;

/// A report with what was wanted of it.
struct Seen<'a> {
    reported: &'a Reported,
    wanted: &'a Wanted,
}

impl Seen<'_> {
    fn refusal(&self) -> u8 {
        self.reported.answer.refusal
    }

    fn by(&self, refusal: u8) -> bool {
        self.refusal() == refusal
    }

    /// Whether the schedule itself is refused.
    fn own(&self) -> bool {
        (REFUSED_SCHEDULE..=REFUSED_PROCESSOR).contains(&self.refusal())
    }

    fn accepted(&self) -> bool {
        self.by(0)
    }

    /// N, or 0 where it is not known.
    fn n(&self) -> usize {
        self.wanted.run.as_ref().map_or(0, |run| run.n as usize)
    }

    fn lent(&self) -> usize {
        self.reported.lent.len()
    }

    fn edition_is(&self, edition: u8) -> bool {
        self.wanted.run.as_ref().is_some_and(|run| run.edition == edition)
    }

    /// Whether 13 would be given, were it not for other refusals.
    fn short(&self) -> bool {
        self.wanted.short(self.lent())
    }

    /// Whether 12 would.
    fn passing(&self) -> bool {
        self.wanted.passing(&self.reported.before)
    }

    /// The greatest sum that a charge comes to, or 0.
    fn highest(&self) -> u64 {
        self.wanted.sums(&self.reported.before).into_iter().max().unwrap_or(0)
    }

    /// Whether the accepted events charge something.
    fn charging(&self) -> bool {
        self.highest() > 0
    }

    /// Whether the table has a count that cannot be raised, and that the schedule leaves.
    fn leaves_full(&self) -> bool {
        let charges = self.wanted.charges();
        let mut pairs = self.reported.before.cells().zip(charges.iter().flatten());
        pairs.any(|(count, charge)| count as u64 == LAST && *charge == 0)
    }

    /// The cells that the charges would pass in, and those they would raise.
    fn passed_and_raised(&self) -> (usize, usize) {
        let sums = self.wanted.sums(&self.reported.before);
        let passed = sums.iter().filter(|&&sum| sum > LAST).count();
        (passed, sums.len() - passed)
    }

    fn diagonal_risen(&self) -> bool {
        let (before, after) = (&self.reported.before.counts, &self.reported.after.counts);
        (0..MOST as usize).any(|a| before[a][a] != after[a][a])
    }

    /// Whether the rows are as wanted: the first N laid down where nothing is refused, and all others as they were.
    fn rows_good(&self) -> bool {
        let laid = if self.accepted() { self.n() } else { 0 };
        let mut rows = lists::rows(self.lent());
        if laid > rows.len() {
            return false;
        }
        (0..laid).for_each(|p| rows[p] = self.wanted.row(p as u8));
        rows == self.reported.lent
    }

    fn answer_good(&self) -> bool {
        self.reported.answer == self.wanted.answer(&self.reported.before, self.lent())
    }

    fn table_good(&self) -> bool {
        self.reported.after == self.wanted.table(&self.reported.before, &self.reported.answer)
    }

    /// Whether some stretch of the run has entries of others in it, so that they could be charged.
    fn waited(&self) -> bool {
        self.wanted.run.as_ref().is_some_and(|run| run.stretches.iter().any(|stretch| !stretch.entries.is_empty()))
    }
}

/// A kind of report.
type Kind = (&'static str, fn(&Seen) -> bool);

/// Those that must be met.
const KINDS: &[Kind] = &[
    ("accepted", |s| s.accepted()),
    ("accepted, and something is charged", |s| s.accepted() && s.charging()),
    ("accepted, lent N, and N below 16", |s| s.accepted() && s.lent() == s.n() && s.n() < MOST as usize),
    ("accepted, lent 16, N 16", |s| s.accepted() && s.lent() == s.n() && s.n() == MOST as usize),
    ("accepted, lent more than N", |s| s.accepted() && s.lent() > s.n()),
    ("accepted, a charged count comes to 4294967295", |s| s.accepted() && s.highest() == LAST),
    ("accepted, a count of 4294967295 is not charged", |s| s.accepted() && s.charging() && s.leaves_full()),
    ("refused by 12", |s| s.by(REFUSED_COUNT)),
    ("refused by 12, the greatest would come to 4294967296", |s| s.by(REFUSED_COUNT) && s.highest() == LAST + 1),
    ("refused by 12, the greatest would come to more", |s| s.by(REFUSED_COUNT) && s.highest() > LAST + 1),
    ("refused by 12 for one count, and others would fit", |s| {
        s.by(REFUSED_COUNT) && s.passed_and_raised().0 == 1 && s.passed_and_raised().1 > 0
    }),
    ("refused by 13", |s| s.by(REFUSED_ROWS)),
    ("refused by 13, lent N - 1", |s| s.by(REFUSED_ROWS) && s.lent() + 1 == s.n()),
    ("refused by 13, lent less", |s| s.by(REFUSED_ROWS) && s.lent() + 1 < s.n()),
    ("refused by 13, and something would be charged", |s| s.by(REFUSED_ROWS) && s.charging()),
    ("refused by 13, and 12 would apply too", |s| s.by(REFUSED_ROWS) && s.passing()),
    ("refused by its own, in line 1", |s| s.own() && s.reported.answer.line == 1),
    ("refused by its own, in a line over 255", |s| s.own() && s.reported.answer.line > 255),
    ("refused by its own, and 13 would apply too", |s| s.own() && s.short()),
    ("refused by its own, and 12 would apply too", |s| s.own() && s.passing()),
    ("refused by its own, and something would be charged", |s| s.own() && s.charging()),
    ("old, accepted, and a first try waited", |s| s.accepted() && s.edition_is(OLD) && s.waited()),
];

/// Those that must not be.
const WRONG: &[Kind] = &[
    ("another refusal, line or number of rows than wanted", |s| !s.answer_good()),
    ("another table than wanted", |s| !s.table_good()),
    ("other lent rows than wanted", |s| !s.rows_good()),
    ("refused, and the table is changed", |s| !s.accepted() && s.reported.after != s.reported.before),
    ("a processor charged for its own waiting", |s| s.diagonal_risen()),
    ("old, and the table is changed", |s| s.edition_is(OLD) && s.reported.after != s.reported.before),
];

/// What is counted over all lists.
struct Counts {
    kinds: [u64; KINDS.len()],
    wrong: [u64; WRONG.len()],
    /// By the schedule's own refusal.
    own: [u64; REFUSED_PROCESSOR as usize + 1],
    /// By the number of rows lent: refused by 13, and accepted.
    short: [u64; LENT],
    enough: [u64; LENT],
    editions: [Shown; EDITIONS.len()],
    orders: Orders,
}

impl Counts {
    fn new() -> Counts {
        Counts {
            kinds: [0; KINDS.len()],
            wrong: [0; WRONG.len()],
            own: [0; REFUSED_PROCESSOR as usize + 1],
            short: [0; LENT],
            enough: [0; LENT],
            editions: [Shown::default(); EDITIONS.len()],
            orders: Orders::default(),
        }
    }

    /// A report of a list in its order.
    fn add(&mut self, seen: &Seen) {
        count(&mut self.kinds, KINDS, seen);
        if seen.own() {
            self.own[seen.refusal() as usize] += 1;
        }
        self.short[seen.lent()] += seen.by(REFUSED_ROWS) as u64;
        self.enough[seen.lent()] += seen.accepted() as u64;
        match &seen.wanted.run {
            Some(run) if seen.accepted() => self.editions[run.edition as usize].add(seen.reported, seen.wanted),
            _ => (),
        }
    }
}

/// Counts a report for each of the kinds it is of.
fn count(counts: &mut [u64], kinds: &[Kind], seen: &Seen) {
    for (count, (_, is)) in counts.iter_mut().zip(kinds) {
        *count += is(seen) as u64;
    }
}

/// Goes through all lists. What must be met is counted in their order, what must not be in the other order too.
fn counted() -> Counts {
    let mut counts = Counts::new();
    let mut known: HashMap<u64, Wanted> = HashMap::new();
    for i in 0..LISTS {
        let list = lists::list(i);
        for item in &list.items {
            known.entry(item.number).or_insert_with(|| Wanted::of(&item.text));
        }
        let (first, other) = (list.reports(&list.order()), list.reports(&list.other_order()));
        for (j, reported) in first.iter().chain(&other).enumerate() {
            let seen = Seen { reported, wanted: &known[&list.items[reported.k].number] };
            count(&mut counts.wrong, WRONG, &seen);
            if j < first.len() {
                counts.add(&seen);
            }
        }
        counts.orders.add(&list, &first, &other);
    }
    counts
}

pub fn print() -> (String, bool) {
    let counts = counted();
    let mut report = Report::default();
    report.line("reports over the lists, in their order");
    print_refusals(&counts, &mut report);
    print_lent(&counts, &mut report);
    report.line("");
    fates::print(&counts.editions, &mut report);
    report.line("");
    counts.orders.print(&mut report);
    report.end("every report is as wanted, and all refusals, rows lent and fates of joins demanded here are met")
}

fn print_refusals(counts: &Counts, report: &mut Report) {
    for refusal in REFUSED_SCHEDULE..=REFUSED_PROCESSOR {
        let words = format!("refused by {}", refusal);
        report.number(&words, counts.own[refusal as usize]);
        report.demand(counts.own[refusal as usize], 1, &words);
    }
    for ((words, _), number) in KINDS.iter().zip(counts.kinds) {
        report.number(words, number);
        report.demand(number, 1, words);
    }
    report.line("in both orders");
    for ((words, _), number) in WRONG.iter().zip(counts.wrong) {
        report.number(words, number);
        report.forbid(number, words);
    }
}

/// A number of rows lent can be refused by 13 up to 15, and accepted from 1 on. Only the ends are demanded here: lent
/// N, and lent N - 1, stand among the kinds.
fn print_lent(counts: &Counts, report: &mut Report) {
    let most = MOST as usize;
    report.line("");
    print_row(report, "rows lent", &std::array::from_fn(|lent| lent as u64));
    print_side(report, "refused by 13", &counts.short, [0, most - 1], most..LENT);
    print_side(report, "accepted", &counts.enough, [most, LENT - 1], 0..1);
}

/// A line of the table, with the numbers of rows lent at which it must be met, and those at which it cannot.
fn print_side(report: &mut Report, words: &str, numbers: &[u64; LENT], met: [usize; 2], never: Range<usize>) {
    print_row(report, words, numbers);
    for lent in met {
        report.demand(numbers[lent], 1, &format!("{}, {} rows lent", words, lent));
    }
    for lent in never {
        report.forbid(numbers[lent], &format!("{}, {} rows lent", words, lent));
    }
}

fn print_row(report: &mut Report, words: &str, numbers: &[u64; LENT]) {
    let numbers: String = numbers.iter().map(|number| format!("{:>5}", number)).collect();
    report.line(&format!("{:<16}{}", words, numbers));
}
