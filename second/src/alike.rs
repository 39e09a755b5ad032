//! Alike: the log of a schedule, and of the same schedule with its letters in other cases. They must not differ.

use crate::bench;
use crate::bytes;
use crate::case;
use crate::random::{self, Random};
use crate::report::Report;

/// A way to change the case of letters.
type Recasing = (&'static str, fn(&[u8], &mut Random) -> Vec<u8>);

const RECASINGS: [Recasing; 3] = [
    ("a to f are raised", |text, _| case::raised(text)),
    ("A to F are lowered", |text, _| case::lowered(text)),
    ("A to F are lowered as drawn", case::lowered_as_drawn),
];

/// What was found in the schedules of one source.
#[derive(Default)]
struct Found {
    all: u64,
    /// Schedules that a recasing changes, and those whose logs it changes.
    schedules: [u64; RECASINGS.len()],
    logs: [u64; RECASINGS.len()],
    /// Logs that hold a byte a to f.
    lower: u64,
}

impl Found {
    fn of(schedules: impl Iterator<Item = Vec<u8>>) -> Found {
        let mut found = Found::default();
        let random = &mut Random { x: 0 };
        for schedule in schedules {
            found.count(&schedule, random);
        }
        found
    }

    fn count(&mut self, schedule: &[u8], random: &mut Random) {
        self.all += 1;
        let log = bench::log(schedule);
        self.lower += log.iter().any(|byte| (b'a'..=b'f').contains(byte)) as u64;
        for (i, (_, recase)) in RECASINGS.into_iter().enumerate() {
            let recased = recase(schedule, random);
            self.schedules[i] += (recased != schedule) as u64;
            self.logs[i] += (bench::log(&recased) != log) as u64;
        }
    }
}

/// The findings, and whether they are as they must be.
pub fn print() -> (String, bool) {
    let found = [Found::of(random::schedules()), Found::of(bytes::schedules())];
    let mut report = Report::default();
    report.head("the same in other cases");
    report.columns("schedules", [found[0].all, found[1].all]);
    for (i, (when, _)) in RECASINGS.into_iter().enumerate() {
        let words = format!("schedules that change when {}", when);
        let numbers = [found[0].schedules[i], found[1].schedules[i]];
        report.columns(&words, numbers);
        report.demand(numbers[0].min(numbers[1]), 1, &words);
    }
    for (i, (when, _)) in RECASINGS.into_iter().enumerate() {
        forbid(&mut report, &format!("logs that change when {}", when), [found[0].logs[i], found[1].logs[i]]);
    }
    forbid(&mut report, "logs that hold a byte a to f", [found[0].lower, found[1].lower]);
    report.end("the case of a schedule's letters changes no log, and no log holds a to f")
}

/// A line of what must not be in either source.
fn forbid(report: &mut Report, words: &str, numbers: [u64; 2]) {
    report.columns(words, numbers);
    report.forbid(numbers.iter().sum(), words);
}
