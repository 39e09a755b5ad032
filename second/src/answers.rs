//! Answers: what comes back for the states handed in. The refusals in their order, the sides of the step table, the
//! tables of turns.rs, and the places of each edition.

use crate::cell::Cell;
use crate::coverage::{self, Counts, SIDES};
use crate::edges::Edges;
use crate::handed::{self, Trial, TRIALS};
use crate::lock::*;
use crate::places::{self, Tried};
use crate::report::Report;
use crate::turns::{self, LEAST};

/// A kind of accepted event that no run has, or hardly ever, told from the trial.
struct Case {
    words: &'static str,
    event: u8,
    holds: fn(lock: &Lock, row: &Row, p: u8) -> bool,
}

const fn step(words: &'static str, holds: fn(&Lock, &Row, u8) -> bool) -> Case {
    Case { words, event: STEP, holds }
}

const fn raise(words: &'static str, holds: fn(&Lock, &Row, u8) -> bool) -> Case {
    Case { words, event: RAISE, holds }
}

/// The next that a step at reread finds.
fn read_again(lock: &Lock, row: &Row) -> u8 {
    lock.rows[row.succ as usize].next
}

const CASES: &[Case] = &[
    // Arm has a pred, but its act does not use it. Look and await only set succ.
    step("steps that used pred, and it was the processor itself", |_, row, p| {
        matches!(row.place, LINK | CLAIM) && row.pred == p
    }),
    step("steps that used succ, and it was the processor itself", |_, row, p| {
        handed::needs(row.place, Cell::Succ) && row.succ == p
    }),
    step("steps at try, and L was the processor itself", |lock, row, p| row.place == TRY && lock.tail == p),
    step("steps at free, and L was another or none", |lock, row, p| row.place == FREE && lock.tail != p),
    step("steps at reread that find none, and nx was not", |lock, row, _| {
        row.place == REREAD && read_again(lock, row) == NONE && row.nx != NONE
    }),
    step("steps at reread that find one, and nx was none", |lock, row, _| {
        row.place == REREAD && read_again(lock, row) != NONE && row.nx == NONE
    }),
    step("steps at reread that find one, and nx was another", |lock, row, _| {
        row.place == REREAD && ![NONE, row.nx].contains(&read_again(lock, row)) && row.nx != NONE
    }),
    step("steps at lost, flag clear", |_, row, _| row.place == LOST && !row.flag),
    step("steps at lost, flag set", |_, row, _| row.place == LOST && row.flag),
    raise("raises at reread, flag clear", |_, row, _| row.place == REREAD && !row.flag),
    raise("raises at reread, flag set", |_, row, _| row.place == REREAD && row.flag),
    raise("raises at lost, flag clear", |_, row, _| row.place == LOST && !row.flag),
    raise("raises at lost, flag set", |_, row, _| row.place == LOST && row.flag),
];

/// What the trials met.
struct Answers {
    /// Trials by whether the state is not sound, the event is wrong, and the processor is.
    given: [[[u64; 2]; 2]; 2],
    raises: u64,
    steps: u64,
    cases: [u64; CASES.len()],
    /// Answers with another refusal than document 01 wants.
    other: u64,
    /// Refused events that give another state back.
    changed: u64,
    /// Accepted events after which the state is not sound.
    unsound: u64,
    counts: Counts,
}

impl Answers {
    fn new() -> Answers {
        Answers {
            given: [[[0; 2]; 2]; 2],
            raises: 0,
            steps: 0,
            cases: [0; CASES.len()],
            other: 0,
            changed: 0,
            unsound: 0,
            counts: Counts::new(),
        }
    }

    fn count(&mut self, trial: &Trial, wanted: u8) {
        let (refusal, after) = trial.answer();
        let unsound = wanted == REFUSED_STATE;
        self.given[unsound as usize][!trial.good_event() as usize][!trial.good_processor() as usize] += 1;
        if refusal != wanted {
            self.other += 1;
        } else if refusal == 0 {
            self.accepted(trial, &after);
        } else {
            self.changed += (after != trial.lock) as u64;
        }
    }

    fn accepted(&mut self, trial: &Trial, after: &Lock) {
        let p = trial.processor;
        self.unsound += !after.sound() as u64;
        let row = &trial.lock.rows[p as usize];
        for (count, case) in self.cases.iter_mut().zip(CASES).filter(|(_, case)| case.event == trial.event) {
            *count += (case.holds)(&trial.lock, row, p) as u64;
        }
        if trial.event == RAISE {
            self.raises += 1;
            return;
        }
        self.steps += 1;
        self.counts.step(&trial.lock, after, p as usize);
    }

    /// Which of the three refusals comes first.
    fn print_order(&self, report: &mut Report) {
        const SOUND: [&str; 2] = ["sound", "not sound"];
        const GOOD: [&str; 2] = ["good", "wrong"];
        report.line("state      event  processor  answer   times");
        for (s, state) in SOUND.iter().enumerate() {
            for (e, event) in GOOD.iter().enumerate() {
                for (p, processor) in GOOD.iter().enumerate() {
                    let count = self.given[s][e][p];
                    let answer = match (s, e, p) {
                        (1, _, _) => REFUSED_STATE,
                        (_, 1, _) => REFUSED_EVENT,
                        (_, _, 1) => REFUSED_PROCESSOR,
                        _ => 0,
                    };
                    let words = format!("{:<11}{:<7}{:<11}{:>6}", state, event, processor, answer);
                    report.line(&format!("{}{:>8}", words, count));
                    report.demand(count, LEAST, &words);
                }
            }
        }
    }

    fn print_numbers(&self, several: u64, report: &mut Report) {
        let may = [
            ("states handed in", TRIALS),
            ("states that fail several tests of soundness", several),
            ("accepted raises", self.raises),
            ("accepted steps", self.steps),
        ];
        let cases = CASES.iter().zip(self.cases).map(|(case, number)| (case.words, number));
        for (words, number) in may.into_iter().chain(cases) {
            report.line(&format!("{:<56}{:>6}", words, number));
            report.demand(number, LEAST, words);
        }
        let must_not = [
            ("answers with another refusal than document 01 wants", self.other),
            ("refused, and another state comes back", self.changed),
            ("accepted, and the state that comes back is not sound", self.unsound),
        ];
        for (words, number) in must_not {
            report.line(&format!("{:<56}{:>6}", words, number));
            report.forbid(number, words);
        }
    }

    /// A side that no run can take is out of reach of any sound state too.
    fn print_sides(&self, report: &mut Report) {
        let mut met = 0;
        let mut all = 0;
        for edition in PLAIN..=LAST_EDITION {
            for (i, side) in SIDES.iter().enumerate().filter(|(_, side)| side.editions.contains(&edition)) {
                let taken = self.counts.taken[edition as usize][i];
                let label = coverage::label(edition, side);
                if coverage::not_reachable(edition, side).is_some() {
                    report.forbid(taken, &label);
                } else {
                    report.demand(taken, 1, &label);
                    all += 1;
                    met += (taken > 0) as u64;
                }
            }
        }
        report.line(&format!("sides of the step table met: {} of {}", met, all));
    }
}

/// Every place in every edition: the rows must agree, and have the documents' places and no other.
fn print_places(report: &mut Report) {
    let (mut had, mut lacked) = (0, 0);
    for edition in places::EVERY_EDITION {
        let tried = Tried::of(edition);
        for place in places::EVERY_PLACE {
            let has = edition <= LAST_EDITION && handed::edition_has(edition, place);
            had += tried.all(place, 0) as u64;
            lacked += tried.all(place, REFUSED_STATE) as u64;
            let (refusal, words) = if has { (0, "had") } else { (REFUSED_STATE, "lacked") };
            let as_wanted = tried.all(place, refusal) as u64;
            report.demand(as_wanted, 1, &format!("place {} of edition {}, {} in all rows", place, edition, words));
        }
    }
    report.line("");
    report.line(&format!(
        "places: every place from 0 to 255 in each of the editions 0 to 5, in each row: {} had, {} lacked",
        had, lacked
    ));
}

/// The tables, and whether all that should be met is.
pub fn print() -> (String, bool) {
    let mut answers = Answers::new();
    let mut edges = Edges::default();
    for t in 0..TRIALS {
        let trial = handed::trial(t);
        let wanted = edges.count(&trial);
        answers.count(&trial, wanted);
    }
    let mut report = Report::default();
    answers.print_numbers(edges.several, &mut report);
    answers.print_sides(&mut report);
    report.line("");
    answers.print_order(&mut report);
    turns::print(&edges, &mut report);
    print_places(&mut report);
    report.end(&format!(
        "every test of a state handed in and of its event is met from both sides, at least {} times",
        LEAST
    ))
}
