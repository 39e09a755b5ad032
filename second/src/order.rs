//! Order: what runs show of demand 3, and of two never being inside together. It is counted from the verdicts.
//! The old edition has no joins: there it is counted of first tries, and an overtaking is allowed.

use crate::lock::*;
use crate::random;
use crate::verdict::{self, End, Stretch, Verdict};

/// What was found in the runs of one edition.
#[derive(Clone, Copy, Default)]
struct Found {
    schedules: u64,
    joins: u64,
    entered: u64,
    again: u64,
    open: u64,
    interrupted: u64,
    entries: u64,
    interrupts: u64,
    overtakings: u64,
    impossible: u64,
    doubles: u64,
    longest: u64,
    broken: u64,
    inside: u64,
}

impl Found {
    fn add(&mut self, verdict: &Verdict) {
        self.schedules += 1;
        self.entries += verdict.entries;
        self.interrupts += verdict.interrupts;
        self.inside = self.inside.max(verdict.inside);
        for stretch in &verdict.stretches {
            self.stretch(stretch, verdict.n);
        }
    }

    fn stretch(&mut self, stretch: &Stretch, n: u8) {
        self.joins += 1;
        match stretch.end {
            End::Entered(_) => self.entered += 1,
            End::Again(_) => self.again += 1,
            End::Open => self.open += 1,
        }
        self.overtakings += stretch.overtakings().count() as u64;
        self.impossible += impossible(stretch);
        self.doubles += doubles(stretch);
        if stretch.interrupt == 0 {
            let length = stretch.entries.len() as u64;
            self.longest = self.longest.max(length);
            self.broken += (length > n as u64 - 1) as u64;
        } else {
            self.interrupted += 1;
        }
    }

    fn in_order(&self) -> bool {
        self.impossible == 0 && self.doubles == 0 && self.broken == 0
    }

    fn lines(&self, edition: u8) -> [(&'static str, u64); 14] {
        let [joins, again, interrupted, impossible] = if edition == OLD {
            [
                "first tries",
                "of these, tried first again",
                "first tries with an interrupt",
                "of these, impossible elsewhere",
            ]
        } else {
            ["joins", "of these, joined again", "joins with an interrupt", "overtakings claimed impossible"]
        };
        [
            ("schedules with a run", self.schedules),
            (joins, self.joins),
            ("of these, entered", self.entered),
            (again, self.again),
            ("of these, open", self.open),
            (interrupted, self.interrupted),
            ("entries", self.entries),
            ("interrupts", self.interrupts),
            ("overtakings", self.overtakings),
            (impossible, self.impossible),
            ("double entries", self.doubles),
            ("longest wait in entries", self.longest),
            ("waits over N - 1 entries", self.broken),
            ("most inside at once", self.inside),
        ]
    }
}

/// The overtakings of a waiter that had taken no interrupt until then, or that enters in the end without joining
/// again: an interrupt may cost a waiter its place, but then it has to join again.
fn impossible(stretch: &Stretch) -> u64 {
    let kept_place = matches!(stretch.end, End::Entered(_));
    stretch.overtakings().filter(|entry| kept_place || stretch.undisturbed(entry.line)).count() as u64
}

/// How many other processors enter twice before the waiter takes an interrupt.
fn doubles(stretch: &Stretch) -> u64 {
    let mut entered = [0u64; MOST as usize];
    for entry in stretch.entries.iter().filter(|entry| stretch.undisturbed(entry.line)) {
        entered[entry.processor as usize] += 1;
    }
    entered.iter().filter(|&&times| times > 1).count() as u64
}

/// Adds what a schedule shows to the findings of its edition, if there is a run.
fn follow(schedule: &[u8], found: &mut [Found; EDITIONS.len()]) {
    if let Some(verdict) = verdict::of(schedule) {
        found[verdict.edition as usize].add(&verdict);
    }
}

/// The findings over the random schedules, and whether they keep what is claimed. A damaged one has the events before
/// its refusal.
pub fn print() -> (String, bool) {
    let mut found = [Found::default(); EDITIONS.len()];
    for i in 0..random::SCHEDULES {
        follow(&random::schedule(i), &mut found);
    }
    report(&found)
}

/// The same for one schedule, so that the check can be shown a run that is out of order.
pub fn print_one(schedule: &[u8]) -> (String, bool) {
    let mut found = [Found::default(); EDITIONS.len()];
    follow(schedule, &mut found);
    report(&found)
}

fn report(found: &[Found; EDITIONS.len()]) -> (String, bool) {
    let mut text = String::new();
    let mut good = true;
    for (edition, f) in (PLAIN..=LAST_EDITION).zip(found).filter(|(_, f)| f.schedules > 0) {
        let name = EDITIONS[edition as usize];
        for (words, number) in f.lines(edition) {
            text += &format!("{:<8}{:<31}{:>8}\n", name, words, number);
        }
        // Drawn and old carry no claim of order, but in no edition two are inside together.
        let claimed = edition != DRAWN && edition != OLD;
        good = good && f.inside <= 1 && (f.in_order() || !claimed);
        let words = match (f.inside <= 1, f.in_order()) {
            (false, _) => "more than one was inside at once",
            (true, false) => "something is out of order",
            (true, true) => "nothing is out of order",
        };
        let no_claim = if f.inside <= 1 && !claimed { "; no claim is made" } else { "" };
        text += &format!("{:<8}{}{}\n", name, words, no_claim);
    }
    (text, good)
}
