//! Shortest: the least number of events from fresh in which the drawn edition lets a waiter that takes no interrupt be
//! passed over and then enter, or in which a processor of it comes to lost.

use crate::bench;
use crate::canon::{Canon, MOST_PACKED};
use crate::frame;
use crate::lock::*;
use crate::verdict::{self, End};
use crate::watch::{Goal, Spot};
use std::collections::HashMap;

/// With how many processors it can be asked.
pub fn can_search(n: u8) -> bool {
    (1..=MOST_PACKED).contains(&n)
}

/// How a spot is best reached so far.
struct Way {
    events: usize,
    /// The spot before it; fresh has none.
    from: Option<u64>,
}

/// A search by number of events.
struct Search {
    n: u8,
    goal: Goal,
    canon: Canon,
    ways: HashMap<u64, Way>,
    /// The spots by the number of events that lead to them. One that is found anew with fewer stays in the old list
    /// too.
    levels: Vec<Vec<u64>>,
}

impl Search {
    fn reach(&mut self, bits: u64, events: usize, from: Option<u64>) {
        if self.ways.get(&bits).map_or(false, |way| way.events <= events) {
            return;
        }
        self.ways.insert(bits, Way { events, from });
        if self.levels.len() <= events {
            self.levels.resize(events + 1, Vec::new());
        }
        self.levels[events].push(bits);
    }

    /// The last spot before the goal. The entry of the watched one is a bundle of one event, spin or settle, and so is
    /// the reread that comes to lost. So the first one found in order of events is the least.
    fn run(&mut self) -> Option<u64> {
        self.reach(self.canon.pack(&Spot::fresh(self.n)), 0, None);
        let mut events = 0;
        while events < self.levels.len() {
            for bits in std::mem::take(&mut self.levels[events]) {
                // Some are listed here that fewer events lead to.
                if self.ways[&bits].events < events {
                    continue;
                }
                for step in self.canon.unpack(bits).moves(self.goal) {
                    if step.found {
                        return Some(bits);
                    }
                    self.reach(self.canon.pack(&step.to), events + step.events.len(), Some(bits));
                }
            }
            events += 1;
        }
        None
    }

    /// The spots that lead to this one, without fresh.
    fn way_to(&self, last: u64) -> Vec<u64> {
        let mut way = Vec::new();
        let mut bits = last;
        while let Some(from) = self.ways[&bits].from {
            way.push(bits);
            bits = from;
        }
        way.reverse();
        way
    }

    /// The schedule that goes along a way, and from its end to the goal. The bits tell spots up to the processors'
    /// numbers, so the way is gone along anew with numbers that stay.
    fn schedule(&self, way: &[u64]) -> Vec<u8> {
        let mut schedule = Vec::new();
        frame::write(&mut schedule, &[1, DRAWN, self.n]);
        let mut spot = Spot::fresh(self.n);
        for i in 0..=way.len() {
            let mut moves = spot.moves(self.goal).into_iter();
            let step = moves.find(|step| match way.get(i) {
                Some(&bits) => !step.found && self.canon.pack(&step.to) == bits,
                None => step.found,
            });
            let step = step.expect("the search went this way");
            for &event in step.events {
                frame::write(&mut schedule, &[2, event, step.processor]);
            }
            spot = step.to;
        }
        schedule
    }
}

/// Whether the run of a schedule comes to the goal with its last event.
fn borne_out(schedule: &[u8], goal: Goal) -> bool {
    match goal {
        Goal::Passed => enters_passed(schedule),
        Goal::Lost => comes_to_lost(schedule),
    }
}

/// Whether the last line is an entry that ends a stretch with an overtaking and without an interrupt, by the verdict.
fn enters_passed(schedule: &[u8]) -> bool {
    let last = (schedule.len() / frame::LINE) as u64;
    verdict::of(schedule).map_or(false, |verdict| {
        verdict.stretches.iter().any(|stretch| {
            let enters_last = matches!(stretch.end, End::Entered(line) if line == last);
            enters_last && stretch.interrupt == 0 && stretch.overtakings().count() > 0
        })
    })
}

/// Whether some processor is at lost after the last event, and none before it.
fn comes_to_lost(schedule: &[u8]) -> bool {
    let mut lost = Vec::new();
    let (_, refusal) = bench::follow(schedule, |h| lost.push(h.after.rows.iter().any(|row| row.place == LOST)));
    refusal == 0 && lost.pop() == Some(true) && !lost.contains(&true)
}

/// A shortest schedule, or none; or a message if its own run does not bear it out.
fn find(n: u8, goal: Goal) -> Result<Option<Vec<u8>>, String> {
    let mut search = Search { n, goal, canon: Canon::new(n), ways: HashMap::new(), levels: Vec::new() };
    let schedule = search.run().map(|last| search.schedule(&search.way_to(last)));
    match schedule {
        Some(schedule) if !borne_out(&schedule, goal) => Err("the run of the schedule found is another".to_string()),
        schedule => Ok(schedule),
    }
}

/// The number of events, or `none`.
pub fn print(n: u8, goal: Goal) -> Result<String, String> {
    let events = find(n, goal)?.map(|schedule| (schedule.len() / frame::LINE - 1).to_string());
    Ok(events.unwrap_or_else(|| "none".to_string()) + "\n")
}

/// The schedule itself, or `none`.
pub fn print_schedule(n: u8, goal: Goal) -> Result<String, String> {
    let schedule = find(n, goal)?.unwrap_or_else(|| b"none\n".to_vec());
    Ok(String::from_utf8_lossy(&schedule).into_owned())
}
