//! Overtaking: the least number of events from fresh in which the old edition shows an overtaking, counted of first
//! tries as docs/RANDOM.md says.

use crate::frame;
use crate::lock::*;
use crate::verdict;
use std::collections::{HashSet, VecDeque};

/// A state, with what has to be known of the run so far.
#[derive(Clone, Copy, PartialEq, Eq, Hash)]
struct Spot {
    lock: Lock,
    /// For each processor in a stretch, a bit for each whose latest first try is later than the one that began it.
    later: [Option<u16>; MOST as usize],
}

impl Spot {
    /// The spot after an event of p, and whether the event is an overtaking.
    fn after(&self, event: u8, p: u8) -> (Spot, bool) {
        let mut to = *self;
        let entry = to.lock.event(event, p).expect("the event is in range");
        let own = p as usize;
        let bit = 1 << p;
        // Who has not entered since its first try comes to try from poll or service only.
        if event == STEP && self.lock.rows[own].place == TRY && self.later[own].is_none() {
            to.later.iter_mut().flatten().for_each(|later| *later |= bit);
            to.later[own] = Some(0);
        }
        if entry {
            to.later[own] = None;
        }
        let overtakes = entry && to.later.iter().flatten().any(|later| later & bit != 0);
        (to, overtakes)
    }
}

/// A shortest schedule, or none. Fewer events come first, so the first one found is the least.
fn find(n: u8) -> Option<Vec<u8>> {
    let mut header = Vec::new();
    frame::write(&mut header, &[1, OLD, n]);
    let lock = Lock { edition: OLD, n, tail: NONE, rows: [FRESH_ROW; MOST as usize] };
    let fresh = Spot { lock, later: [None; MOST as usize] };
    let mut seen = HashSet::from([fresh]);
    let mut to_do = VecDeque::from([(fresh, header)]);
    while let Some((spot, schedule)) = to_do.pop_front() {
        for (event, p) in (0..n).flat_map(|p| [(STEP, p), (RAISE, p)]) {
            let (to, overtakes) = spot.after(event, p);
            let mut schedule = schedule.clone();
            frame::write(&mut schedule, &[2, event, p]);
            if overtakes {
                return Some(schedule);
            }
            if seen.insert(to) {
                to_do.push_back((to, schedule));
            }
        }
    }
    None
}

/// The number of events, or `none`; or a message if the verdict of the schedule found does not bear it out.
pub fn print(n: u8) -> Result<String, String> {
    let schedule = match find(n) {
        None => return Ok("none\n".to_string()),
        Some(schedule) => schedule,
    };
    let shown = |verdict: verdict::Verdict| verdict.stretches.iter().any(|s| s.overtakings().count() > 0);
    if !verdict::of(&schedule).map_or(false, shown) {
        return Err("the run of the schedule found is another".to_string());
    }
    Ok(format!("{}\n", schedule.len() / frame::LINE - 1))
}
