//! The lock: its state, its limits, the two events, and refusals 6 to 9 and 11.
//! The step table stands in step.rs, soundness in sound.rs.

/// No processor.
pub const NONE: u8 = 255;
/// The most processors, and so the number of rows.
pub const MOST: u8 = 16;

pub const PLAIN: u8 = 0;
pub const DRAWN: u8 = 1;
pub const GUARDED: u8 = 2;
pub const OLD: u8 = 3;
pub const LAST_EDITION: u8 = OLD;
pub const EDITIONS: [&str; LAST_EDITION as usize + 1] = ["plain", "drawn", "guarded", "old"];

pub const STEP: u8 = 1;
pub const RAISE: u8 = 2;

pub const RELEASED: u8 = 0;
pub const LOCKED: u8 = 1;
pub const PREEMPTED: u8 = 2;
/// Released while preempted.
pub const R_P: u8 = 3;

pub const REST: u8 = 0;
pub const GATE: u8 = 1;
pub const CLEAR: u8 = 2;
pub const SWAP: u8 = 3;
pub const ARM: u8 = 4;
pub const LINK: u8 = 5;
pub const CLAIM: u8 = 6;
pub const SPIN: u8 = 7;
pub const SETTLE: u8 = 8;
pub const INSIDE: u8 = 9;
pub const POLL: u8 = 10;
pub const SERVICE: u8 = 11;
pub const BACK: u8 = 12;
pub const REGAIN: u8 = 13;
pub const LOOK: u8 = 14;
pub const CLOSE: u8 = 15;
pub const AWAIT: u8 = 16;
pub const HAND: u8 = 17;
pub const FENCE: u8 = 18;
pub const PARK: u8 = 19;
pub const PEEK: u8 = 20;
pub const TAKE: u8 = 21;
pub const LIFT: u8 = 22;
pub const TRY: u8 = 23;
pub const OLD_POLL: u8 = 24;
pub const OLD_SERVICE: u8 = 25;
pub const FREE: u8 = 26;
pub const REREAD: u8 = 27;
pub const LOST: u8 = 28;
pub const LAST_PLACE: u8 = LOST;
pub const PLACES: [&str; LAST_PLACE as usize + 1] = [
    "rest", "gate", "clear", "swap", "arm", "link", "claim", "spin", "settle", "inside", "poll", "service", "back",
    "regain", "look", "close", "await", "hand", "fence", "park", "peek", "take", "lift", "try", "poll", "service",
    "free", "reread", "lost",
];

/// Refusal 6: edition over 3.
pub const REFUSED_EDITION: u8 = 6;
/// Refusal 7: N is 0 or over 16.
pub const REFUSED_N: u8 = 7;
/// Refusal 8: event neither 1 nor 2.
pub const REFUSED_EVENT: u8 = 8;
/// Refusal 9: processor not below N.
pub const REFUSED_PROCESSOR: u8 = 9;
/// Refusal 11: the state handed in isn't sound.
pub const REFUSED_STATE: u8 = 11;

#[derive(Clone, Copy, PartialEq, Eq, Hash, Debug)]
pub struct Row {
    pub next: u8,
    pub locked: u8,
    pub guard: bool,
    pub flag: bool,
    pub place: u8,
    pub pred: u8,
    pub succ: u8,
    pub nx: u8,
}

pub const FRESH_ROW: Row =
    Row { next: NONE, locked: RELEASED, guard: false, flag: false, place: REST, pred: NONE, succ: NONE, nx: NONE };

#[derive(Clone, Copy, PartialEq, Eq, Hash, Debug)]
pub struct Lock {
    pub edition: u8,
    pub n: u8,
    /// L, the tail cell.
    pub tail: u8,
    pub rows: [Row; MOST as usize],
}

impl Lock {
    /// The fresh state, or refusal 6 or 7.
    pub fn fresh(edition: u8, n: u8) -> Result<Lock, u8> {
        if edition > LAST_EDITION {
            return Err(REFUSED_EDITION);
        }
        if n == 0 || n > MOST {
            return Err(REFUSED_N);
        }
        Ok(Lock { edition, n, tail: NONE, rows: [FRESH_ROW; MOST as usize] })
    }

    /// Carries out one event and says whether it was an entry; or refusal 8 or 9, and nothing changes.
    /// Soundness is not asked here: a run from fresh meets sound states only.
    pub fn event(&mut self, event: u8, processor: u8) -> Result<bool, u8> {
        if event != STEP && event != RAISE {
            return Err(REFUSED_EVENT);
        }
        if processor >= self.n {
            return Err(REFUSED_PROCESSOR);
        }
        if event == RAISE {
            self.rows[processor as usize].flag = true;
            return Ok(false);
        }
        self.step(processor);
        // No step starts and ends at 9, so ending there is enough.
        Ok(self.rows[processor as usize].place == INSIDE)
    }

    /// The same on a state handed in, which may be any: refusal 11 comes before 8 and 9.
    pub fn event_handed(&mut self, event: u8, processor: u8) -> Result<bool, u8> {
        if !self.sound() {
            return Err(REFUSED_STATE);
        }
        self.event(event, processor)
    }
}
