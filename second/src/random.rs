//! The random schedules of docs/RANDOM.md, and what is printed of their logs.

use crate::bench;
use crate::case;
use crate::frame;
use crate::lock::OLD;

/// How many schedules are compared.
pub const SCHEDULES: u64 = 800;
/// From this number on they are crowded: all processors, and as many events as fit. Only reports use them.
const FIRST_CROWDED: u64 = SCHEDULES;
/// How many of those there are.
pub const CROWDED: u64 = 16;
/// The first of those that are of the old edition. Before it the other editions take turns.
const FIRST_OLD: u64 = 480;
/// The first of those that are in lower or mixed case. From it on all editions take turns.
pub const FIRST_LOWERED: u64 = 640;
/// What damage 8 puts in a digit's place there: the bytes just outside the digits' three ranges, a letter further off,
/// and an A with the high bit set.
const NO_DIGITS: [u8; 8] = [47, 58, 64, 71, 96, 103, 122, 193];

/// The generator.
pub struct Random {
    pub x: u64,
}

impl Random {
    pub fn draw(&mut self, k: u64) -> u64 {
        self.x = (self.x * 1103515245 + 12345) % 2147483648;
        (self.x / 32768) % k
    }
}

/// The edition that schedule i is made for. Damage may put another number in line 1.
pub fn edition(i: u64) -> u8 {
    if i < FIRST_OLD {
        (i % 3) as u8
    } else if i < FIRST_LOWERED {
        OLD
    } else {
        (i / 4 % 4) as u8
    }
}

/// What is drawn of a schedule before its lines.
struct Plan {
    i: u64,
    n: u64,
    count: u64,
    raises: u64,
    stay: u64,
    damage: u64,
    victim: u64,
    case: u64,
}

impl Plan {
    fn draw(i: u64, random: &mut Random) -> Plan {
        let crowded = i >= FIRST_CROWDED;
        let n = match crowded {
            true => 16,
            false if random.draw(2) == 0 => 1 + random.draw(16),
            false => 2 + random.draw(3),
        };
        let count = if crowded || i % 40 == 38 { 6000 } else { 20 + random.draw(480) };
        let raises = random.draw(4);
        let stay = 1 + random.draw(8);
        let damage = if i % 4 == 3 { 1 + random.draw(10) } else { 0 };
        let victim = 1 + random.draw(count);
        let case = if i < FIRST_LOWERED { 0 } else { 1 + random.draw(2) };
        Plan { i, n, count, raises, stay, damage, victim, case }
    }

    /// Line 1.
    fn header(&self, random: &mut Random, text: &mut Vec<u8>) {
        let mut edition_byte = edition(self.i);
        let mut n_byte = self.n as u8;
        if self.damage == 1 {
            edition_byte = 4 + random.draw(252) as u8;
        }
        if self.damage == 2 {
            n_byte = if random.draw(2) == 0 { 0 } else { 17 + random.draw(239) as u8 };
        }
        frame::write(text, &[1, edition_byte, n_byte]);
    }

    /// The later lines.
    fn events(&self, random: &mut Random, text: &mut Vec<u8>) {
        let mut p = 0;
        for j in 1..=self.count {
            if random.draw(self.stay) == 0 {
                p = random.draw(self.n);
            }
            let mut event = if random.draw(8) < self.raises { 2 } else { 1 };
            let mut first = 2;
            let mut processor = p;
            if j == self.victim {
                match self.damage {
                    3 => event = if random.draw(2) == 0 { 0 } else { 3 + random.draw(253) },
                    4 => processor = self.n + random.draw(256 - self.n),
                    5 => first = 3 + random.draw(253),
                    _ => (),
                }
            }
            frame::write(text, &[first as u8, event as u8, processor as u8]);
        }
    }

    /// The letters' case.
    fn recased(&self, random: &mut Random, text: Vec<u8>) -> Vec<u8> {
        match self.case {
            1 => case::lowered(&text),
            2 => case::lowered_as_drawn(&text, random),
            _ => text,
        }
    }

    /// The damage that is done to the text as a whole.
    fn damage_text(&self, random: &mut Random, text: &mut Vec<u8>) {
        let len = text.len() as u64;
        match self.damage {
            6 => {
                let at = random.draw(len);
                text[at as usize] = random.draw(256) as u8;
            }
            7 => {
                let cut = random.draw(len);
                text.truncate(cut as usize);
            }
            8 => {
                let line = random.draw(self.count + 1);
                let at = 9 * line + random.draw(8);
                text[at as usize] = self.no_digit(random);
            }
            9 => text.resize(bench::MOST_BYTES + 1, b'\n'),
            10 => {
                let at = 9 * self.victim + 7;
                let byte = &mut text[at as usize];
                *byte = if *byte == b'0' { b'1' } else { b'0' };
            }
            _ => (),
        }
    }

    fn no_digit(&self, random: &mut Random) -> u8 {
        if self.i < FIRST_LOWERED {
            58 + random.draw(7) as u8
        } else {
            NO_DIGITS[random.draw(8) as usize]
        }
    }
}

/// Schedule i. The draws stand in the order of the page.
pub fn schedule(i: u64) -> Vec<u8> {
    // The remainder is taken first too, so that no i is too large to multiply.
    let random = &mut Random { x: ((i % 2147483648) * 7919 + 17) % 2147483648 };
    let plan = Plan::draw(i, random);
    let mut text = Vec::with_capacity(bench::MOST_BYTES + 1);
    plan.header(random, &mut text);
    plan.events(random, &mut text);
    let mut text = plan.recased(random, text);
    plan.damage_text(random, &mut text);
    text
}

/// All schedules, in order.
pub fn schedules() -> impl Iterator<Item = Vec<u8>> {
    (0..SCHEDULES).map(schedule)
}

/// What is printed for all schedules.
pub fn print() -> Vec<u8> {
    let mut out = Vec::new();
    for (i, schedule) in (0..).zip(schedules()) {
        let log = bench::log(&schedule);
        out.extend_from_slice(format!("{} {} {}", i, log.len(), digest(&log)).as_bytes());
        if i >= FIRST_LOWERED {
            out.extend_from_slice(format!(" {}", digest(&schedule)).as_bytes());
        }
        out.push(b'\n');
        if i % 120 == 5 || i % 120 == 7 {
            out.extend_from_slice(&log);
        }
    }
    out
}

/// The digest of a log, of a schedule, or of other bytes.
pub fn digest(log: &[u8]) -> u64 {
    log.iter().fold(7, |h, &b| (h * 257 + b as u64 + 1) % 4294967291)
}
