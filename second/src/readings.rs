//! Readings: which digits the reader meets in the random schedules and in those of bytes.rs, in which case the lines are
//! that it takes, and for which bytes it gives refusal 3.

use crate::bench;
use crate::bytes::{self, digit};
use crate::frame::*;
use crate::random;
use crate::report::Report;
use std::collections::HashSet;

const DIGITS: &[u8] = b"0123456789ABCDEFabcdef";
/// How many bytes are no digits, and at how many places of line 1 and of a later line each is tried.
const NO_DIGITS: usize = 256 - DIGITS.len();
const PLACES: usize = 2 * (LINE - 1);

/// A kind of text: of an accepted line's eight, or of a schedule.
type Kind = (&'static str, fn(&[u8]) -> bool);

/// Every accepted line has a letter, as its check is one from EC to FE.
const CASES: [Kind; 3] = [
    ("all letters upper", |text| !has_lower(text)),
    ("all letters lower", |text| has_lower(text) && !has_upper(text)),
    ("letters of both cases", |text| has_lower(text) && has_upper(text)),
];

const PAIRS: [Kind; 2] = [
    ("accepted, an upper and a lower letter in one pair", |eight| {
        eight.chunks(2).any(|pair| has_upper(&pair[..1]) && has_lower(&pair[1..]))
    }),
    ("accepted, a lower and an upper letter in one pair", |eight| {
        eight.chunks(2).any(|pair| has_lower(&pair[..1]) && has_upper(&pair[1..]))
    }),
];

fn has_lower(text: &[u8]) -> bool {
    text.iter().any(u8::is_ascii_lowercase)
}

fn has_upper(text: &[u8]) -> bool {
    text.iter().any(u8::is_ascii_uppercase)
}

/// The bytes that are no digits: those beside the three ranges, and the rest by what they are.
const STRANGERS: [(&str, fn(u8) -> bool); 10] = [
    ("/ (47), just before 0", |byte| byte == 47),
    (": (58), just after 9", |byte| byte == 58),
    ("@ (64), just before A", |byte| byte == 64),
    ("G (71), just after F", |byte| byte == 71),
    ("` (96), just before a", |byte| byte == 96),
    ("g (103), just after f", |byte| byte == 103),
    ("another letter, H to Z", |byte| (b'H'..=b'Z').contains(&byte)),
    ("another letter, h to z", |byte| (b'h'..=b'z').contains(&byte)),
    ("a byte above 127", |byte| byte > 127),
    ("the line feed", |byte| byte == b'\n'),
];

/// What the reader met in the schedules of one source.
struct Readings {
    /// By case.
    schedules: [u64; CASES.len()],
    /// Accepted lines, line 1 and later, by case.
    lines: [[u64; CASES.len()]; 2],
    /// Accepted lines that hold a byte.
    holding: [u64; 256],
    pairs: [u64; PAIRS.len()],
    /// Lines refused by 3, by the byte that is the only one of the eight that is no digit.
    refused: [u64; 256],
    /// Which byte that was, at which place, and whether of a later line.
    refused_at: HashSet<(bool, usize, u8)>,
    /// Lines with another refusal from 2 to 5 than the documents want.
    other: u64,
}

impl Readings {
    fn of(schedules: impl Iterator<Item = Vec<u8>>) -> Readings {
        let mut readings = Readings {
            schedules: [0; CASES.len()],
            lines: [[0; CASES.len()]; 2],
            holding: [0; 256],
            pairs: [0; PAIRS.len()],
            refused: [0; 256],
            refused_at: HashSet::new(),
            other: 0,
        };
        for schedule in schedules {
            readings.count(&schedule);
        }
        readings
    }

    fn count(&mut self, schedule: &[u8]) {
        count_kind(&mut self.schedules, &CASES, schedule);
        let (log, refusal) = bench::follow(schedule, |_| ());
        // Each accepted line has one in the log, and a 04 or 05 line comes after them.
        let accepted = log.iter().filter(|&&byte| byte == b'\n').count() - 1;
        for (i, line) in schedule.chunks(LINE).take(accepted).enumerate() {
            self.other += (wanted(line, i > 0) != 0) as u64;
            self.accepted(&line[..LINE - 1], i > 0);
        }
        if refusal == 0 || refusal == bench::REFUSED_SCHEDULE {
            return;
        }
        let line = schedule.chunks(LINE).nth(accepted).unwrap_or(&[]);
        // A refusal over 5 is given for a line that the reader takes.
        let given = if refusal > REFUSED_KIND { 0 } else { refusal };
        self.other += (wanted(line, accepted > 0) != given) as u64;
        if refusal == REFUSED_DIGIT {
            self.refused(&line[..LINE - 1], accepted > 0);
        }
    }

    fn accepted(&mut self, eight: &[u8], later: bool) {
        for &byte in DIGITS {
            self.holding[byte as usize] += eight.contains(&byte) as u64;
        }
        count_kind(&mut self.lines[later as usize], &CASES, eight);
        count_kind(&mut self.pairs, &PAIRS, eight);
    }

    fn refused(&mut self, eight: &[u8], later: bool) {
        let strangers: Vec<usize> = (0..eight.len()).filter(|&at| digit(eight[at]).is_none()).collect();
        if let [at] = strangers[..] {
            self.refused[eight[at] as usize] += 1;
            self.refused_at.insert((later, at, eight[at]));
        }
    }
}

/// Counts a text for each of the kinds it is of.
fn count_kind(counts: &mut [u64], kinds: &[Kind], text: &[u8]) {
    for (count, (_, is)) in counts.iter_mut().zip(kinds) {
        *count += is(text) as u64;
    }
}

/// The refusal from 2 to 5 that document 01 and request [3] want for a line, or 0.
fn wanted(line: &[u8], later: bool) -> u8 {
    if line.len() < LINE || line[LINE - 1] != b'\n' {
        return REFUSED_LINE;
    }
    let digits: Vec<u8> = line[..LINE - 1].iter().copied().filter_map(digit).collect();
    if digits.len() < LINE - 1 {
        return REFUSED_DIGIT;
    }
    let pairs: Vec<u32> = digits.chunks(2).map(|pair| 16 * pair[0] as u32 + pair[1] as u32).collect();
    if pairs.iter().sum::<u32>() % 256 != 0 {
        return REFUSED_CHECK;
    }
    if pairs[0] != 1 + later as u32 {
        return REFUSED_KIND;
    }
    0
}

/// The table of the two sources.
struct Table {
    random: Readings,
    bytes: Readings,
    report: Report,
}

impl Table {
    /// A line of both numbers; they are returned.
    fn line(&mut self, words: &str, count: impl Fn(&Readings) -> u64) -> [u64; 2] {
        let numbers = [count(&self.random), count(&self.bytes)];
        self.report.columns(words, numbers);
        numbers
    }

    /// A line of what must be met in the random schedules, whatever the others have.
    fn in_random(&mut self, words: &str, count: impl Fn(&Readings) -> u64) {
        let [random, _] = self.line(words, count);
        self.report.demand(random, 1, &format!("{}, random", words));
    }

    /// A line of what must be met in both sources.
    fn in_both(&mut self, words: &str, count: impl Fn(&Readings) -> u64) {
        let [random, bytes] = self.line(words, count);
        self.report.demand(random, 1, &format!("{}, random", words));
        self.report.demand(bytes, 1, &format!("{}, bytes", words));
    }

    /// A line of what must be met in one of them.
    fn in_either(&mut self, words: &str, count: impl Fn(&Readings) -> u64) {
        let numbers = self.line(words, count);
        self.report.demand(numbers.iter().sum(), 1, words);
    }
}

/// The table, and whether all that should be met is.
pub fn print() -> (String, bool) {
    let random = Readings::of(random::schedules());
    let bytes = Readings::of(bytes::schedules());
    let mut table = Table { random, bytes, report: Report::default() };
    table.report.head("what the reader meets");
    for (i, (case, _)) in CASES.into_iter().enumerate() {
        table.in_random(&format!("schedules, {}", case), |r| r.schedules[i]);
    }
    print_accepted(&mut table);
    print_refused(&mut table);
    table.report.end("every digit of either case is read, every mixture of cases, and every edge of refusal 3")
}

fn print_accepted(table: &mut Table) {
    for (later, which) in ["line 1", "a later line"].into_iter().enumerate() {
        for (i, (case, _)) in CASES.into_iter().enumerate() {
            table.in_random(&format!("accepted, {}, {}", which, case), |r| r.lines[later][i]);
        }
    }
    for (i, (words, _)) in PAIRS.into_iter().enumerate() {
        table.in_random(words, |r| r.pairs[i]);
    }
    for &byte in DIGITS {
        table.in_both(&format!("accepted, with the digit {}", byte as char), |r| r.holding[byte as usize]);
    }
}

fn print_refused(table: &mut Table) {
    for (words, is) in STRANGERS {
        let refused = |r: &Readings| (0..=255).filter(|&byte| is(byte)).map(|byte| r.refused[byte as usize]).sum();
        table.in_either(&format!("refused by 3 for {}", words), refused);
    }
    table.report.line("refused by 3 is counted here where the other seven of the eight are digits");
    let refused_at = table.bytes.refused_at.len();
    let all = NO_DIGITS * PLACES;
    let words = format!("each of {} bytes, refused by 3 at each place of line 1 and of a later line", NO_DIGITS);
    table.report.line(&format!("bytes: {}: {} of {}", words, refused_at, all));
    table.report.demand(refused_at as u64, all as u64, &words);
    let words = "lines with another refusal from 2 to 5 than wanted";
    let other = table.line(words, |r| r.other);
    table.report.forbid(other.iter().sum(), words);
}
