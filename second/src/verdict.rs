//! The verdict of a run: who waited, how long, and who was passed over. docs/RANDOM.md says how it is counted.

use crate::bench::{self, Happening};
use crate::frame;
use crate::lock::*;
use crate::random;

/// An entry of another processor in a stretch.
#[derive(Clone, Copy)]
pub struct Entry {
    pub processor: u8,
    /// The line of that processor's latest join, or first try.
    pub joined: u64,
    pub line: u64,
}

/// How a stretch ends, with the line of that end.
#[derive(Clone, Copy)]
pub enum End {
    Entered(u64),
    Again(u64),
    Open,
}

/// A join with its stretch. In the old edition, which has no joins, it is a first try.
pub struct Stretch {
    pub processor: u8,
    pub joined: u64,
    pub end: End,
    /// The line of the first interrupt taken, or 0.
    pub interrupt: u64,
    /// The entries waited through.
    pub entries: Vec<Entry>,
}

impl Stretch {
    pub fn overtakings(&self) -> impl Iterator<Item = &Entry> + '_ {
        self.entries.iter().filter(move |entry| entry.joined > self.joined)
    }

    /// Whether no interrupt was taken in the stretch before a line.
    pub fn undisturbed(&self, line: u64) -> bool {
        self.interrupt == 0 || line < self.interrupt
    }

    fn print(&self, word: &str) -> String {
        let (end, line) = match self.end {
            End::Entered(line) => ("entered", line),
            End::Again(line) => ("again", line),
            End::Open => ("open", 0),
        };
        let (p, joined, waited) = (self.processor, self.joined, self.entries.len());
        let mut text = format!("{} {} {} {} {} {} {}", word, p, joined, end, line, waited, self.interrupt);
        for entry in self.overtakings() {
            text += &format!(" {} {} {}", entry.processor, entry.joined, entry.line);
        }
        text + "\n"
    }
}

/// What a run shows.
#[derive(Default)]
pub struct Verdict {
    pub edition: u8,
    pub n: u8,
    /// The line of the latest event. Line 1 is the header.
    line: u64,
    letters: String,
    pub stretches: Vec<Stretch>,
    /// For each processor the index of its latest stretch, and whether that stretch still goes on.
    latest: [Option<(usize, bool)>; MOST as usize],
    /// For each processor the place where its latest step began.
    came_from: [u8; MOST as usize],
    pub entries: u64,
    pub interrupts: u64,
    /// The most inside at once.
    pub inside: u64,
    /// The lines where a step and a raise give the same 03 line but not the same state.
    unlike: Vec<u64>,
}

impl Verdict {
    fn new() -> Verdict {
        Verdict { line: 1, came_from: [REST; MOST as usize], ..Verdict::default() }
    }

    fn event(&mut self, h: &Happening) {
        self.line += 1;
        self.letter(h);
        let inside = h.after.rows.iter().filter(|row| row.place == INSIDE).count() as u64;
        self.inside = self.inside.max(inside);
        if h.event != STEP {
            return;
        }
        let from = h.before.rows[h.processor as usize].place;
        let to = h.after.rows[h.processor as usize].place;
        let came_from = std::mem::replace(&mut self.came_from[h.processor as usize], from);
        // The join comes before the entry: if the swap or the first try finds no one, one step is both.
        if from == SWAP || from == TRY && came_from == REST {
            self.join(h.processor);
        }
        if matches!((from, to), (POLL, SERVICE) | (OLD_POLL, OLD_SERVICE)) {
            self.interrupt(h.processor);
        }
        if h.entry {
            self.entry(h.processor);
        }
    }

    /// The letter of an event does not ask what it is alone, but also what the other event would have given.
    fn letter(&mut self, h: &Happening) {
        let (step, step_line) = tried(h.before, STEP, h.processor);
        let (raise, raise_line) = tried(h.before, RAISE, h.processor);
        let same = step_line == raise_line;
        if same && step != raise {
            self.unlike.push(self.line);
        }
        self.letters.push(match h.event {
            _ if same => 'b',
            STEP => 's',
            _ => 'r',
        });
    }

    fn join(&mut self, p: u8) {
        self.close(p, End::Again(self.line));
        self.latest[p as usize] = Some((self.stretches.len(), true));
        let joined = self.line;
        self.stretches.push(Stretch { processor: p, joined, end: End::Open, interrupt: 0, entries: Vec::new() });
    }

    fn interrupt(&mut self, p: u8) {
        self.interrupts += 1;
        if let Some((latest, true)) = self.latest[p as usize] {
            let stretch = &mut self.stretches[latest];
            if stretch.interrupt == 0 {
                stretch.interrupt = self.line;
            }
        }
    }

    fn entry(&mut self, p: u8) {
        self.entries += 1;
        self.close(p, End::Entered(self.line));
        // Nobody enters without a join or a first try, so there is a latest stretch.
        let joined = self.latest[p as usize].map_or(0, |(latest, _)| self.stretches[latest].joined);
        // Its own stretch is closed, so those that go on are of others.
        for &(other, open) in self.latest.iter().flatten() {
            if open {
                self.stretches[other].entries.push(Entry { processor: p, joined, line: self.line });
            }
        }
    }

    /// Ends the stretch of p that goes on, if there is one.
    fn close(&mut self, p: u8, end: End) {
        if let Some((latest, open)) = &mut self.latest[p as usize] {
            if *open {
                self.stretches[*latest].end = end;
                *open = false;
            }
        }
    }

    fn print(&self) -> String {
        let letters = if self.letters.is_empty() { "none" } else { &self.letters };
        let word = if self.edition == OLD { "try" } else { "join" };
        let stretches: String = self.stretches.iter().map(|stretch| stretch.print(word)).collect();
        format!("run {} {} {}\nacts {}\n{}", self.edition, self.n, self.line - 1, letters, stretches)
    }
}

/// The state after an event is tried, and its 03 line.
fn tried(before: &Lock, event: u8, p: u8) -> (Lock, Vec<u8>) {
    let mut after = *before;
    let entry = after.event(event, p).expect("the event was accepted");
    let mut line = Vec::new();
    bench::write_row(&mut line, &after, p, entry);
    (after, line)
}

/// The verdict of a schedule, if there is a run.
pub fn of(schedule: &[u8]) -> Option<Verdict> {
    let mut verdict = Verdict::new();
    let (log, _) = bench::follow(schedule, |h| verdict.event(h));
    // The log begins with the header's numbers, unless line 1 is refused; then it is a 05 line, which is no such line.
    let [_, edition, n, _] = frame::read(&log, 1).ok()?;
    Some(Verdict { edition, n, ..verdict })
}

/// What is printed of a schedule, or a message where a letter `b` hides a difference.
pub fn print(schedule: &[u8]) -> Result<String, String> {
    match of(schedule) {
        None => Ok(String::new()),
        Some(verdict) => match verdict.unlike.first() {
            None => Ok(verdict.print()),
            Some(line) => Err(format!("line {}: step and raise give one 03 line and two states", line)),
        },
    }
}

/// The same for the random schedules.
pub fn print_all() -> Result<String, String> {
    let mut text = String::new();
    for i in 0..random::SCHEDULES {
        let verdict = print(&random::schedule(i)).map_err(|message| format!("schedule {}, {}", i, message))?;
        text += &format!("schedule {}\n{}", i, verdict);
    }
    Ok(text)
}
