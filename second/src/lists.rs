//! Lists: the lists of schedules of docs/RANDOM.md that are reported, each in two orders, and what is printed of the
//! answers.

use crate::lock::MOST;
use crate::random::{self, Random, CROWDED, SCHEDULES};
use crate::table::Table;
use crate::waited::{self, Answer, Lent};
use std::panic::catch_unwind;

/// How many lists there are.
pub const LISTS: u64 = 300;

/// In the place of a refusal when the report fails in the middle, as it can where it should have refused.
const FAILED: u8 = 255;

/// A schedule of a list: its number among the random ones, its text, and how many rows it is lent.
pub struct Item {
    pub number: u64,
    pub text: Vec<u8>,
    pub lent: usize,
}

pub struct List {
    pub items: Vec<Item>,
    /// The table it is reported from.
    pub start: Table,
    turn: usize,
}

/// What comes back for one schedule.
pub struct Reported {
    /// Which of the list it is.
    pub k: usize,
    pub answer: Answer,
    /// The table before and after it.
    pub before: Table,
    pub after: Table,
    /// All rows lent, as they then are.
    pub lent: Vec<Lent>,
}

/// List i. The draws stand in the order of the page.
pub fn list(i: u64) -> List {
    let random = &mut Random { x: (i * 7919 + 43) % 2147483648 };
    let size = 1 + random.draw(6);
    let items: Vec<Item> = (0..size).map(|_| item(random, i % 2 == 0)).collect();
    let start = start(random, &items[0].text);
    let turn = random.draw(size) as usize;
    List { items, start, turn }
}

/// The next schedule of a list. Those of an even list are not damaged and are lent all rows.
fn item(random: &mut Random, even: bool) -> Item {
    let crowded = random.draw(16) == 0;
    let drawn = if crowded { SCHEDULES + random.draw(CROWDED) } else { random.draw(SCHEDULES) };
    let number = if even { 4 * (drawn / 4) } else { drawn };
    let lent = if !even && random.draw(2) == 0 { random.draw(18) as usize } else { MOST as usize };
    Item { number, text: random::schedule(number), lent }
}

fn start(random: &mut Random, first: &[u8]) -> Table {
    let mut table = Table::ZERO;
    match random.draw(4) {
        0 | 1 => (),
        2 => table.counts.iter_mut().flatten().for_each(|count| *count = u32::MAX - random.draw(32) as u32),
        _ => fill_one(random, first, &mut table),
    }
    table
}

/// Fills the cell in which the first schedule alone counts most, so that its count is the last that fits, or the first
/// that does not.
fn fill_one(random: &mut Random, first: &[u8], table: &mut Table) {
    let (_, alone, _) = reported(first, MOST as usize, &Table::ZERO);
    let most = alone.cells().max().unwrap_or(0);
    // A refused report leaves all cells 0, and so cell 0 0 is the one.
    let cell = table.counts.iter_mut().flatten().zip(alone.cells()).find(|(_, count)| *count == most);
    let (cell, _) = cell.expect("some count is the greatest");
    *cell = if most == 0 { u32::MAX } else { u32::MAX - most + random.draw(2) as u32 };
}

/// The rows lent to a schedule.
pub fn rows(lent: usize) -> Vec<Lent> {
    let row = |r| Lent { entries: 3 * r + 1, interrupts: 3 * r + 2, joins: 3 * r + 3 };
    (0..lent as u32).map(row).collect()
}

/// The report of a schedule from a table: the answer, the table after it, and the rows lent as they then are.
fn reported(schedule: &[u8], lent: usize, before: &Table) -> (Answer, Table, Vec<Lent>) {
    let result = catch_unwind(|| {
        let (mut table, mut rows) = (*before, rows(lent));
        let answer = waited::report(schedule, &mut table, &mut rows);
        (answer, table, rows)
    });
    let failed = Answer { refusal: FAILED, line: 0, laid: 0 };
    result.unwrap_or_else(|_| (failed, *before, rows(lent)))
}

impl List {
    pub fn order(&self) -> Vec<usize> {
        (0..self.items.len()).collect()
    }

    /// The other order: from the turn down, then from the last down.
    pub fn other_order(&self) -> Vec<usize> {
        let after_turn = self.turn + 1..self.items.len();
        (0..=self.turn).rev().chain(after_turn.rev()).collect()
    }

    /// The reports of the list in an order.
    pub fn reports(&self, order: &[usize]) -> Vec<Reported> {
        let mut before = self.start;
        let next = |&k: &usize| {
            let (answer, after, lent) = reported(&self.items[k].text, self.items[k].lent, &before);
            Reported { k, answer, before: std::mem::replace(&mut before, after), after, lent }
        };
        order.iter().map(next).collect()
    }
}

/// How many are refused.
fn refused(reports: &[Reported]) -> usize {
    reports.iter().filter(|reported| reported.answer.refusal != 0).count()
}

/// The digest of the table at the end.
fn table_digest(reports: &[Reported]) -> u64 {
    let table = reports.last().expect("a list has a schedule").after;
    random::digest(&table.cells().flat_map(u32::to_be_bytes).collect::<Vec<_>>())
}

/// The digest of all answers.
fn answers_digest(reports: &[Reported]) -> u64 {
    let mut bytes = Vec::new();
    for Reported { answer, lent, .. } in reports {
        let [high, low] = answer.line.to_be_bytes();
        bytes.extend_from_slice(&[answer.refusal, high, low, answer.laid]);
        let numbers = lent.iter().flat_map(|row| [row.entries, row.interrupts, row.joins]);
        bytes.extend(numbers.flat_map(u32::to_be_bytes));
    }
    random::digest(&bytes)
}

/// The lines of all lists.
pub fn print() -> String {
    let mut text = String::new();
    for i in 0..LISTS {
        let list = list(i);
        let (first, other) = (list.reports(&list.order()), list.reports(&list.other_order()));
        text += &format!("{} {} {} {}", i, refused(&first), answers_digest(&first), table_digest(&first));
        text += &format!(" {} {}\n", refused(&other), table_digest(&other));
    }
    text
}
