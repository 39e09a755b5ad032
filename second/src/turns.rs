//! Turns: the tables of edges.rs. First the tests that turn at a number, then the places, what they need, and the rows
//! that must be as fresh. Every number in them must reach the least.

use crate::cell::{Cell, PRIVATE_CELLS, ROW_CELLS};
use crate::edges::{Asked, Edges, Test};
use crate::handed::{edition_has, needs};
use crate::lock::*;
use crate::report::Report;

/// How often each side of each test must be met.
pub const LEAST: u64 = 5;

/// A value at which a test turns.
enum Value {
    Is(u8),
    N,
    BeforeN,
}

impl Value {
    fn words(&self) -> String {
        match *self {
            Value::Is(NONE) => "none".to_string(),
            Value::Is(v) => v.to_string(),
            Value::N => "N".to_string(),
            Value::BeforeN => "N - 1".to_string(),
        }
    }

    fn is(&self, asked: &Asked) -> bool {
        match *self {
            Value::Is(v) => asked.value == v,
            Value::N => asked.value == asked.n,
            Value::BeforeN => asked.value as u16 + 1 == asked.n as u16,
        }
    }
}

use Value::{BeforeN, Is, N};

/// Where a test turns: a value that fails it, and the one beside it that meets it.
struct Turn {
    words: &'static str,
    test: Test,
    fails: Value,
    meets: Value,
}

const fn turn(words: &'static str, test: Test, fails: Value, meets: Value) -> Turn {
    Turn { words, test, fails, meets }
}

/// A cell that is none or below N turns at two ends.
const fn at_n(words: &'static str, cell: Cell) -> Turn {
    turn(words, Test::NoneOrBelow(cell), N, BeforeN)
}

const fn at_none(words: &'static str, cell: Cell) -> Turn {
    turn(words, Test::NoneOrBelow(cell), Is(NONE - 1), Is(NONE))
}

const TURNS: &[Turn] = &[
    turn("edition in range", Test::Edition, Is(LAST_EDITION + 1), Is(LAST_EDITION)),
    turn("N not 0", Test::NotZero, Is(0), Is(1)),
    turn("N at most 16", Test::AtMost, Is(MOST + 1), Is(MOST)),
    at_n("L none or below N", Cell::Tail),
    at_none("L none or below N", Cell::Tail),
    at_n("next none or below N", Cell::Next),
    at_none("next none or below N", Cell::Next),
    at_n("pred none or below N", Cell::Pred),
    at_none("pred none or below N", Cell::Pred),
    at_n("succ none or below N", Cell::Succ),
    at_none("succ none or below N", Cell::Succ),
    at_n("nx none or below N", Cell::Nx),
    at_none("nx none or below N", Cell::Nx),
    turn("locked 0 to 3", Test::Locked, Is(R_P + 1), Is(R_P)),
    turn("event 1 or 2", Test::Event, Is(STEP - 1), Is(STEP)),
    turn("event 1 or 2", Test::Event, Is(RAISE + 1), Is(RAISE)),
    turn("processor below N", Test::Processor, N, BeforeN),
];

pub fn print(edges: &Edges, report: &mut Report) {
    print_turns(edges, report);
    print_places(edges, report);
    print_needs(edges, report);
    print_fresh(edges, report);
}

fn print_turns(edges: &Edges, report: &mut Report) {
    print_turns_of(edges, report, "a single test", TURNS, |_| true);
    // The old edition has the ranges of the others. The first turn is out: its edition is in range.
    let turns = &TURNS[1..];
    print_turns_of(edges, report, "in the old edition", turns, |a| a.edition == OLD);
    report.line("N not 0 is alone only where L is none and all rows are fresh: with N 0 every row is one from N on");
}

fn print_turns_of(edges: &Edges, report: &mut Report, head: &str, turns: &[Turn], counted: fn(&Asked) -> bool) {
    report.line("");
    report.line(&format!("{:<24}alone    of these at    just met at", head));
    for turn in turns {
        let asked = |a: &Asked| a.test == turn.test && counted(a);
        let alone = edges.alone.count(asked);
        let beside = edges.alone.count(|a| asked(a) && turn.fails.is(a));
        let met = edges.met.count(|a| asked(a) && turn.meets.is(a));
        let (fails, meets) = (turn.fails.words(), turn.meets.words());
        report.line(&format!("{:<22}{:>7}  {:>5}{:>8}  {:>6}{:>8}", turn.words, alone, fails, beside, meets, met));
        report.demand(beside, LEAST, &format!("{}, {}, alone at {}", head, turn.words, fails));
        report.demand(met, LEAST, &format!("{}, {}, just met at {}", head, turn.words, meets));
    }
}

/// The head of a table with a column for each edition.
fn editions(report: &mut Report, words: &str) {
    report.line("");
    report.line(words);
    let names: String = EDITIONS.iter().map(|name| format!("{:>20}", name)).collect();
    report.line(&format!("{:<16}{}", "", names));
}

fn place_words(place: u8) -> String {
    format!("{:>2} {}", place, PLACES[place as usize])
}

fn print_places(edges: &Edges, report: &mut Report) {
    editions(report, "each place is one its edition has: alone where it has not the place, met where it has");
    for place in REST..=LAST_PLACE {
        print_place(edges, report, &place_words(place), place, place);
    }
    let over = LAST_PLACE + 1;
    print_place(edges, report, &over.to_string(), over, over);
    print_place(edges, report, &format!("{} to 255", over + 1), over + 1, 255);
}

/// The line of the places from `first` to `last`, which every edition treats alike.
fn print_place(edges: &Edges, report: &mut Report, words: &str, first: u8, last: u8) {
    let mut line = format!("{:<16}", words);
    for edition in PLAIN..=LAST_EDITION {
        let wanted = |a: &Asked| a.edition == edition && a.test == Test::Place && (first..=last).contains(&a.value);
        let (count, side) = if edition_has(edition, first) {
            (edges.met.count(wanted), "met")
        } else {
            (edges.alone.count(wanted), "alone")
        };
        line += &format!("{:>14} {:<5}", count, side);
        report.demand(count, LEAST, &format!("{} of the {} edition, {}", words, EDITIONS[edition as usize], side));
    }
    report.line(line.trim_end());
}

fn print_needs(edges: &Edges, report: &mut Report) {
    editions(report, "what a place needs: alone where it is taken away, met with it and no other private cell");
    for place in REST..=LAST_PLACE {
        for &cell in PRIVATE_CELLS.iter().filter(|&&cell| needs(place, cell)) {
            let words = format!("{:<11}{}", place_words(place), cell.name());
            let mut line = format!("{:<16}", words);
            for edition in PLAIN..=LAST_EDITION {
                if edition_has(edition, place) {
                    let wanted = |a: &Asked| a.edition == edition && a.test == Test::Needs(place, cell);
                    let (alone, met) = (edges.alone.count(wanted), edges.met.count(wanted));
                    line += &format!("{:>5} alone{:>5} met", alone, met);
                    let name = EDITIONS[edition as usize];
                    report.demand(alone, LEAST, &format!("{} of the {} edition, alone", words, name));
                    report.demand(met, LEAST, &format!("{} of the {} edition, just met", words, name));
                } else {
                    line += &format!("{:>20}", "never alone");
                }
            }
            report.line(&line);
        }
    }
    report.line("never alone: the edition has not the place, so the test of the place fails too");
    print_not_needed(edges, report);
    print_needs_not(edges, report);
}

/// Every place that an edition has stands in some sound state without the private cells it does not need.
fn print_not_needed(edges: &Edges, report: &mut Report) {
    let mut least = u64::MAX;
    for edition in PLAIN..=LAST_EDITION {
        for place in (REST..=LAST_PLACE).filter(|&place| edition_has(edition, place)) {
            // A row without what it does not need is noted for all private cells alike.
            let wanted = |a: &Asked| a.edition == edition && a.test == Test::Needs(place, Cell::Pred);
            let met = edges.met.count(wanted);
            least = least.min(met);
            let name = EDITIONS[edition as usize];
            report.demand(met, LEAST, &format!("{} of the {} edition, with its needs only", place_words(place), name));
        }
    }
    report.line(&format!(
        "each place of each edition, met with what it needs and no other private cell: {} or more",
        least
    ));
}

/// The places of the old edition need no private cell, and of the last two of drawn only reread needs one, a succ.
fn print_needs_not(edges: &Edges, report: &mut Report) {
    report.line("");
    report.line("what the places of old, and the last two of drawn, need not: met without it, and met with it");
    let heads: String = PRIVATE_CELLS.iter().map(|cell| format!("{:>26}", cell.name())).collect();
    report.line(&format!("{:<16}{}", "", heads));
    let of_old = (REST..=LAST_PLACE).filter(|&place| edition_has(OLD, place)).map(|place| (OLD, place));
    for (edition, place) in of_old.chain([(DRAWN, REREAD), (DRAWN, LOST)]) {
        let mut line = format!("{:<16}", place_words(place));
        for &cell in PRIVATE_CELLS {
            if needs(place, cell) {
                line += &format!("{:>26}", "needed");
                continue;
            }
            for (value, side) in [(NONE, "without"), (0, "with")] {
                let test = Test::NeedsNot(place, cell);
                let wanted = |a: &Asked| a.edition == edition && a.test == test && a.value == value;
                let met = edges.met.count(wanted);
                line += &format!("{:>6} {}", met, side);
                let name = EDITIONS[edition as usize];
                let words = format!("{} of the {} edition, {} {}", place_words(place), name, side, cell.name());
                report.demand(met, LEAST, &words);
            }
        }
        report.line(&line);
    }
}

const LAST_ROW: u8 = MOST - 1;

/// Which row it is, by its number and N.
type Which = (&'static str, fn(u8, u8) -> bool);

/// The rows that must be as fresh. Row N and row 15 are told apart, and so is the row that is both.
const FRESH_ROWS: [Which; 4] = [
    ("row N", |row, n| row == n && n < LAST_ROW),
    ("between", |row, n| row > n && row < LAST_ROW),
    ("row 15", |row, n| row == LAST_ROW && n < LAST_ROW),
    ("both, N 15", |row, n| row == LAST_ROW && n == LAST_ROW),
];
/// The last row in use, which need not.
const USED_ROWS: [Which; 2] = [("row N - 1", |_, n| n < MOST), ("row 15, N 16", |_, n| n == MOST)];

fn print_fresh(edges: &Edges, report: &mut Report) {
    report.line("");
    report.line(
        "rows from N on are as fresh: alone where one cell of one row is not, met where it is of the last row in use",
    );
    let heads: String = FRESH_ROWS.iter().map(|(head, _)| format!("{:>11}", head)).collect();
    let used_heads: String = USED_ROWS.iter().map(|(head, _)| format!("{:>16}", head)).collect();
    report.line(&format!("{:<8}{}{}", "", heads, used_heads));
    for &cell in ROW_CELLS {
        let is = |a: &Asked, which: fn(u8, u8) -> bool| match a.test {
            Test::Fresh(row, asked) => asked == cell && which(row, a.n),
            _ => false,
        };
        let mut line = format!("{:<8}", cell.name());
        for &(head, which) in &FRESH_ROWS {
            let count = edges.alone.count(|a| is(a, which));
            line += &format!("{:>11}", count);
            report.demand(count, LEAST, &format!("{} not as fresh, alone, {}", cell.name(), head));
        }
        for &(head, which) in &USED_ROWS {
            let count = edges.met.count(|a| is(a, which));
            line += &format!("{:>12} met", count);
            report.demand(count, LEAST, &format!("{} not as fresh, just met, {}", cell.name(), head));
        }
        report.line(&line);
    }
    report.line("no other test is alone in such a row: what fails it is not as fresh");
}
