//! Filed: a report over files, each a schedule or a table in numbers, as docs/RANDOM.md says it.

use crate::bench;
use crate::lock::MOST;
use crate::table::Table;
use crate::waited::{self, Lent};
use std::ffi::{OsStr, OsString};
use std::fs::File;
use std::io::Read;
use std::os::unix::ffi::OsStrExt;

/// A number of a table has ten digits and a space, the last of a line a line feed in its place.
const DIGITS: usize = 10;
const NUMBER: usize = DIGITS + 1;
const NUMBERS: usize = MOST as usize;
const TABLE_BYTES: usize = NUMBERS * NUMBERS * NUMBER;

/// The line of each argument, then the table.
pub fn print(arguments: impl Iterator<Item = OsString>) -> String {
    let mut table = Table::ZERO;
    let mut text = String::new();
    for argument in arguments {
        let line = filed(argument.as_bytes(), &mut table);
        text += &line.unwrap_or_else(|| "unread".to_string());
        text += "\n";
    }
    text + &print_table(&table)
}

/// The line of an argument, if it can be read.
fn filed(argument: &[u8], table: &mut Table) -> Option<String> {
    match argument.split_first()? {
        (b's', path) => Some(schedule(&beginning(path, bench::MOST_BYTES + 1)?, table)),
        (b't', path) => Some(more(&read_table(&beginning(path, TABLE_BYTES + 1)?)?, table)),
        _ => None,
    }
}

/// A file's first bytes, up to `most`.
fn beginning(path: &[u8], most: usize) -> Option<Vec<u8>> {
    let file = File::open(OsStr::from_bytes(path)).ok()?;
    let mut bytes = Vec::new();
    file.take(most as u64).read_to_end(&mut bytes).ok()?;
    Some(bytes)
}

fn schedule(schedule: &[u8], table: &mut Table) -> String {
    let mut lent = [Lent::EMPTY; MOST as usize];
    let answer = waited::report(schedule, table, &mut lent);
    let mut line = format!("{} {} {}", answer.refusal, answer.line, answer.laid);
    for row in &lent[..answer.laid as usize] {
        line += &format!(" {} {} {}", row.entries, row.interrupts, row.joins);
    }
    line
}

/// Adds a table cell by cell, or nothing of it.
fn more(more: &Table, table: &mut Table) -> String {
    let refusal = match table.plus(more) {
        Ok(sum) => {
            *table = sum;
            0
        }
        Err(refusal) => refusal,
    };
    format!("{} 0 0", refusal)
}

fn print_table(table: &Table) -> String {
    let line = |row: &[u32; NUMBERS]| row.map(|count| format!("{:0width$}", count, width = DIGITS)).join(" ") + "\n";
    table.counts.iter().map(line).collect()
}

/// The table of a file, if it is one.
fn read_table(text: &[u8]) -> Option<Table> {
    if text.len() != TABLE_BYTES {
        return None;
    }
    let mut table = Table::ZERO;
    for (i, number) in text.chunks(NUMBER).enumerate() {
        let (row, column) = (i / NUMBERS, i % NUMBERS);
        let end = if column == NUMBERS - 1 { b'\n' } else { b' ' };
        if number[DIGITS] != end {
            return None;
        }
        table.counts[row][column] = read_number(&number[..DIGITS])?;
    }
    Some(table)
}

/// A number of ten digits, if it is one and is not over 4,294,967,295.
fn read_number(digits: &[u8]) -> Option<u32> {
    let mut value: u64 = 0;
    for &digit in digits {
        value = 10 * value + (digit as char).to_digit(10)? as u64;
    }
    u32::try_from(value).ok()
}
