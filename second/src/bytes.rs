//! Bytes: the schedules of docs/RANDOM.md with every pair of bytes as a processor's digits, and with every byte at every
//! place of the first two lines; and what is printed of their logs.

use crate::bench;
use crate::random;
use std::panic::catch_unwind;

/// The schedule whose first two lines get every byte at every place.
const THREE_STEPS: &[u8] = b"010001FE\n020100FD\n020100FD\n020100FD\n";
/// How many places that is, line feeds too.
const PLACES: u8 = 18;

/// A byte as a digit. The standard library is asked and not frame.rs: a fault there must not change the schedules that
/// are to show it.
pub fn digit(byte: u8) -> Option<u8> {
    (byte as char).to_digit(16).map(|value| value as u8)
}

/// The schedule of a pair.
fn pair(a: u8, b: u8) -> Vec<u8> {
    let check = match (digit(a), digit(b)) {
        (Some(high), Some(low)) => (2 + 1u8).wrapping_add(16 * high + low).wrapping_neg(),
        _ => 0,
    };
    [b"010010EF\n0201", &[a, b][..], format!("{:02X}\n", check).as_bytes()].concat()
}

/// The schedule of a byte at a place.
fn place(at: u8, b: u8) -> Vec<u8> {
    let mut text = THREE_STEPS.to_vec();
    text[at as usize] = b;
    text
}

/// The printed lines in order: the number of each, and its 256 schedules.
fn lines() -> impl Iterator<Item = (u8, Vec<Vec<u8>>)> {
    let pairs = (0..=255).map(|a| (a, (0..=255).map(|b| pair(a, b)).collect()));
    let places = (0..PLACES).map(|at| (at, (0..=255).map(|b| place(at, b)).collect()));
    pairs.chain(places)
}

/// All schedules, in order.
pub fn schedules() -> impl Iterator<Item = Vec<u8>> {
    lines().flat_map(|(_, schedules)| schedules)
}

/// A log, or nothing where the bench fails in the middle, as it can on a line that should have been refused.
fn log(schedule: &[u8]) -> Vec<u8> {
    catch_unwind(|| bench::log(schedule)).unwrap_or_default()
}

pub fn print() -> String {
    let mut text = String::new();
    for (number, schedules) in lines() {
        let logs = schedules.iter().map(|schedule| log(schedule)).collect::<Vec<_>>().concat();
        text += &format!("{} {} {}\n", number, logs.len(), random::digest(&logs));
    }
    text
}
