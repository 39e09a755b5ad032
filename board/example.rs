//! example.rs: document 01's worked example from Rust, and a report of two processors that take turns. Prints the log of the
//! first, then what each did in the second and who made whom wait.

use std::io::Write;

/// Row a, column b: how many entries of a made b wait.
type Table = [[u32; 16]; 16];

extern "C" {
    fn pontivesca_room(bytes: usize) -> usize;
    fn pontivesca_log(schedule: *const u8, bytes: usize, out: *mut u8, room: usize) -> usize;
    fn pontivesca_line(kind: u8, first: u8, second: u8, out: *mut u8, room: usize) -> usize;
    fn pontivesca_report(
        schedule: *const u8,
        bytes: usize,
        table: *mut Table,
        rows: *mut u32,
        numbers: usize,
        line: *mut usize,
    ) -> u8;
}

/// The log of a schedule.
fn log(schedule: &[u8]) -> Vec<u8> {
    // The slices are what they say, and the buffer has the room, so the answer is never 0.
    unsafe {
        let mut out = vec![0; pontivesca_room(schedule.len())];
        let length = pontivesca_log(schedule.as_ptr(), schedule.len(), out.as_mut_ptr(), out.len());
        out.truncate(length);
        out
    }
}

/// A line of a schedule.
fn line(kind: u8, first: u8, second: u8) -> [u8; 9] {
    let mut out = [0; 9];
    // The slice is what it says, and has the room.
    unsafe { pontivesca_line(kind, first, second, out.as_mut_ptr(), out.len()) };
    out
}

/// Adds a schedule's counts to a table, and lays its entries, interrupts and joins into the lent rows, one for each processor;
/// or answers the refusal and its line, and leaves both.
fn report(schedule: &[u8], table: &mut Table, rows: &mut [[u32; 3]]) -> Result<(), (u8, usize)> {
    let mut line = 0;
    // The slices are what they say: a row is three numbers. No two of them share a byte.
    let refusal = unsafe {
        pontivesca_report(schedule.as_ptr(), schedule.len(), table, rows.as_mut_ptr().cast(), 3 * rows.len(), &mut line)
    };
    if refusal == 0 { Ok(()) } else { Err((refusal, line)) }
}

/// A schedule of the plain edition: so many steps of a processor, one after the other.
fn plain(n: u8, steps: &[(usize, u8)]) -> Vec<u8> {
    let mut schedule = line(1, 0, n).to_vec();
    for &(times, processor) in steps {
        schedule.extend(line(2, 1, processor).repeat(times));
    }
    schedule
}

fn main() -> std::io::Result<()> {
    let mut out = std::io::stdout().lock();
    out.write_all(&log(&plain(1, &[(3, 0)])))?;

    // 1 enters, 0 joins, 1 hands on and joins again behind 0, 0 enters and hands on, 1 enters: one entry of 0 falls between the
    // second join of 1 and its entry
    let mut table = [[0; 16]; 16];
    let mut rows = [[0; 3]; 2];
    let schedule = plain(2, &[(3, 1), (5, 0), (3, 1), (5, 1), (4, 0), (1, 1)]);
    report(&schedule, &mut table, &mut rows).expect("the schedule is not refused");
    for (p, [entries, interrupts, joins]) in rows.iter().enumerate() {
        writeln!(out, "processor {}: entries {}, interrupts {}, joins {}", p, entries, interrupts, joins)?;
    }
    for (a, row) in table.iter().enumerate() {
        for (b, &count) in row.iter().enumerate().filter(|(_, &count)| count > 0) {
            writeln!(out, "entries of {} that made {} wait: {}", a, b, count)?;
        }
    }
    Ok(())
}
