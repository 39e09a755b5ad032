//! The bench: the bytes of a schedule in, the bytes of its log out.

use crate::frame;
use crate::lock::{Lock, Row};

/// The most bytes of a schedule: 6,001 lines.
pub const MOST_BYTES: usize = 54_009;
/// Refusal 1: the schedule has over 54,009 bytes.
pub const REFUSED_SCHEDULE: u8 = 1;

/// What happened in one accepted event.
pub struct Happening<'a> {
    pub event: u8,
    pub processor: u8,
    pub entry: bool,
    pub before: &'a Lock,
    pub after: &'a Lock,
}

/// The log of a schedule.
pub fn log(schedule: &[u8]) -> Vec<u8> {
    follow(schedule, |_| ()).0
}

/// The log of a schedule, and the refusal that ended it, or 0. `watch` sees each accepted event.
pub fn follow<W: FnMut(&Happening)>(schedule: &[u8], watch: W) -> (Vec<u8>, u8) {
    // Each 9-byte line gives at most one 17-byte line; the last line written may come on top.
    let mut out = Vec::with_capacity(2 * schedule.len().min(MOST_BYTES) + 32);
    let refusal = match run(schedule, &mut out, watch) {
        Ok(()) => 0,
        Err((refusal, line)) => {
            let [high, low] = line.to_be_bytes();
            frame::write(&mut out, &[5, refusal, high, low]);
            refusal
        }
    };
    (out, refusal)
}

/// Writes all but a 05 line. A refusal comes with its line, the first being line 1.
pub fn run<W: FnMut(&Happening)>(schedule: &[u8], out: &mut Vec<u8>, mut watch: W) -> Result<(), (u8, u16)> {
    if schedule.len() > MOST_BYTES {
        return Err((REFUSED_SCHEDULE, 0));
    }

    let [first, edition, n, _] = frame::read(schedule, 1).map_err(|refusal| (refusal, 1))?;
    let mut lock = Lock::fresh(edition, n).map_err(|refusal| (refusal, 1))?;
    // Request [3]: line 1 as the writer gives it, and not the bytes that were read.
    frame::write(out, &[first, edition, n]);

    let mut line = 1;
    let mut count: u16 = 0;
    let mut left = &schedule[frame::LINE..];
    while !left.is_empty() {
        line += 1;
        let [_, event, processor, _] = frame::read(left, 2).map_err(|refusal| (refusal, line))?;
        let before = lock;
        let entry = lock.event(event, processor).map_err(|refusal| (refusal, line))?;
        write_row(out, &lock, processor, entry);
        watch(&Happening { event, processor, entry, before: &before, after: &lock });
        count += 1;
        left = &left[frame::LINE..];
    }

    let [high, low] = count.to_be_bytes();
    frame::write(out, &[4, high, low]);
    Ok(())
}

/// The 03 line: the processor's own row as it is after the event.
pub fn write_row(out: &mut Vec<u8>, lock: &Lock, processor: u8, entry: bool) {
    let row: &Row = &lock.rows[processor as usize];
    let marks = row.flag as u8 + 2 * row.guard as u8 + 4 * entry as u8;
    frame::write(out, &[3, processor, row.place, lock.tail, row.locked, row.next, marks]);
}
