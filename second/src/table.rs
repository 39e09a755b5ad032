//! Table: the 16 by 16 counts of request [4], carried from schedule to schedule. Row a and column b hold how many
//! entries of a fell between a join of b and the entry that join led to.

use crate::lock::MOST;

/// Refusal 12: a count would pass 4,294,967,295.
pub const REFUSED_COUNT: u8 = 12;

#[derive(Clone, Copy, PartialEq, Eq)]
pub struct Table {
    pub counts: [[u32; MOST as usize]; MOST as usize],
}

impl Table {
    pub const ZERO: Table = Table { counts: [[0; MOST as usize]; MOST as usize] };

    /// The counts, row after row.
    pub fn cells(&self) -> impl Iterator<Item = u32> + '_ {
        self.counts.iter().flatten().copied()
    }

    /// The two added cell by cell, or refusal 12.
    pub fn plus(&self, more: &Table) -> Result<Table, u8> {
        let mut sum = *self;
        for (count, more) in sum.counts.iter_mut().flatten().zip(more.cells()) {
            *count = count.checked_add(more).ok_or(REFUSED_COUNT)?;
        }
        Ok(sum)
    }
}
