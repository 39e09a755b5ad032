//! Turned: what the two orders of the lists show. Where no schedule is refused, adding them in another order gives the
//! same table.

use crate::lists::{List, Reported};
use crate::report::Report;

/// What the two orders of the lists show.
#[derive(Default)]
pub struct Orders {
    lists: u64,
    /// Lists in which nothing is refused, and of these those whose other order is another.
    accepted: u64,
    accepted_turned: u64,
    /// Of these, and of all, those whose other order refuses something else, or ends with another table.
    accepted_differ: u64,
    refused_differ: u64,
    tables_differ: u64,
    /// The other order refuses the same, and ends with another table.
    same_differ: u64,
}

impl Orders {
    pub fn add(&mut self, list: &List, first: &[Reported], other: &[Reported]) {
        let order = list.other_order();
        let refused_differ = other.iter().any(|reported| first[reported.k].answer != reported.answer);
        let tables_differ = first.last().map(|r| r.after) != other.last().map(|r| r.after);
        let accepted = first.iter().all(|reported| reported.answer.refusal == 0);
        self.lists += 1;
        self.accepted += accepted as u64;
        self.accepted_turned += (accepted && order != list.order()) as u64;
        self.accepted_differ += (accepted && (refused_differ || tables_differ)) as u64;
        self.refused_differ += refused_differ as u64;
        self.tables_differ += tables_differ as u64;
        self.same_differ += (!refused_differ && tables_differ) as u64;
    }

    pub fn print(&self, report: &mut Report) {
        let demanded = [
            ("lists", self.lists),
            ("lists in which nothing is refused", self.accepted),
            ("of these, the other order is another", self.accepted_turned),
        ];
        for (words, number) in demanded {
            report.number(words, number);
            report.demand(number, 1, words);
        }
        let forbidden = [
            ("of these, it refuses something, or ends with another table", self.accepted_differ),
            ("lists whose other order refuses the same, and ends otherwise", self.same_differ),
        ];
        for (words, number) in forbidden {
            report.number(words, number);
            report.forbid(number, words);
        }
        report.number("lists whose other order refuses something else", self.refused_differ);
        report.number("lists whose other order ends with another table", self.tables_differ);
    }
}
