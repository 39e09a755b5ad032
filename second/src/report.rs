//! Report: a text in the making, with the numbers in it that had to be reached and were not.

#[derive(Default)]
pub struct Report {
    pub text: String,
    pub missed: Vec<String>,
}

impl Report {
    pub fn line(&mut self, words: &str) {
        self.text += words;
        self.text += "\n";
    }

    /// A line of words and their number.
    pub fn number(&mut self, words: &str, number: u64) {
        self.line(&format!("{:<64}{:>7}", words, number));
    }

    /// The head of a table with a column for the random schedules and one for those of bytes.rs.
    pub fn head(&mut self, words: &str) {
        self.line(&format!("{:<58}{:>9}{:>9}", words, "random", "bytes"));
    }

    /// A line of it.
    pub fn columns(&mut self, words: &str, numbers: [u64; 2]) {
        self.line(&format!("{:<58}{:>9}{:>9}", words, numbers[0], numbers[1]));
    }

    /// Notes a count that is below the least wanted of it.
    pub fn demand(&mut self, count: u64, least: u64, what: &str) {
        if count < least {
            self.missed.push(format!("met {} times, wanted {}: {}", count, least, what));
        }
    }

    /// Notes a count of what must not be.
    pub fn forbid(&mut self, count: u64, what: &str) {
        if count > 0 {
            self.missed.push(format!("met {} times, wanted none: {}", count, what));
        }
    }

    /// The text, ended by what was missed or else by the words for nothing missed; and whether that is so.
    pub fn end(mut self, nothing_missed: &str) -> (String, bool) {
        let good = self.missed.is_empty();
        for words in std::mem::take(&mut self.missed) {
            self.line(&words);
        }
        if good {
            self.line(nothing_missed);
        }
        (self.text, good)
    }
}
