//! Where the lines lay that answers named: a tally for the report, so that a reader sees that bad lines
//! at the start, in the middle and at the end occurred, and sheets with several. It judges nothing.

use std::fmt;

/// The lines named by the answers of one call with one number.
#[derive(Clone, Copy, Default)]
pub struct Offending {
    /// The sheet has only this line.
    only: u64,
    first: u64,
    between: u64,
    last: u64,
    /// A later line is bad too.
    further: u64,
    largest: usize,
}

impl Offending {
    /// One more: `line` of `lines` was named, and `bad` lines are bad.
    pub fn add(&mut self, line: usize, lines: usize, bad: usize) {
        let place = match line {
            _ if lines == 1 => &mut self.only,
            0 => &mut self.first,
            _ if line + 1 == lines => &mut self.last,
            _ => &mut self.between,
        };
        *place += 1;
        self.further += (bad > 1) as u64;
        self.largest = line.max(self.largest);
    }

    pub fn count(&self) -> u64 {
        self.only + self.first + self.between + self.last
    }

    pub fn join(&mut self, other: &Offending) {
        self.only += other.only;
        self.first += other.first;
        self.between += other.between;
        self.last += other.last;
        self.further += other.further;
        self.largest = other.largest.max(self.largest);
    }
}

impl fmt::Display for Offending {
    fn fmt(&self, to: &mut fmt::Formatter) -> fmt::Result {
        let Offending { only, first, between, last, further, largest } = self;
        write!(to, "{} (the only line {only}, the first {first}, between {between}, the last {last}; ", self.count())?;
        write!(to, "a later one bad too {further}; highest {largest})")
    }
}
