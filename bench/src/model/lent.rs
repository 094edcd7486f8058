//! 01, 'Numbers that come back': -6, -7 and -8.

use super::Answer;

/// Lengths in bytes of what a caller lends.
#[derive(Clone, Copy, Debug)]
pub struct Lent {
    pub table: usize,
    pub marks: usize,
    pub output: usize,
}

impl Answer {
    /// What must be lent.
    pub fn needs(&self) -> Lent {
        Lent { table: 16 * self.table.len(), marks: self.marks.len(), output: 16 * self.marks.len() }
    }

    /// -6, -7 or -8 for what is lent too short.
    pub fn fits(&self, lent: Lent) -> Result<(), i32> {
        let needs = self.needs();
        if lent.marks < needs.marks {
            Err(-6)
        } else if lent.table < needs.table {
            Err(-7)
        } else if lent.output < needs.output {
            Err(-8)
        } else {
            Ok(())
        }
    }
}
