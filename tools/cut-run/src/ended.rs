//! How a tag ended, word 8 of its row, in a whole page and in its beginning. What closes a tag may lie after the cut, or be cut
//! itself, so no clause speaks of this word but where the tag is finished in the beginning. It is counted here, apart from the
//! clauses, and held to what a cut can do.

use std::fmt;

/// What a cut can make of the word: in the whole page, and in the beginning.
const CHANGES: [(u32, u32); 4] = [(1, 0), (1, 2), (0, 2), (2, 0)];

/// How often the word of the same tag differs, by the change, and how often as no cut can make it.
#[derive(Default)]
pub struct EndedCounts {
    changes: [usize; CHANGES.len()],
    pub contradictions: usize,
}

impl EndedCounts {
    /// Counts a tag's word in the whole page and in the beginning. Whether a cut can make the one of the other.
    pub fn observe(&mut self, whole: u32, beginning: u32) -> bool {
        if whole == beginning {
            return true;
        }
        let change = CHANGES.iter().position(|&it| it == (whole, beginning));
        match change {
            Some(at) => self.changes[at] += 1,
            None => self.contradictions += 1,
        }
        change.is_some()
    }
}

impl fmt::Display for EndedCounts {
    fn fmt(&self, f: &mut fmt::Formatter<'_>) -> fmt::Result {
        for ((whole, beginning), count) in CHANGES.iter().zip(self.changes) {
            write!(f, "{whole} to {beginning} {count}, ")?;
        }
        write!(f, "any other {}", self.contradictions)
    }
}

#[cfg(test)]
mod tests {
    use super::*;

    #[test]
    fn what_a_cut_can_make() {
        let possible = |whole: u32| {
            let makes = |&beginning: &u32| EndedCounts::default().observe(whole, beginning);
            (0..5).filter(makes).collect::<Vec<_>>()
        };
        assert_eq!(possible(0), [0, 2]);
        assert_eq!(possible(1), [0, 1, 2]);
        assert_eq!(possible(2), [0, 2]);
        assert_eq!(possible(3), [3]);
    }
}
