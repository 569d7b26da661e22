//! The numbers by which the calls take a manner and a view. Any but 0 is the closed manner, or the finished view, so not always the
//! same one is given.
use crate::model::{Manner, View};
use common::Random;
use std::fmt;

/// What a lookup by id or class is given.
#[derive(Clone, Copy, Debug, PartialEq, Eq)]
pub struct Numbers {
    pub manner: u32,
    pub view: u32,
}

impl Numbers {
    /// With the closed manner, which has no view, any view's number is given.
    pub fn of(manner: Manner, random: &mut Random) -> Numbers {
        match manner {
            Manner::Scan(view) => Numbers {
                manner: 0,
                view: of_view(view, random),
            },
            Manner::Closed => Numbers {
                manner: not_0(random),
                view: any(random),
            },
        }
    }
}

impl fmt::Display for Numbers {
    fn fmt(&self, f: &mut fmt::Formatter) -> fmt::Result {
        write!(f, "manner {}, view {}", self.manner, self.view)
    }
}

pub fn of_view(view: View, random: &mut Random) -> u32 {
    match view {
        View::All => 0,
        View::Finished => not_0(random),
    }
}

/// A number of any view.
pub fn any(random: &mut Random) -> u32 {
    match random.once_in(3) {
        true => 0,
        false => not_0(random),
    }
}

/// Mostly 1; else 2, the greatest, one of a single bit, so that a part of a number is not taken for the whole, or any.
fn not_0(random: &mut Random) -> u32 {
    match random.below(8) {
        0 => 2,
        1 => u32::MAX,
        2 => 1 << random.below(32),
        3 => (random.draw() as u32).max(1),
        _ => 1,
    }
}

#[cfg(test)]
mod tests {
    use super::*;
    use crate::model::{MANNERS, VIEWS};
    use std::collections::BTreeSet;

    const DRAWN: usize = 10_000;

    #[test]
    fn the_numbers_of_a_manner() {
        let mut random = Random::new(1);
        for manner in MANNERS.repeat(DRAWN) {
            let numbers = Numbers::of(manner, &mut random);
            assert_eq!(numbers.manner != 0, manner == Manner::Closed);
            if let Manner::Scan(view) = manner {
                assert_eq!(numbers.view != 0, view == View::Finished);
            }
        }
    }

    /// Each single bit, and the closed manner with both views.
    #[test]
    fn the_numbers_differ() {
        let mut random = Random::new(1);
        let views = VIEWS.map(|view| {
            let drawn = (0..DRAWN).map(|_| of_view(view, &mut random));
            drawn.collect::<BTreeSet<_>>()
        });
        assert!(views[0].iter().eq(&[0]));
        let bits = (0..32).map(|bit| 1 << bit);
        assert!(bits
            .chain([u32::MAX])
            .all(|number| views[1].contains(&number)));
        let closed = (0..DRAWN).map(|_| Numbers::of(Manner::Closed, &mut random));
        let ignored: BTreeSet<u32> = closed.map(|numbers| numbers.view).collect();
        assert!([0, 1, 2, u32::MAX]
            .iter()
            .all(|view| ignored.contains(view)));
    }
}
