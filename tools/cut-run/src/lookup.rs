//! The lookups that have a view and fill a list, and how two answers of one are compared.

use tl_rattle::{Refusal, View};

use crate::questions::Questions;
use crate::reader::{Asked, Reader};
use crate::rows::Rows;

pub const VIEWS: [View; 2] = [View::All, View::Finished];

/// A lookup, by the number of its class or selector among the questions.
#[derive(Clone, Copy, Debug, PartialEq, Eq)]
pub enum Lookup {
    /// the tags with a class, in the scan
    Class(usize),
    /// what a selector finds over the page
    Query(usize),
    /// and below the row of a handle
    Below(u32, usize),
}

pub type Answer = Result<Vec<u32>, Refusal>;

/// The finds of an answer, which are lent.
pub type Finds<'o> = Result<&'o [u32], Refusal>;

impl Lookup {
    /// Asks it, and gives what was found of the words lent.
    pub fn ask<'o, R: Reader>(
        self,
        questions: &Questions,
        reader: &R,
        asked: Asked<'_>,
        view: View,
        out: &'o mut [u32],
    ) -> Finds<'o> {
        let text = self.text(questions);
        let many = match self {
            Lookup::Class(_) => reader.class(asked, view, text, out),
            Lookup::Query(_) => reader.query(asked, view, text, out),
            Lookup::Below(handle, _) => reader.below(asked, handle, view, text, out),
        };
        many.map(|many| &out[..many])
    }

    /// Asks it with room for every row.
    pub fn answer<R: Reader>(
        self,
        questions: &Questions,
        reader: &R,
        asked: Asked<'_>,
        view: View,
    ) -> Answer {
        let mut out = vec![0; Rows(asked.table).count() as usize];
        let many = self.ask(questions, reader, asked, view, &mut out)?.len();
        out.truncate(many);
        Ok(out)
    }

    pub fn number(self) -> usize {
        match self {
            Lookup::Class(number) | Lookup::Query(number) | Lookup::Below(_, number) => number,
        }
    }

    /// The class or the selector.
    pub fn text(self, questions: &Questions) -> &[u8] {
        match self {
            Lookup::Class(number) => &questions.classes[number],
            _ => &questions.selectors[self.number()],
        }
    }

    /// Below which row it looks.
    pub fn handle(self) -> Option<u32> {
        match self {
            Lookup::Below(handle, _) => Some(handle),
            _ => None,
        }
    }
}

pub fn lent(answer: &Answer) -> Finds<'_> {
    answer.as_deref().map_err(|refusal| *refusal)
}

/// Two answers: refused alike, or with the same finds, of each those that are kept; and then how many these are.
pub fn alike(
    (one, of_one): (Finds<'_>, impl Fn(u32) -> bool),
    (other, of_other): (Finds<'_>, impl Fn(u32) -> bool),
) -> Result<usize, String> {
    match (one, other) {
        (Ok(one), Ok(other)) => {
            let one = || one.iter().filter(|handle| of_one(**handle));
            let other = || other.iter().filter(|handle| of_other(**handle));
            if one().eq(other()) {
                Ok(one().count())
            } else {
                let [one, other]: [Vec<_>; 2] = [one().collect(), other().collect()];
                Err(format!("finds {one:?} and {other:?}"))
            }
        }
        // with the room that is lent, no answer is longer than its buffer
        (Err(one), Err(other)) if one == other && one != Refusal::BufferTooShort => Ok(0),
        (one, other) => Err(format!("answers {one:?} and {other:?}")),
    }
}

#[cfg(test)]
mod tests {
    use super::*;

    #[test]
    fn what_is_alike() {
        let odd = |handle: u32| handle % 2 == 1;
        let all = |_| true;
        assert_eq!(alike((Ok(&[1, 3]), all), (Ok(&[1, 2, 3]), odd)), Ok(2));
        assert_eq!(alike((Ok(&[1, 2, 3]), odd), (Ok(&[1, 3, 4]), odd)), Ok(2));
        assert_eq!(alike((Ok(&[]), all), (Ok(&[2]), odd)), Ok(0));
        for other in [&[1, 2][..], &[3, 2, 1], &[1, 3, 5]] {
            assert!(alike((Ok(&[1, 3]), all), (Ok(other), odd)).is_err());
        }
        let not_a_tag = Err(Refusal::NotATag);
        assert_eq!(alike((not_a_tag, all), (not_a_tag, odd)), Ok(0));
        for other in [Ok(&[][..]), Err(Refusal::SelectorTooLong)] {
            assert!(alike((not_a_tag, all), (other, odd)).is_err());
        }
        let too_short = Err(Refusal::BufferTooShort);
        assert!(alike((too_short, all), (too_short, all)).is_err());
    }
}
