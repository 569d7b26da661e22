//! The lookup of an attribute with a fallback: what is handed back by the places that the call answers, and the fallbacks that are
//! lent.

use std::fmt;

use tl_rattle::calls::HeldAt;
use tl_rattle::Refusal;

/// The bytes handed back (`asked_part` in crates/rules/specs/Refusals.antt): the value's part of the page, or the whole fallback where
/// the name is absent or has no value; none on a refusal. Nothing if the value does not lie in the page.
#[inline]
pub fn handed_back<'f>(
    page: &'f [u8],
    held: Result<HeldAt, Refusal>,
    fallback: &'f [u8],
) -> Option<&'f [u8]> {
    match held {
        Ok(HeldAt::Absent | HeldAt::Bare) => Some(fallback),
        Ok(HeldAt::Value(start, end)) => page.get(start..end),
        Err(_) => Some(&[]),
    }
}

/// Whether the same bytes are handed back by both pages. A slice is not compared with itself: it may be all of a page.
#[inline]
pub fn same(one: Option<&[u8]>, other: Option<&[u8]>) -> bool {
    one.zip(other)
        .is_some_and(|(one, other)| std::ptr::eq(one, other) || one == other)
}

const SORTS: [&str; 5] = [
    "empty",
    "outside of the page",
    "equal to the value",
    "a part of the beginning",
    "the beginning itself",
];

/// One of each sort; none equal to the value if there is no value.
pub type Fallbacks<'f> = [Option<&'f [u8]>; SORTS.len()];

pub fn fallbacks<'f>(beginning: &'f [u8], value: Option<&'f [u8]>) -> Fallbacks<'f> {
    let quarter = beginning.len() / 4;
    let part = &beginning[quarter..beginning.len() - quarter];
    [Some(b""), Some(b"XNYS"), value, Some(part), Some(beginning)]
}

/// How many of each sort were lent.
#[derive(Default)]
pub struct FallbackCounts([usize; SORTS.len()]);

impl FallbackCounts {
    #[inline]
    pub fn observe(&mut self, sort: usize) {
        self.0[sort] += 1;
    }
}

impl fmt::Display for FallbackCounts {
    fn fmt(&self, f: &mut fmt::Formatter<'_>) -> fmt::Result {
        write!(f, "{}", self.0.iter().sum::<usize>())?;
        for (index, (sort, count)) in SORTS.iter().zip(self.0).enumerate() {
            let before = if index == 0 { ": " } else { ", " };
            write!(f, "{before}{sort} {count}")?;
        }
        Ok(())
    }
}

#[cfg(test)]
mod tests {
    use super::*;

    #[test]
    fn what_is_handed_back() {
        let page = b"<a k=v>";
        for fallback in [&b""[..], b"v", b"XNYS", &page[2..4], page] {
            for held in [HeldAt::Absent, HeldAt::Bare] {
                assert_eq!(handed_back(page, Ok(held), fallback), Some(fallback));
            }
            let said = |start, end| handed_back(page, Ok(HeldAt::Value(start, end)), fallback);
            assert_eq!(said(5, 6), Some(&b"v"[..]));
            assert_eq!(said(5, 5), Some(&b""[..]));
            assert_eq!(said(6, 5), None);
            assert_eq!(said(5, 8), None);
            let refused = handed_back(page, Err(Refusal::NotATag), fallback);
            assert_eq!(refused, Some(&b""[..]));
        }
    }

    #[test]
    fn what_is_the_same() {
        let page = b"<a k=v j=v>";
        assert!(same(Some(page), Some(page)));
        assert!(same(Some(&page[5..6]), Some(&page[9..10])));
        assert!(same(Some(&page[..0]), Some(b"")));
        assert!(!same(Some(&page[..4]), Some(&page[..5])));
        assert!(!same(Some(b""), None));
        assert!(!same(None, None));
    }

    #[test]
    fn what_is_lent() {
        let lent = fallbacks(b"<a k=v>", Some(b"v"));
        assert_eq!(
            lent.map(Option::unwrap)[2..],
            [&b"v"[..], b"a k=v", b"<a k=v>"]
        );
        assert_eq!(fallbacks(b"", None)[2..], [None, Some(&b""[..]), Some(b"")]);
        let mut counts = FallbackCounts::default();
        [0, 0, 4].into_iter().for_each(|sort| counts.observe(sort));
        assert_eq!(
            counts.to_string(),
            "3: empty 2, outside of the page 0, equal to the value 0, a part of the beginning 0, \
             the beginning itself 1"
        );
    }
}
