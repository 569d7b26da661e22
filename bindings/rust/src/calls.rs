//! The calls on slices that the caller lends, one for each of [`sys`], and [`attribute_or`]: nothing is allocated, and no
//! condition is left.
//!
//! The profile may be one that is not fine, and the table any words: a call is then refused as [`Refusal::ProfileNotFine`],
//! or, where the table is not sound for the page, as [`Refusal::TableNotSound`]. A table should be asked under the profile
//! that its page was read with; another is answered too, by what it sets.
//!
//! A refusal leaves the buffer that was lent to be written all zeros; an accepted call fills its first entries and leaves the
//! rest as it was. Every call looks at the whole table first, to see that it is sound.

use crate::refusal::outcome;
use crate::sys;
use crate::{Manner, Profile, Refusal, View};

/// Where in the page an attribute's value lies, if there is one.
#[derive(Debug, Clone, Copy, PartialEq, Eq, Hash)]
pub enum HeldAt {
    /// The tag does not have the attribute.
    Absent,
    /// It has the attribute without a value.
    Bare,
    /// It has the attribute with a value: its start, and its end (exclusive).
    Value(usize, usize),
}

impl HeldAt {
    pub(crate) fn from_words(words: [usize; 3]) -> HeldAt {
        match words {
            [0, _, _] => HeldAt::Absent,
            [1, _, _] => HeldAt::Bare,
            [_, start, end] => HeldAt::Value(start, end),
        }
    }

    /// The value's part of the page, or the whole fallback where there is none.
    fn part_or<'f>(self, page: &'f [u8], fallback: &'f [u8]) -> &'f [u8] {
        match self {
            HeldAt::Absent | HeldAt::Bare => fallback,
            HeldAt::Value(start, end) => &page[start..end],
        }
    }
}

/// Reads a page into a table: how many nodes it has. A table of `8 + 9 * n` words has room for `n`.
///
/// ```
/// use tl_rattle::{calls, words_for, Profile, Refusal, HEADER_WORDS};
/// let mut table = [0; words_for(1)];
/// assert_eq!(calls::parse(&Profile::TL, b"a", &mut table), Ok(1));
/// assert_eq!(table, [1, 0, 1, 8, 9, 0, 0, 0, 2, 0, 1, 0, 0, 0, 0, 0, 0]);
/// let refused = calls::parse(&Profile::TL, b"a", &mut table[..HEADER_WORDS]);
/// assert_eq!(refused, Err(Refusal::TableTooSmall));
/// ```
///
/// # Errors
/// [`Refusal::ProfileNotFine`], [`Refusal::PageTooLong`], [`Refusal::TableTooSmall`].
pub fn parse(profile: &Profile, page: &[u8], table: &mut [u32]) -> Result<usize, Refusal> {
    let mut count = 0;
    // SAFETY: each pointer is a profile's, or a slice's, given with its length; `table` is borrowed mutably, so nothing
    // overlaps it; `count` is one usize.
    let number = unsafe {
        sys::tl_parse(
            profile.as_raw(),
            page.as_ptr(),
            page.len(),
            table.as_mut_ptr(),
            table.len(),
            &mut count,
        )
    };
    outcome(number)?;
    Ok(count)
}

/// Reads a page into the room behind a vector's entries, which must be none, and takes in what was written.
pub(crate) fn parse_spare(
    profile: &Profile,
    page: &[u8],
    table: &mut Vec<u32>,
) -> Result<(), Refusal> {
    debug_assert!(table.is_empty());
    let spare = table.spare_capacity_mut();
    let mut count = 0;
    // SAFETY: `profile` and `page` as in `parse`; `spare` is aligned room for as many words, borrowed mutably. The call
    // writes there and goes by no word that it has not written.
    let number = unsafe {
        sys::tl_parse(
            profile.as_raw(),
            page.as_ptr(),
            page.len(),
            spare.as_mut_ptr().cast::<u32>(),
            spare.len(),
            &mut count,
        )
    };
    outcome(number)?;
    let words = crate::words_for(count);
    assert!(words <= table.capacity());
    // SAFETY: there is room for as many words, and the accepted call wrote them all: the header's and each row's.
    unsafe { table.set_len(words) };
    Ok(())
}

/// The handles below a tag: the first and the last, if there are any.
///
/// # Errors
/// [`Refusal::ProfileNotFine`], [`Refusal::PageTooLong`], [`Refusal::TableNotSound`], [`Refusal::NotATag`].
pub fn range(
    profile: &Profile,
    page: &[u8],
    table: &[u32],
    handle: usize,
) -> Result<Option<(usize, usize)>, Refusal> {
    let mut answer = [0usize; 3];
    // SAFETY: each pointer is a profile's, or a slice's, given with its length; `answer` is three usizes of this
    // function's own.
    let number = unsafe {
        sys::tl_range(
            profile.as_raw(),
            page.as_ptr(),
            page.len(),
            table.as_ptr(),
            table.len(),
            handle,
            answer.as_mut_ptr(),
        )
    };
    outcome(number)?;
    let [many, first, last] = answer;
    Ok((many > 0).then_some((first, last)))
}

/// Whether a table is sound for a page, that is whether it can be asked at all.
///
/// # Errors
/// [`Refusal::ProfileNotFine`], [`Refusal::PageTooLong`], [`Refusal::TableNotSound`].
pub fn check(profile: &Profile, page: &[u8], table: &[u32]) -> Result<(), Refusal> {
    // 4 is tried after what is said of a profile, page and table, and no row has this handle
    match range(profile, page, table, usize::MAX) {
        Err(Refusal::NotATag) => Ok(()),
        Err(refusal) => Err(refusal),
        Ok(_) => unreachable!("no table has a row of this handle"),
    }
}

/// What a tag holds for an attribute name, by places: [`attribute_or`] with an empty fallback.
///
/// # Errors
/// [`Refusal::ProfileNotFine`], [`Refusal::PageTooLong`], [`Refusal::TableNotSound`], [`Refusal::NotATag`].
pub fn attribute(
    profile: &Profile,
    page: &[u8],
    table: &[u32],
    handle: usize,
    name: &[u8],
) -> Result<HeldAt, Refusal> {
    let (_, held) = attribute_or(profile, page, table, handle, name, b"")?;
    Ok(held)
}

/// The value that a tag holds for an attribute name, which is a part of the page, or the whole fallback where the attribute
/// is absent or has no value; and which of the three it is, since the part alone does not say so. An empty value is a value.
///
/// ```
/// use tl_rattle::calls::{self, HeldAt};
/// use tl_rattle::{words_for, Profile};
/// let (page, mut table) = (b"<td data-venue=XLON>", [0; words_for(1)]);
/// calls::parse(&Profile::TL, page, &mut table)?;
/// let held = |name| calls::attribute_or(&Profile::TL, page, &table, 0, name, b"XNYS");
/// assert_eq!(held(b"data-venue")?, (&b"XLON"[..], HeldAt::Value(15, 19)));
/// assert_eq!(held(b"venue")?, (&b"XNYS"[..], HeldAt::Absent));
/// # Ok::<(), tl_rattle::Refusal>(())
/// ```
///
/// # Errors
/// [`Refusal::ProfileNotFine`], [`Refusal::PageTooLong`], [`Refusal::TableNotSound`], [`Refusal::NotATag`].
pub fn attribute_or<'f>(
    profile: &Profile,
    page: &'f [u8],
    table: &[u32],
    handle: usize,
    name: &[u8],
    fallback: &'f [u8],
) -> Result<(&'f [u8], HeldAt), Refusal> {
    let mut answer = [0usize; 3];
    // SAFETY: each pointer is a profile's, or a slice's, given with its length; `answer` is three usizes of this
    // function's own.
    let number = unsafe {
        sys::tl_attribute(
            profile.as_raw(),
            page.as_ptr(),
            page.len(),
            table.as_ptr(),
            table.len(),
            handle,
            name.as_ptr(),
            name.len(),
            answer.as_mut_ptr(),
        )
    };
    outcome(number)?;
    let held = HeldAt::from_words(answer);
    Ok((held.part_or(page, fallback), held))
}

/// Writes the text below a tag: how many bytes it has.
///
/// # Errors
/// [`Refusal::ProfileNotFine`], [`Refusal::PageTooLong`], [`Refusal::TableNotSound`], [`Refusal::NotATag`],
/// [`Refusal::BufferTooShort`].
pub fn inner_text(
    profile: &Profile,
    page: &[u8],
    table: &[u32],
    handle: usize,
    out: &mut [u8],
) -> Result<usize, Refusal> {
    let mut count = 0;
    // SAFETY: each pointer is a profile's, or a slice's, given with its length; `out` is borrowed mutably, so nothing
    // overlaps it; `count` is one usize.
    let number = unsafe {
        sys::tl_inner_text(
            profile.as_raw(),
            page.as_ptr(),
            page.len(),
            table.as_ptr(),
            table.len(),
            handle,
            out.as_mut_ptr(),
            out.len(),
            &mut count,
        )
    };
    outcome(number)?;
    Ok(count)
}

/// The tag with an id: in the scan among those that the view shows. In the closed manner the view is ignored.
///
/// # Errors
/// [`Refusal::ProfileNotFine`], [`Refusal::PageTooLong`], [`Refusal::TableNotSound`].
pub fn get_element_by_id(
    profile: &Profile,
    page: &[u8],
    table: &[u32],
    manner: Manner,
    view: View,
    id: &[u8],
) -> Result<Option<usize>, Refusal> {
    let mut answer = [0usize; 2];
    // SAFETY: each pointer is a profile's, or a slice's, given with its length; `answer` is two usizes of this
    // function's own.
    let number = unsafe {
        sys::tl_get_element_by_id(
            profile.as_raw(),
            page.as_ptr(),
            page.len(),
            table.as_ptr(),
            table.len(),
            manner.number(),
            view.number(),
            id.as_ptr(),
            id.len(),
            answer.as_mut_ptr(),
        )
    };
    outcome(number)?;
    let [many, handle] = answer;
    Ok((many > 0).then_some(handle))
}

/// Writes the handles of the tags with a class: how many. The view counts in the scan alone.
///
/// # Errors
/// [`Refusal::ProfileNotFine`], [`Refusal::PageTooLong`], [`Refusal::TableNotSound`], [`Refusal::BufferTooShort`].
pub fn get_elements_by_class_name(
    profile: &Profile,
    page: &[u8],
    table: &[u32],
    manner: Manner,
    view: View,
    class: &[u8],
    out: &mut [u32],
) -> Result<usize, Refusal> {
    let mut count = 0;
    // SAFETY: each pointer is a profile's, or a slice's, given with its length; `out` is borrowed mutably, so nothing
    // overlaps it; `count` is one usize.
    let number = unsafe {
        sys::tl_get_elements_by_class_name(
            profile.as_raw(),
            page.as_ptr(),
            page.len(),
            table.as_ptr(),
            table.len(),
            manner.number(),
            view.number(),
            class.as_ptr(),
            class.len(),
            out.as_mut_ptr(),
            out.len(),
            &mut count,
        )
    };
    outcome(number)?;
    Ok(count)
}

/// Writes the pieces of a selector, 6 words each: how many.
///
/// # Errors
/// [`Refusal::SelectorTooLong`], [`Refusal::SelectorNotRead`], [`Refusal::BufferTooShort`].
pub fn parse_query_selector(selector: &[u8], out: &mut [u32]) -> Result<usize, Refusal> {
    let mut count = 0;
    // SAFETY: each pointer is a slice's, given with its length; `out` is borrowed mutably, so nothing overlaps it;
    // `count` is one usize.
    let number = unsafe {
        sys::tl_parse_query_selector(
            selector.as_ptr(),
            selector.len(),
            out.as_mut_ptr(),
            out.len(),
            &mut count,
        )
    };
    outcome(number)?;
    Ok(count)
}

/// Writes the handles of the nodes that the view shows and a selector finds, in order: how many.
///
/// # Errors
/// [`Refusal::ProfileNotFine`], [`Refusal::PageTooLong`], [`Refusal::TableNotSound`], [`Refusal::SelectorTooLong`],
/// [`Refusal::SelectorNotRead`], [`Refusal::BufferTooShort`].
pub fn query_selector(
    profile: &Profile,
    page: &[u8],
    table: &[u32],
    view: View,
    selector: &[u8],
    out: &mut [u32],
) -> Result<usize, Refusal> {
    let mut count = 0;
    // SAFETY: each pointer is a profile's, or a slice's, given with its length; `out` is borrowed mutably, so nothing
    // overlaps it; `count` is one usize.
    let number = unsafe {
        sys::tl_query_selector(
            profile.as_raw(),
            page.as_ptr(),
            page.len(),
            table.as_ptr(),
            table.len(),
            view.number(),
            selector.as_ptr(),
            selector.len(),
            out.as_mut_ptr(),
            out.len(),
            &mut count,
        )
    };
    outcome(number)?;
    Ok(count)
}

/// The same of the nodes below a tag, which the view need not show.
///
/// # Errors
/// [`Refusal::ProfileNotFine`], [`Refusal::PageTooLong`], [`Refusal::TableNotSound`], [`Refusal::NotATag`],
/// [`Refusal::SelectorTooLong`], [`Refusal::SelectorNotRead`], [`Refusal::BufferTooShort`].
pub fn query_selector_below(
    profile: &Profile,
    page: &[u8],
    table: &[u32],
    handle: usize,
    view: View,
    selector: &[u8],
    out: &mut [u32],
) -> Result<usize, Refusal> {
    let mut count = 0;
    // SAFETY: each pointer is a profile's, or a slice's, given with its length; `out` is borrowed mutably, so nothing
    // overlaps it; `count` is one usize.
    let number = unsafe {
        sys::tl_query_selector_below(
            profile.as_raw(),
            page.as_ptr(),
            page.len(),
            table.as_ptr(),
            table.len(),
            handle,
            view.number(),
            selector.as_ptr(),
            selector.len(),
            out.as_mut_ptr(),
            out.len(),
            &mut count,
        )
    };
    outcome(number)?;
    Ok(count)
}
