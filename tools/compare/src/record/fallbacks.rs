//! The lookup of an attribute with a fallback. tl has none: what a tag holds is tl's answer, and which bytes are then handed back is
//! the model's rule, which agrees with tl's value.
use super::{numbers_of, three_of, Recording};
use crate::asks::{Asks, VENUE};
use crate::model::{self, tl_profile, words_for, Asked, Held, Span, PAPER};
use crate::tl_side::{self, TlPage};
use std::collections::BTreeSet;

pub const OUTSIDE: Fallback = Fallback::Own(VENUE);
/// The longest page that is asked about, but for that of `every_kind`: an answer has each byte that is handed back, and the page is a
/// fallback too.
const SHORT: usize = 64;

#[derive(Clone, Copy)]
pub enum Fallback<'f> {
    /// bytes that the record has before the name
    Own(&'f [u8]),
    /// a part of the page
    Part(Span),
}

impl Fallback<'_> {
    /// Asks for an attribute of a tag, which holds this.
    pub fn ask(self, to: &mut Recording, page: &[u8], tag: usize, name: &[u8], held: Held) {
        let (numbers, body, fallback) = match self {
            Fallback::Own(own) => ([15, tag, own.len(), 0], [own, name].concat(), own),
            Fallback::Part((from, end)) => ([16, tag, from, end], name.to_vec(), &page[from..end]),
        };
        let back = numbers_of(held.or(page, fallback));
        let said = [&[0], &three_of(held)[..], &back].concat();
        to.record(numbers, &body, "fallback", &said);
    }
}

/// Asks for one name of each kind of a short page.
pub fn questions(to: &mut Recording, asked: &Asked, tl: &TlPage, asks: &Asks) {
    if asked.page.len() <= SHORT {
        one_of_each_kind(to, asked, tl, &asks.attributes);
    }
}

/// Asks for the first name of each kind, with each fallback. Answers how many kinds there were.
fn one_of_each_kind(
    to: &mut Recording,
    asked: &Asked,
    tl: &TlPage,
    names: &[(usize, Vec<u8>)],
) -> usize {
    let mut seen = BTreeSet::new();
    for (tag, name) in names {
        let held = tl.attribute(*tag, name);
        assert_eq!(held, asked.attribute(*tag, name, PAPER));
        let by_tl = tl.value(*tag, name).unwrap_or(VENUE);
        assert_eq!(by_tl, held.or(asked.page, VENUE));
        if seen.insert(kind(asked, *tag, name, held)) {
            for fallback in fallbacks(asked.page, held) {
                fallback.ask(to, asked.page, *tag, name, held);
            }
        }
    }
    seen.len()
}

/// Absent, without a value, with an empty one, with another; `id` and `class` apart, and those of them that have no value, which count
/// as absent.
fn kind(asked: &Asked, tag: usize, name: &[u8], held: Held) -> (bool, bool, usize, bool) {
    let is_special = name == b"id" || name == b"class";
    let stands_there = asked.names(tag).any(|other| other == name);
    let is_empty = matches!(held, Held::Value((start, end)) if start == end);
    (is_special, stands_there, three_of(held)[0], is_empty)
}

/// One that lies outside the page, an empty one, one inside the page, the page, and the value: as bytes of the record's own, and at
/// its places.
fn fallbacks(page: &[u8], held: Held) -> Vec<Fallback<'_>> {
    let half = page.len() / 2;
    let inside = (half, page.len().min(half + 8));
    let mut all = vec![
        OUTSIDE,
        Fallback::Own(b""),
        Fallback::Part(inside),
        Fallback::Part((0, page.len())),
    ];
    if let Held::Value((start, end)) = held {
        all.push(Fallback::Own(&page[start..end]));
        all.push(Fallback::Part((start, end)));
    }
    all
}

/// Refused with this number, whatever the fallback: nothing is handed back.
pub fn refused(to: &mut Recording, handle: usize, number: usize) {
    let said = [number, 0, 0, 0];
    to.record(
        [15, handle, VENUE.len(), 0],
        &[VENUE, b"k"].concat(),
        "fallback",
        &said,
    );
    let first_byte = to.page_bytes.min(1);
    to.record([16, handle, 0, first_byte], b"k", "fallback", &said);
}

/// A page with a name of every kind, and handles that are no tags'.
pub fn every_kind(to: &mut Recording) {
    let page =
        b"<tr venue=XLON v='' late>7<td class='px num' class=fill id>9<!--VOD--></td><td id=''>";
    let rows = model::read(page, tl_profile()).rows;
    let asked = Asked::new(page, &rows, tl_profile());
    let tl = TlPage::read(tl_side::as_str(page));
    to.page(page, 1, words_for(rows.len()));
    let names = [
        (0, "venue"),
        (0, "v"),
        (0, "late"),
        (0, "Venue"),
        (0, "class"),
        (2, "class"),
        (2, "id"),
        (5, "id"),
    ];
    let names = names.map(|(tag, name)| (tag, name.as_bytes().to_vec()));
    assert_eq!(one_of_each_kind(to, &asked, &tl, &names), names.len());
    let no_tags = (0..rows.len()).filter(|&handle| !rows[handle].is_tag());
    for handle in no_tags.chain([rows.len()]) {
        refused(to, handle, 4);
    }
}
