//! The calls on a list of handles.
use super::{filled, numbers_of, three_of, Recording};
use crate::lists::List;
use crate::model::Asked;
use crate::tl_side::TlPage;
use common::Random;

/// The most handles of a recorded list.
const LISTED: usize = 100;

/// Asks about some of the lists of a page, without tags now and then only: that of all tags, and another.
pub fn questions(
    to: &mut Recording,
    asked: &Asked,
    tl: &TlPage,
    lists: &[List],
    random: &mut Random,
) {
    let all = &lists[0];
    let some = match all.handles.is_empty() {
        true if !random.once_in(8) => vec![],
        true => vec![all],
        false => vec![all, &lists[1 + random.below(lists.len() - 1)]],
    };
    for list in some {
        if list.handles.len() > LISTED {
            continue;
        }
        let tags = asked.all_tags(&list.handles).then_some(tl);
        held(to, list, tags, random);
        texts(to, &list.handles, tags, random);
    }
}

/// One entry too few, as many as are needed, or one too many.
fn some_room(entries: usize, random: &mut Random) -> usize {
    (entries + random.below(3)).saturating_sub(1)
}

/// Numbers with a space after each, and the bytes that follow.
pub fn body<T: ToString>(numbers: &[T], rest: &[u8]) -> Vec<u8> {
    let numbers = numbers.iter().map(|number| number.to_string() + " ");
    [numbers.collect::<String>().as_bytes(), rest].concat()
}

/// What the tags hold for one name and for several; tl has no answer where a handle is no tag's.
fn held(to: &mut Recording, list: &List, tags: Option<&TlPage>, random: &mut Random) {
    let handles = &list.handles;
    let answer = |names: &[&[u8]], room: usize| match tags {
        None => super::refused(4, room),
        Some(tl) => {
            let held = tl.attributes(handles, names).into_iter();
            let words: Vec<usize> = held.flat_map(three_of).collect();
            filled(handles.len(), &[(room, &words)])
        }
    };
    let count = handles.len();
    let room = some_room(3 * count, random);
    let said = answer(&[&list.name], room);
    let asked = body(handles, &list.name);
    to.record([10, count, room, 0], &asked, "attributes", &said);

    let mut names = list.names.clone();
    for end in &mut names.ends {
        // numbers of a record are of 32 bits
        *end = (*end).min(u32::MAX as usize);
    }
    let room = some_room(3 * count * names.ends.len(), random);
    let said = answer(&names.each(), room);
    let asked = body(handles, &body(&names.ends, &names.text));
    to.record([13, count, room, names.ends.len()], &asked, "names", &said);
}

fn texts(to: &mut Recording, handles: &[u32], tags: Option<&TlPage>, random: &mut Random) {
    let texts = tags.map(|tl| tl.texts(handles)).unwrap_or_default();
    let places = some_room(handles.len(), random);
    let room = some_room(texts.bytes.len(), random);
    let bytes = numbers_of(&texts.bytes);
    let said = match tags {
        None => super::refused(4, places + room),
        Some(_) => filled(handles.len(), &[(places, &texts.ends), (room, &bytes)]),
    };
    let asked = body(handles, b"");
    to.record([11, handles.len(), room, places], &asked, "texts", &said);
}

/// Every question about a list, empty or not, is refused with this number.
pub fn refused(to: &mut Recording, number: usize) {
    for handles in [&[][..], &[0][..]] {
        list_refused(to, handles, number);
    }
}

/// Every question about this list is.
pub fn list_refused(to: &mut Recording, handles: &[u32], number: usize) {
    let said = super::refused(number, 3);
    let count = handles.len();
    let list = |rest| body(handles, rest);
    to.record([10, count, 3, 0], &list(b"k"), "attributes", &said);
    to.record([11, count, 2, 1], &list(b""), "texts", &said);
    to.record([13, count, 3, 1], &list(b"1 k"), "names", &said);
}
