//! The library's answers, in the form in which they are compared. Each call is lent buffers of a chosen room, filled with a
//! mark before, and what the interface says of buffers is looked at each time: an accepted call fills the first entries and
//! leaves the rest as it was, a refusal leaves zeros.
use crate::ffi::{self, Said};
use crate::model::{Held, Names, Piece, Texts, HEADER_WORDS, ROW_WORDS};
use crate::numbers::Numbers;
use tl_rattle::sys::tl_profile;

/// Why there is no answer.
#[derive(Clone, Debug, PartialEq, Eq)]
pub enum Refusal {
    /// the number of the refusal
    Number(u32),
    /// the interface's word on buffers and numbers is not kept
    Broken(&'static str),
}

pub type Answer<T> = Result<T, Refusal>;

/// What stands in lent words and bytes before a call.
pub const MARK: u32 = 0xa5a5_a5a5;

/// Numbers of a call that fills no buffer.
fn plain<const N: usize>(said: Said<N>) -> Answer<[usize; N]> {
    match said.refusal {
        0 => Ok(said.numbers),
        _ if said.numbers != [0; N] => Err(Refusal::Broken("a refusal leaves numbers")),
        number => Err(Refusal::Number(number)),
    }
}

/// The first entries of a buffer, `each` for one of what is counted.
fn filled<T: Copy + PartialEq + From<u8>>(
    said: Said<1>,
    buffer: Vec<T>,
    each: usize,
    mark: T,
) -> Answer<Vec<T>> {
    if said.refusal != 0 && buffer.iter().any(|&entry| entry != T::from(0)) {
        return Err(Refusal::Broken("a refusal leaves entries in the buffer"));
    }
    let [count] = plain(said)?;
    let mut buffer = buffer;
    let used = count.saturating_mul(each);
    if used > buffer.len() {
        return Err(Refusal::Broken("the count is above the buffer's length"));
    }
    if buffer[used..].iter().any(|&entry| entry != mark) {
        return Err(Refusal::Broken("the rest of the buffer has changed"));
    }
    buffer.truncate(used);
    Ok(buffer)
}

fn handles(words: Vec<u32>) -> Vec<usize> {
    words.into_iter().map(|word| word as usize).collect()
}

/// Reads a page into a table of so many words; the words that the reading uses.
pub fn read(profile: &tl_profile, page: &[u8], room: usize) -> Answer<Vec<u32>> {
    let mut table = vec![MARK; room];
    let said = ffi::parse(profile, page, &mut table);
    if said.refusal == 0 {
        let [count] = said.numbers;
        let rows = count.saturating_mul(ROW_WORDS);
        let used = rows.saturating_add(HEADER_WORDS);
        if used > room || table[used..].iter().any(|&word| word != MARK) {
            return Err(Refusal::Broken("words after the last row have changed"));
        }
        table.truncate(used);
        return Ok(table);
    }
    filled(said, table, 1, MARK)
}

/// A page with a table, to be asked under a profile.
pub struct Ours<'p> {
    pub profile: &'p tl_profile,
    pub page: &'p [u8],
    pub table: &'p [u32],
}

impl<'p> Ours<'p> {
    pub fn range(&self, handle: usize) -> Answer<Option<(usize, usize)>> {
        match plain(ffi::range(self.profile, self.page, self.table, handle))? {
            [0, 0, 0] => Ok(None),
            [count, first, last] if count > 0 && first + count == last + 1 => {
                Ok(Some((first, last)))
            }
            _ => Err(Refusal::Broken("a range's numbers do not fit together")),
        }
    }

    pub fn text(&self, handle: usize, room: usize) -> Answer<Vec<u8>> {
        let mut out = vec![MARK as u8; room];
        let said = ffi::inner_text(self.profile, self.page, self.table, handle, &mut out);
        filled(said, out, 1, MARK as u8)
    }

    pub fn attribute(&self, handle: usize, name: &[u8]) -> Answer<Held> {
        held(plain(ffi::attribute(
            self.profile,
            self.page,
            self.table,
            handle,
            name,
        ))?)
    }

    /// The value, by the places that the answer gives.
    pub fn value(&self, held: Held) -> Option<&'p [u8]> {
        match held {
            Held::Value((start, end)) => Some(&self.page[start..end]),
            _ => None,
        }
    }

    pub fn by_id(&self, numbers: Numbers, id: &[u8]) -> Answer<Option<usize>> {
        let Numbers { manner, view } = numbers;
        let said = ffi::get_element_by_id(self.profile, self.page, self.table, manner, view, id);
        match plain(said)? {
            [0, 0] => Ok(None),
            [1, handle] => Ok(Some(handle)),
            _ => Err(Refusal::Broken("an id's numbers mean nothing")),
        }
    }

    pub fn by_class(&self, numbers: Numbers, class: &[u8], room: usize) -> Answer<Vec<usize>> {
        let mut out = vec![MARK; room];
        let Numbers { manner, view } = numbers;
        let said = ffi::get_elements_by_class_name(
            self.profile,
            self.page,
            self.table,
            manner,
            view,
            class,
            &mut out,
        );
        filled(said, out, 1, MARK).map(handles)
    }

    pub fn query(&self, view: u32, selector: &[u8], room: usize) -> Answer<Vec<usize>> {
        let mut out = vec![MARK; room];
        let said = ffi::query_selector(
            self.profile,
            self.page,
            self.table,
            view,
            selector,
            &mut out,
        );
        filled(said, out, 1, MARK).map(handles)
    }

    pub fn query_below(
        &self,
        handle: usize,
        view: u32,
        selector: &[u8],
        room: usize,
    ) -> Answer<Vec<usize>> {
        let mut out = vec![MARK; room];
        let said = ffi::query_selector_below(
            self.profile,
            self.page,
            self.table,
            handle,
            view,
            selector,
            &mut out,
        );
        filled(said, out, 1, MARK).map(handles)
    }

    pub fn attributes(&self, list: &[u32], name: &[u8], room: usize) -> Answer<Vec<Held>> {
        let mut out = vec![MARK; room];
        let said = ffi::attributes(self.profile, self.page, self.table, list, name, &mut out);
        listed(filled(of_all(said, list)?, out, 3, MARK)?)
    }

    pub fn attributes_for_names(
        &self,
        list: &[u32],
        names: &Names,
        room: usize,
    ) -> Answer<Vec<Held>> {
        let mut out = vec![MARK; room];
        let Names { text, ends } = names;
        let said = ffi::attributes_for_names(
            self.profile,
            self.page,
            self.table,
            list,
            text,
            ends,
            &mut out,
        );
        listed(filled(of_all(said, list)?, out, 3 * ends.len(), MARK)?)
    }

    /// The texts below each tag of a list, into so many places and so many bytes.
    pub fn texts(&self, list: &[u32], places: usize, room: usize) -> Answer<Texts> {
        let mut ends = vec![MARK as usize; places];
        let mut bytes = vec![MARK as u8; room];
        let said = ffi::inner_texts(
            self.profile,
            self.page,
            self.table,
            list,
            &mut ends,
            &mut bytes,
        );
        let said = of_all(said, list)?;
        if said.refusal != 0 && bytes.iter().any(|&byte| byte != 0) {
            return Err(Refusal::Broken("a refusal leaves bytes of texts"));
        }
        let ends = filled(said, ends, 1, MARK as usize)?;
        let used = ends.last().copied().unwrap_or(0);
        if used > room || bytes[used..].iter().any(|&byte| byte != MARK as u8) {
            return Err(Refusal::Broken("bytes after the last text have changed"));
        }
        bytes.truncate(used);
        Ok(Texts { ends, bytes })
    }
}

/// What is counted of an accepted list are its handles, all of them.
fn of_all(said: Said<1>, list: &[u32]) -> Answer<Said<1>> {
    match said.refusal {
        0 if said.numbers != [list.len()] => {
            Err(Refusal::Broken("the count is not that of the handles"))
        }
        _ => Ok(said),
    }
}

fn held(numbers: [usize; 3]) -> Answer<Held> {
    match numbers {
        [0, 0, 0] => Ok(Held::Absent),
        [1, 0, 0] => Ok(Held::Bare),
        [2, start, end] => Ok(Held::Value((start, end))),
        _ => Err(Refusal::Broken("an attribute's numbers mean nothing")),
    }
}

/// Three words for each answer.
fn listed(words: Vec<u32>) -> Answer<Vec<Held>> {
    let three = words.chunks_exact(3);
    three
        .map(|words| held([words[0], words[1], words[2]].map(|word| word as usize)))
        .collect()
}

/// Reads a selector into so many words.
pub fn read_selector(selector: &[u8], room: usize) -> Answer<Vec<Piece>> {
    let mut out = vec![MARK; room];
    let said = ffi::parse_query_selector(selector, &mut out);
    let words = filled(said, out, 6, MARK)?;
    Ok(words.chunks_exact(6).map(piece).collect())
}

fn piece(words: &[u32]) -> Piece {
    let place = |i: usize| words[i] as usize;
    Piece {
        kind: words[0],
        first: (place(1), place(2)),
        second: (place(3), place(4)),
        joiner: words[5],
    }
}
