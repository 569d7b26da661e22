//! The questions to a page and its table: ranges, texts, attributes, ids and classes.
use super::cursor::Cursor;
use super::reader::{attributes, Attribute};
use super::{Held, Manner, Profile, Row, View, Way};
use std::collections::HashSet;

/// A page with its rows, ready to be asked. Each tag's attributes are read once, from its name's end to its opening.
pub struct Asked<'p> {
    pub page: &'p [u8],
    pub rows: &'p [Row],
    attributes: Vec<Vec<Attribute>>,
}

impl<'p> Asked<'p> {
    pub fn new(page: &'p [u8], rows: &'p [Row], profile: &Profile) -> Self {
        let read = |row: &Row| match row.is_tag() {
            true => attributes(&mut Cursor::new(&page[..row.opened], row.name.1), profile),
            false => Vec::new(),
        };
        let attributes = rows.iter().map(read).collect();
        Asked {
            page,
            rows,
            attributes,
        }
    }

    /// The first and last handle below a tag.
    pub fn range(&self, handle: usize) -> Option<(usize, usize)> {
        let last = self.rows[handle].last;
        (last > handle).then_some((handle + 1, last))
    }

    /// The texts below a tag, joined.
    pub fn text(&self, handle: usize) -> Vec<u8> {
        let below = &self.rows[handle + 1..=self.rows[handle].last];
        let texts = below.iter().filter(|row| row.kind == super::Kind::Text);
        texts
            .flat_map(|row| &self.page[row.start..row.end])
            .copied()
            .collect()
    }

    pub fn attribute(&self, handle: usize, name: &[u8], way: Way) -> Held {
        let all = &self.attributes[handle];
        let mut named = all.iter().filter(|a| self.name(a) == name);
        if name == b"id" || name == b"class" {
            return match named.next_back().and_then(|a| a.value) {
                Some(value) => Held::Value(value),
                None => Held::Absent,
            };
        }
        let counts = if way.last_of_three && self.others(handle) >= 3 {
            named.next_back()
        } else {
            named.next()
        };
        match counts.map(|a| a.value) {
            None => Held::Absent,
            Some(None) => Held::Bare,
            Some(Some(value)) => Held::Value(value),
        }
    }

    fn name(&self, attribute: &Attribute) -> &'p [u8] {
        &self.page[attribute.name.0..attribute.name.1]
    }

    /// How many attributes a tag has apart from `id` and `class`, repeats counted.
    fn others(&self, handle: usize) -> usize {
        self.other_names(handle).count()
    }

    fn other_names(&self, handle: usize) -> impl Iterator<Item = &'p [u8]> + '_ {
        let names = self.attributes[handle].iter().map(|a| self.name(a));
        names.filter(|name| *name != b"id" && *name != b"class")
    }

    /// Whether a tag has a name other than `id` and `class` twice.
    pub fn repeats(&self, handle: usize) -> bool {
        let mut seen = HashSet::new();
        self.attributes[handle].len() > 1 && !self.other_names(handle).all(|name| seen.insert(name))
    }

    /// Whether a tag's class value is not UTF-8.
    pub fn has_bad_class(&self, handle: usize) -> bool {
        let value = self.value(handle, b"class", super::PAPER);
        value.is_some_and(|value| std::str::from_utf8(value).is_err())
    }

    /// The attribute names of a tag, in page order, repeats included.
    pub fn names(&self, handle: usize) -> impl Iterator<Item = &'p [u8]> + '_ {
        self.attributes[handle].iter().map(|a| self.name(a))
    }

    /// The bytes of an attribute's value.
    pub fn value(&self, handle: usize, name: &[u8], way: Way) -> Option<&'p [u8]> {
        match self.attribute(handle, name, way) {
            Held::Value((start, end)) => Some(&self.page[start..end]),
            _ => None,
        }
    }

    fn has_id(&self, handle: usize, id: &[u8]) -> bool {
        self.rows[handle].is_tag() && self.value(handle, b"id", super::PAPER) == Some(id)
    }

    /// How often a tag's class value holds a class.
    pub fn times(&self, handle: usize, class: &[u8], way: Way) -> usize {
        if !self.rows[handle].is_tag() {
            return 0;
        }
        let Some(value) = self.value(handle, b"class", way) else {
            return 0;
        };
        if way.classes_in_utf8 && std::str::from_utf8(value).is_err() {
            return 0;
        }
        class_words(value).filter(|word| *word == class).count()
    }

    /// Of some rows those that a view shows.
    pub fn shown(&self, view: View, mut handles: Vec<usize>) -> Vec<usize> {
        handles.retain(|&handle| view.shows(&self.rows[handle]));
        handles
    }

    pub fn by_id(&self, manner: Manner, id: &[u8]) -> Option<usize> {
        match manner {
            Manner::Scan(view) => (0..self.rows.len())
                .find(|&handle| view.shows(&self.rows[handle]) && self.has_id(handle, id)),
            Manner::Closed => self
                .closing_order()
                .into_iter()
                .rfind(|&handle| self.has_id(handle, id)),
        }
    }

    pub fn by_class(&self, manner: Manner, class: &[u8], way: Way) -> Vec<usize> {
        match manner {
            Manner::Scan(view) => {
                let handles = 0..self.rows.len();
                let all = handles.filter(|&handle| self.times(handle, class, way) > 0);
                self.shown(view, all.collect())
            }
            Manner::Closed => self
                .closing_order()
                .into_iter()
                .flat_map(|handle| std::iter::repeat_n(handle, self.times(handle, class, way)))
                .collect(),
        }
    }

    /// The tags closed by a closing tag, by their ends; at equal ends the higher handle first.
    fn closing_order(&self) -> Vec<usize> {
        let closed = |row: &Row| row.is_tag() && row.end > row.opened;
        let mut handles: Vec<usize> = (0..self.rows.len())
            .rev()
            .filter(|&handle| closed(&self.rows[handle]))
            .collect();
        handles.sort_by_key(|&handle| self.rows[handle].end);
        handles
    }
}

/// A class value, cut at the five white bytes.
pub fn class_words(value: &[u8]) -> impl Iterator<Item = &[u8]> {
    let words = value.split(|byte| [9, 10, 12, 13, 32].contains(byte));
    words.filter(|word| !word.is_empty())
}
