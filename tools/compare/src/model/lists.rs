//! The calls on a list of handles: for each of them, in order, what the single call answers.
use super::lookup::Asked;
use super::{Held, Way};

/// Several attribute names in one text, and the places where they end, which may be any numbers.
#[derive(Clone, Debug, Default, PartialEq, Eq)]
pub struct Names {
    pub text: Vec<u8>,
    pub ends: Vec<usize>,
}

impl Names {
    /// Names one after the other.
    pub fn of(names: &[&[u8]]) -> Names {
        let mut all = Names::default();
        for name in names {
            all.text.extend(*name);
            all.ends.push(all.text.len());
        }
        all
    }

    /// Each name stands from the end of the one before, 0 for the first, up to its own place. A place past the text counts as
    /// its end, and a name that would end before it starts is empty.
    pub fn each(&self) -> Vec<&[u8]> {
        let within = |place: usize| place.min(self.text.len());
        let before = [0].into_iter().chain(self.ends.iter().copied());
        let spans = before.zip(&self.ends);
        spans
            .map(|(start, &end)| self.text.get(within(start)..within(end)).unwrap_or(&[]))
            .collect()
    }
}

/// Texts one after the other, and where each ends.
#[derive(Clone, Debug, Default, PartialEq, Eq)]
pub struct Texts {
    pub ends: Vec<usize>,
    pub bytes: Vec<u8>,
}

impl Texts {
    pub fn of(texts: impl Iterator<Item = Vec<u8>>) -> Texts {
        let mut all = Texts::default();
        for text in texts {
            all.bytes.extend(text);
            all.ends.push(all.bytes.len());
        }
        all
    }
}

impl Asked<'_> {
    /// Whether each handle of a list is a tag's.
    pub fn all_tags(&self, handles: &[u32]) -> bool {
        let is_tag = |&handle: &u32| {
            self.rows
                .get(handle as usize)
                .is_some_and(|row| row.is_tag())
        };
        handles.iter().all(is_tag)
    }

    /// What each tag holds for each name, a tag's answers together.
    pub fn attributes(&self, tags: &[u32], names: &[&[u8]], way: Way) -> Vec<Held> {
        let of_tag = |&tag: &u32| {
            let held = move |name: &&[u8]| self.attribute(tag as usize, name, way);
            names.iter().map(held)
        };
        tags.iter().flat_map(of_tag).collect()
    }

    pub fn texts(&self, tags: &[u32]) -> Texts {
        Texts::of(tags.iter().map(|&tag| self.text(tag as usize)))
    }
}
