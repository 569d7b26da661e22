//! Lists of handles that are asked at once, and the names that their tags are asked for.
use crate::model::{self, Asked, Manner, Names, PAPER};
use crate::selectors::Words;
use common::Random;

/// At most so many handles of a list are taken from a page, and so many where it has many rows: for each text the model goes
/// through all rows below the tag.
const LISTED: usize = 300;
const LISTED_OF_MANY: usize = 30;
const MANY_ROWS: usize = 4_000;

#[derive(Clone)]
pub struct List {
    pub handles: Vec<u32>,
    /// the one name of the call for one
    pub name: Vec<u8>,
    pub names: Names,
}

/// At most how many handles of a page are taken into a list.
pub fn most(asked: &Asked) -> usize {
    match asked.rows.len() > MANY_ROWS {
        true => LISTED_OF_MANY,
        false => LISTED,
    }
}

/// What the lists of a page are made from.
pub struct Source<'s, 'p> {
    pub asked: &'s Asked<'p>,
    pub tags: &'s [usize],
    pub words: &'s Words<'p>,
    pub classes: &'s [Vec<u8>],
    pub selectors: &'s [Vec<u8>],
}

impl Source<'_, '_> {
    /// All tags, another list, and one with a handle in it that is no tag's.
    pub fn lists(&self, random: &mut Random) -> Vec<List> {
        let all = self.all(random);
        let other = match self.tags.is_empty() {
            true => Vec::new(),
            false => self.other(&all, random),
        };
        let either = if random.once_in(2) { &all } else { &other };
        let spoilt = self.spoilt(either, random);
        let mut lists = vec![all, other, spoilt];
        lists.dedup();
        lists
            .into_iter()
            .map(|handles| self.list(handles, random))
            .collect()
    }

    fn all(&self, random: &mut Random) -> Vec<u32> {
        let tags = random.some_of(self.tags, most(self.asked));
        tags.into_iter().map(|tag| tag as u32).collect()
    }

    /// What a lookup finds, tags in any order and some more than once, all backwards, or none.
    fn other(&self, all: &[u32], random: &mut Random) -> Vec<u32> {
        match random.below(8) {
            0 => Vec::new(),
            1 => all.iter().rev().copied().collect(),
            2 | 3 => self.found(random),
            _ => {
                let length = random.below(2 * all.len().min(12) + 1);
                (0..length).map(|_| all[random.below(all.len())]).collect()
            }
        }
    }

    /// A query may find nodes that are no tags.
    fn found(&self, random: &mut Random) -> Vec<u32> {
        let asked = self.asked;
        let found = if random.once_in(2) {
            let class = &self.classes[random.below(self.classes.len())];
            asked.by_class(Manner::Closed, class, PAPER)
        } else {
            let selector = &self.selectors[random.below(self.selectors.len())];
            let chain = model::read_selector(selector).unwrap_or_default();
            asked.find(0, asked.rows.len(), selector, &chain, PAPER)
        };
        let found = found.into_iter().take(most(self.asked));
        found.map(|handle| handle as u32).collect()
    }

    /// A handle that is no tag's at any place of a list: a text's or comment's, or one that the page does not have.
    fn spoilt(&self, handles: &[u32], random: &mut Random) -> Vec<u32> {
        let rows = self.asked.rows;
        let any = random.below(rows.len());
        let bad = match random.below(4) {
            0 | 1 if rows.get(any).is_some_and(|row| !row.is_tag()) => any,
            2 => rows.len() + random.below(3),
            3 => u32::MAX as usize - random.below(2),
            _ => rows.len(),
        };
        let mut spoilt = handles.to_vec();
        spoilt.insert(random.below(handles.len() + 1), bad as u32);
        spoilt
    }

    fn list(&self, handles: Vec<u32>, random: &mut Random) -> List {
        const OTHERS: [&[u8]; 6] = [b"", b"id", b"class", b"a", b"k", b"no-such-name"];
        let own: Vec<&[u8]> = self.words.names.iter().copied().collect();
        let mut name = || match own.is_empty() || random.once_in(4) {
            true => random.pick(&OTHERS),
            false => random.pick(&own),
        };
        let one = name().to_vec();
        let several: Vec<&[u8]> = (0..5).map(|_| name()).collect();
        let mut names = Names::of(&several[..random.below(several.len() + 1)]);
        if random.once_in(4) {
            change_ends(&mut names, random);
        }
        List {
            handles,
            name: one,
            names,
        }
    }
}

/// Gives some names other ends: before their start, past the text, or anywhere.
fn change_ends(names: &mut Names, random: &mut Random) {
    let length = names.text.len();
    for end in &mut names.ends {
        match random.below(5) {
            0 => *end = random.below(length + 1),
            1 => *end = length + random.below(3),
            2 => *end = usize::MAX - random.below(2),
            _ => {}
        }
    }
}
