//! What is asked of a page. Of a short one every tag is asked, and for every attribute name of the page; of a long one some
//! tags at random, since each of the library's calls looks over the whole table and all questions to all tags would grow
//! with the square of the page.
use crate::lists::{self, List, Source};
use crate::model::{class_words, Asked, Names, PAPER};
use crate::question::Question;
use crate::selectors::{self, Words};
use common::Random;
use std::collections::BTreeSet;

/// At most so many tags are asked for ranges and texts, and so many lookups of attributes are made.
const TAGS: usize = 16;
const LOOKUPS: usize = 120;
/// On pages of up to so many bytes the place after each opening `>` is put to tl; elsewhere that of one tag.
const ALL_OPENINGS: usize = 12;

/// A fallback of a lookup that no page holds.
pub const VENUE: &[u8] = b"XNYS";

#[derive(Default)]
pub struct Asks {
    pub tags: Vec<usize>,
    pub openings: Vec<usize>,
    pub attributes: Vec<(usize, Vec<u8>)>,
    pub ids: Vec<Vec<u8>>,
    pub classes: Vec<Vec<u8>>,
    pub selectors: Vec<Vec<u8>>,
    pub below: Vec<(usize, Vec<u8>)>,
    pub lists: Vec<List>,
}

impl Asks {
    pub fn of_page(asked: &Asked, random: &mut Random) -> Asks {
        let tags = tags(asked);
        let words = words(asked, &tags);
        let few = random.some_of(&tags, TAGS);
        let selectors = selectors(&words, few.len(), random);
        let openings = match asked.page.len() <= ALL_OPENINGS {
            true => few.clone(),
            false => random.some_of(&few, 1),
        };
        let attributes = lookups(asked, &tags, &words, random);
        let ids = sought(&words.ids, &[b"", b"i", b"no-such-id"], random);
        let classes = sought(&words.classes, &[b"", b"c", b"no-such-class"], random);
        let below = below(&few, &selectors, random);
        let source = Source {
            asked,
            tags: &tags,
            words: &words,
            classes: &classes,
            selectors: &selectors,
        };
        Asks {
            lists: source.lists(random),
            openings,
            attributes,
            ids,
            classes,
            below,
            selectors,
            tags: few,
        }
    }

    /// These selectors too.
    pub fn also(mut self, selectors: &[&str]) -> Asks {
        let more = selectors
            .iter()
            .map(|selector| selector.as_bytes().to_vec());
        self.selectors.extend(more);
        self
    }

    /// The question of a difference once more, to whatever tags another page has.
    pub fn again(question: &Question, asked: &Asked) -> Asks {
        let tags = tags(asked);
        let mut asks = Asks::default();
        match question {
            Question::Range(_) | Question::Text(_) => asks.tags = tags,
            Question::Opening(_) => asks.openings = tags,
            Question::Attribute(_, name) | Question::AttributeOr(_, name) => {
                asks.attributes = tags.into_iter().map(|tag| (tag, name.clone())).collect();
            }
            Question::Id(_, id) => asks.ids.push(id.clone()),
            Question::Class(_, class) => asks.classes.push(class.clone()),
            Question::Query(_, selector) => asks.selectors.push(selector.clone()),
            Question::Below(_, _, selector) => {
                asks.below = tags
                    .into_iter()
                    .map(|tag| (tag, selector.clone()))
                    .collect();
            }
            Question::Attributes(handles, name) => {
                asks.lists = lists_again(handles, asked, name, &Names::default());
            }
            Question::AttributesForNames(handles, names) => {
                asks.lists = lists_again(handles, asked, b"", names);
            }
            Question::Texts(handles) => {
                asks.lists = lists_again(handles, asked, b"", &Names::default());
            }
            _ => {}
        }
        asks
    }
}

/// The list of all tags, and the same list, whether these are tags now or not.
fn lists_again(handles: &[u32], asked: &Asked, name: &[u8], names: &Names) -> Vec<List> {
    let all = tags(asked).into_iter().take(lists::most(asked));
    let all = all.map(|tag| tag as u32).collect();
    [all, handles.to_vec()]
        .map(|handles| List {
            handles,
            name: name.to_vec(),
            names: names.clone(),
        })
        .into()
}

fn tags(asked: &Asked) -> Vec<usize> {
    (0..asked.rows.len())
        .filter(|&handle| asked.rows[handle].is_tag())
        .collect()
}

/// The words of a page that are worth asking for. Of a long page only some tags are looked at.
fn words<'p>(asked: &Asked<'p>, tags: &[usize]) -> Words<'p> {
    let mut words = Words::default();
    let step = tags.len() / 64 + 1;
    for &tag in tags.iter().step_by(step) {
        let (start, end) = asked.rows[tag].name;
        words.tags.insert(&asked.page[start..end]);
        for name in asked.names(tag) {
            words.names.insert(name);
            words.values.extend(asked.value(tag, name, PAPER));
        }
        words.ids.extend(asked.value(tag, b"id", PAPER));
        if let Some(value) = asked.value(tag, b"class", PAPER) {
            words.classes.extend(class_words(value));
            words.classes.insert(value);
        }
    }
    words
}

/// Every name of the page and two absent ones for every tag, or as many at random as there may be.
fn lookups(
    asked: &Asked,
    tags: &[usize],
    words: &Words,
    random: &mut Random,
) -> Vec<(usize, Vec<u8>)> {
    const OTHERS: [&[u8]; 6] = [b"", b"id", b"class", b"a", b"k", b"no-such-name"];
    let mut names: BTreeSet<&[u8]> = words.names.clone();
    names.insert(random.pick(&OTHERS));
    names.insert(random.pick(&OTHERS));
    let names: Vec<&[u8]> = names.into_iter().collect();
    if tags.len() * names.len() <= LOOKUPS {
        let of_tag = |&tag: &usize| names.iter().map(move |name| (tag, name.to_vec()));
        return tags.iter().flat_map(of_tag).collect();
    }
    let any = |_| {
        let tag = tags[random.below(tags.len())];
        let own: Vec<&[u8]> = asked.names(tag).collect();
        let name = match own.is_empty() || random.once_in(3) {
            true => random.pick(&names),
            false => random.pick(&own),
        };
        (tag, name.to_vec())
    };
    (0..LOOKUPS).map(any).collect()
}

/// Some of the page's words, and one other.
fn sought(words: &BTreeSet<&[u8]>, others: &[&[u8]], random: &mut Random) -> Vec<Vec<u8>> {
    let words: Vec<&[u8]> = words.iter().copied().collect();
    let mut sought = random.some_of(&words, 4);
    let other = random.pick(others);
    if !sought.contains(&other) {
        sought.push(other);
    }
    sought.into_iter().map(<[u8]>::to_vec).collect()
}

fn selectors(words: &Words, tags: usize, random: &mut Random) -> Vec<Vec<u8>> {
    let count = if tags == 0 { 1 } else { 4 };
    let mut all = vec![b"*".to_vec()];
    all.extend((0..count).map(|_| match random.below(60) {
        0 => selectors::around_limit(random),
        1..=3 => selectors::any(random),
        _ => selectors::about(words, random),
    }));
    all
}

/// Each selector below some tags.
fn below(tags: &[usize], selectors: &[Vec<u8>], random: &mut Random) -> Vec<(usize, Vec<u8>)> {
    let mut all = Vec::new();
    for selector in selectors.iter().take(3) {
        for tag in random.some_of(tags, 3) {
            all.push((tag, selector.clone()));
        }
    }
    all
}
