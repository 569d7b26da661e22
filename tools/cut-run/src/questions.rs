//! What is asked of a page: attribute names and selectors, from what occurs in it and from outside.

use std::collections::BTreeSet;
use std::ops::Range;

use common::{identifier_runs, is_identifier, Random};
use tl_rattle::{words_for, Dom};

/// What is asked at every cut.
#[derive(Clone)]
pub struct Questions {
    pub names: Vec<Vec<u8>>,
    pub classes: Vec<Vec<u8>>,
    pub selectors: Vec<Vec<u8>>,
    /// of how many tags, the latest and others by chance, every name and the text is asked
    pub tags: usize,
    /// and below how many every selector
    pub below: usize,
    /// whether every class and selector is asked in the finished view, or some in turn
    pub in_view: bool,
}

/// How much is asked: at most so many names, classes and tags, and as many selectors.
pub struct Extent {
    pub names: usize,
    pub classes: usize,
    pub selectors: usize,
    pub tags: usize,
    pub below: usize,
}

/// What occurs in a page.
struct Words {
    tags: Vec<Vec<u8>>,
    names: Vec<Vec<u8>>,
    values: Vec<(Vec<u8>, Vec<u8>)>,
    ids: Vec<Vec<u8>>,
    classes: Vec<Vec<u8>>,
}

pub fn questions(random: &mut Random, dom: &Dom<'_>, extent: &Extent) -> Questions {
    let words = words(dom);
    let mut names: Vec<Vec<u8>> = [&b"id"[..], b"class", b"absent-one", b""]
        .map(Vec::from)
        .into();
    let mut found = words.names.clone();
    while names.len() < extent.names && !found.is_empty() {
        let name = found.swap_remove(random.below(found.len()));
        if !names.contains(&name) {
            names.push(name);
        }
    }
    Questions {
        names,
        // of a source beside, so that what was asked before they were stays as it was
        classes: classes(&mut random.clone(), &words, extent.classes),
        selectors: selectors(random, &words, extent.selectors),
        tags: extent.tags,
        below: extent.below,
        in_view: false,
    }
}

// ---- what occurs

/// The bytes of a tag, which end after its opening `>`, and what is white in them.
struct Opening<'p> {
    bytes: &'p [u8],
    white: Vec<u8>,
}

impl Opening<'_> {
    fn is_white(&self, byte: u8) -> bool {
        self.white.contains(&byte)
    }

    /// The place after the bytes from here on that are so.
    fn run(&self, at: usize, of: impl Fn(u8) -> bool) -> usize {
        let rest = &self.bytes[at..];
        at + rest.iter().take_while(|byte| of(**byte)).count()
    }

    /// The value that starts here.
    fn value(&self, at: usize) -> Range<usize> {
        match self.bytes.get(at) {
            Some(&quote @ (b'"' | b'\'')) => at + 1..self.run(at + 1, |byte| byte != quote),
            _ => {
                at..self.run(at, |byte| {
                    !self.is_white(byte) && byte != b'/' && byte != b'>'
                })
            }
        }
    }

    /// The names and values of the attributes.
    fn attributes(&self) -> Vec<(Range<usize>, Option<Range<usize>>)> {
        let ends = |at: usize| matches!(self.bytes.get(at), None | Some(b'/' | b'>'));
        let is_white = |byte| self.is_white(byte);
        let mut all = Vec::new();
        let mut at = self.run(0, is_white);
        while !ends(at) {
            let name = at..self.run(at, is_identifier);
            at = self.run(name.end, is_white);
            let mut value = None;
            if self.bytes.get(at) == Some(&b'=') {
                let read = self.value(self.run(at + 1, is_white));
                at = read.end;
                value = Some(read);
            }
            all.push((name, value));
            if !ends(at) {
                at += 1;
            }
            at = self.run(at, is_white);
        }
        all
    }
}

fn words(dom: &Dom<'_>) -> Words {
    let page = dom.page();
    let mut tags = BTreeSet::new();
    let mut names = BTreeSet::new();
    let mut values = BTreeSet::new();
    let mut ids = BTreeSet::new();
    let mut classes = BTreeSet::new();
    for node in dom.nodes() {
        let (Some(name), Some(opened)) = (node.name(), node.opened()) else {
            continue;
        };
        tags.insert(name.to_vec());
        let name_end = dom.table()[words_for(node.handle().index()) + 4] as usize;
        let bytes = &page[name_end..opened];
        let opening = Opening {
            bytes,
            white: dom.profile().white().collect(),
        };
        for (name, value) in opening.attributes() {
            let name = bytes[name].to_vec();
            names.insert(name.clone());
            let Some(value) = value else { continue };
            let value = &bytes[value];
            match &name[..] {
                b"id" => drop(ids.insert(value.to_vec())),
                b"class" => classes.extend(cut_at_white(value).map(Vec::from)),
                _ => {}
            }
            values.insert((name, value.to_vec()));
        }
    }
    Words {
        tags: tags.into_iter().collect(),
        names: names.into_iter().collect(),
        values: values.into_iter().collect(),
        ids: ids.into_iter().collect(),
        classes: classes.into_iter().collect(),
    }
}

fn cut_at_white(value: &[u8]) -> impl Iterator<Item = &[u8]> {
    let parts = value.split(|byte| [9, 10, 12, 13, 32].contains(byte));
    parts.filter(|part| !part.is_empty())
}

// ---- classes and selectors

/// Of those that occur, and one that need not.
fn classes(random: &mut Random, words: &Words, many: usize) -> Vec<Vec<u8>> {
    let mut all = random.some_of(&words.classes, many.saturating_sub(1));
    all.push(word(random, &words.classes, CLASSES));
    all
}

#[rustfmt::skip]
const UNREAD: &[&[u8]] = &[
    b"", b" ", b"a,", b",a", b"a,,b", b"[", b"[k", b"[k=", b"[k=v", b"[k=\"x y\"]", b"[k='v\"]",
    b"[k~v]", b"[k|=v]", b"!", b"a >", b"> a", b"a!", b"(a)", b"a\tb", b"\xff", b"a\xc2\xa0b",
    b"[k=v]]", b"a\n",
];

/// Classes besides those that occur.
const CLASSES: &[&[u8]] = &[b"fill", b"", b"none"];

/// Of every kind and with every joiner, some that cannot be read, some that are too long; then others by chance.
fn selectors(random: &mut Random, words: &Words, many: usize) -> Vec<Vec<u8>> {
    let mut all: Vec<Vec<u8>> = Vec::new();
    for kind in 1..=10 {
        all.push(simple(random, words, kind));
    }
    for joiner in 1..=4 {
        all.push(chain(random, words, joiner));
    }
    all.push(random.text(UNREAD).to_vec());
    all.push(random.text(UNREAD).to_vec());
    all.push(too_long(random, words));
    all.push(just_fits(random, words));
    all.push(scrambled(random));
    // fewer: a part of these; more: others by chance
    while all.len() > many {
        all.swap_remove(random.below(all.len()));
    }
    while all.len() < many {
        let joiner = random.between(1, 4);
        let one = match random.below(8) {
            0 => simple_of_any_kind(random, words),
            1 => scrambled(random),
            2 => [simple_of_any_kind(random, words), b"  ".to_vec()].concat(),
            3 => broken(random, words),
            _ => chain(random, words, joiner),
        };
        all.push(one);
    }
    all
}

fn word(random: &mut Random, some: &[Vec<u8>], other: &[&[u8]]) -> Vec<u8> {
    if some.is_empty() || random.once_in(8) {
        random.text(other).to_vec()
    } else {
        random.of(some).clone()
    }
}

fn simple_of_any_kind(random: &mut Random, words: &Words) -> Vec<u8> {
    let kind = random.between(1, 10);
    simple(random, words, kind)
}

/// One simple selector of a kind, 1 to 10.
fn simple(random: &mut Random, words: &Words, kind: usize) -> Vec<u8> {
    match kind {
        1 => word(random, &words.tags, &[b"a", b"tr", b"none", b"A"]),
        2 => [
            b"#".to_vec(),
            word(random, &words.ids, &[b"a", b"", b"none"]),
        ]
        .concat(),
        3 => [b".".to_vec(), word(random, &words.classes, CLASSES)].concat(),
        4 => b"*".to_vec(),
        5 => {
            let name = word(random, &words.names, &[b"k", b"", b"id", b"class"]);
            [&b"["[..], &name, b"]"].concat()
        }
        _ => {
            let (name, value) = if words.values.is_empty() || random.once_in(8) {
                (b"k".to_vec(), b"v".to_vec())
            } else {
                random.of(&words.values).clone()
            };
            let value = part_of(random, &value, kind);
            let operator: &[u8] = [&b"="[..], b"~=", b"^=", b"$=", b"*="][kind - 6];
            let quote: &[u8] = random.text(&[b"", b"", b"\"", b"'"]);
            [b"[", &name[..], operator, quote, &value, quote, b"]"].concat()
        }
    }
}

/// A part of a value that a selector of this kind would find, mostly.
fn part_of(random: &mut Random, value: &[u8], kind: usize) -> Vec<u8> {
    // a selector with other than identifier bytes in its value cannot be read
    let runs = identifier_runs(value);
    if runs.is_empty() || random.once_in(10) {
        return random.text(&[b"", b"v", b"a", value]).to_vec();
    }
    let run = random.pick(&runs);
    let at = random.between(0, run.len());
    match kind {
        8 => run[..at].to_vec(),
        9 => run[at..].to_vec(),
        10 => run[at.min(run.len() / 2)..run.len() - at / 2].to_vec(),
        _ => run.to_vec(),
    }
}

fn joined(random: &mut Random, joiner: usize) -> &'static [u8] {
    match joiner {
        1 => b"",
        2 => random.text(&[b",", b", ", b" , ", b"  ,"]),
        3 => random.text(&[b" ", b"   "]),
        _ => random.text(&[b">", b" > ", b"> "]),
    }
}

/// A chain of two pieces or more, one of the joiners given.
fn chain(random: &mut Random, words: &Words, joiner: usize) -> Vec<u8> {
    let before = random.text(&[b"", b"", b"", b" "]).to_vec();
    let mut selector = [before, simple_of_any_kind(random, words)].concat();
    selector.extend_from_slice(joined(random, joiner));
    selector.extend(simple_of_any_kind(random, words));
    for _ in 0..random.below(3) {
        // the joiners that can find something, mostly
        let joiner = *random.of(&[1, 1, 2, 2, 2, 3, 4]);
        selector.extend_from_slice(joined(random, joiner));
        selector.extend(simple_of_any_kind(random, words));
    }
    selector
}

/// Over 128 bytes.
fn too_long(random: &mut Random, words: &Words) -> Vec<u8> {
    if random.once_in(2) {
        return vec![b'a'; random.between(129, 200)];
    }
    let mut selector = simple_of_any_kind(random, words);
    while selector.len() <= 128 {
        selector.push(b',');
        selector.extend(simple_of_any_kind(random, words));
    }
    selector
}

/// Of exactly 128 bytes.
fn just_fits(random: &mut Random, words: &Words) -> Vec<u8> {
    let mut selector = simple_of_any_kind(random, words);
    selector.truncate(100);
    selector.push(b',');
    selector.resize(128, *random.of(b"a*. "));
    selector
}

fn scrambled(random: &mut Random) -> Vec<u8> {
    let long = random.between(1, 12);
    (0..long)
        .map(|_| *random.of(b"##..**[[]]==~^$|>,  abk'\"-/\xc2\xa0"))
        .collect()
}

/// A selector with a byte lost or changed.
fn broken(random: &mut Random, words: &Words) -> Vec<u8> {
    let mut selector = chain(random, words, 2);
    let at = random.below(selector.len());
    if random.once_in(2) {
        selector.remove(at);
    } else {
        selector[at] = *random.of(b"[]=\"', >*\t!");
    }
    selector
}

#[cfg(test)]
mod tests {
    use super::*;
    use crate::{pages, profiles};
    use tl_rattle::{Held, Refusal};

    const EXTENT: Extent = Extent {
        names: usize::MAX,
        classes: 2,
        selectors: 40,
        tags: 0,
        below: 0,
    };

    /// The names that are read from the page here are those that the calls find.
    fn names_are_held(dom: &Dom<'_>) {
        for name in words(dom).names {
            let mut tags = dom.nodes().filter(|node| node.is_tag());
            let held = |handle| dom.attribute(handle, &name).unwrap() != Held::Absent;
            // an id or class without a value counts as absent
            let bare = name == b"id" || name == b"class";
            assert!(bare || tags.any(|tag| held(tag.handle())));
        }
    }

    #[test]
    fn names_that_occur_are_held() {
        let page = b"<i b cd><p k = 'a b' id=x/>";
        let dom = tl_rattle::parse(page).unwrap();
        assert_eq!(words(&dom).names, [&b"b"[..], b"d", b"id", b"k"]);
        for number in 0..300 {
            let mut random = Random::for_page(1, number);
            for kind in pages::KINDS {
                let page = pages::page(&mut random, kind, 200);
                names_are_held(&tl_rattle::parse(&page).unwrap());
                let profile = profiles::profile(&mut random, &page);
                let page = profiles::adapted(&mut random, &profile, page);
                names_are_held(&tl_rattle::parse_with(&profile, &page).unwrap());
            }
        }
    }

    #[test]
    fn selectors_are_of_every_sort() {
        let (mut read, mut unread, mut long) = (0, 0, 0);
        for number in 0..50 {
            let mut random = Random::for_page(1, number);
            let page = pages::page(&mut random, pages::Kind::Nested, 300);
            let dom = tl_rattle::parse(&page).unwrap();
            let questions = questions(&mut random, &dom, &EXTENT);
            assert_eq!(questions.selectors.len(), EXTENT.selectors);
            for selector in &questions.selectors {
                match dom.query_selector(selector) {
                    Ok(_) => read += 1,
                    Err(Refusal::SelectorNotRead) => unread += 1,
                    Err(Refusal::SelectorTooLong) => long += 1,
                    Err(refusal) => panic!("{refusal}"),
                }
            }
        }
        assert!(read > 1000 && unread > 50 && long >= 50);
    }
}
