//! Selectors: every short one, random ones, and such as may find something in a page.
use crate::model::SELECTOR_LIMIT;
use common::{identifier_runs, Random};
use std::collections::BTreeSet;

/// The words of a page, for selectors and lookups.
#[derive(Default)]
pub struct Words<'p> {
    pub tags: BTreeSet<&'p [u8]>,
    pub names: BTreeSet<&'p [u8]>,
    pub values: BTreeSet<&'p [u8]>,
    pub ids: BTreeSet<&'p [u8]>,
    pub classes: BTreeSet<&'p [u8]>,
}

/// The bytes of which every short selector is made.
pub const ALPHABET: [u8; 13] = *b"a#.*[]=\"' ,>~";

/// The selectors that the paper names.
pub const CHECKED: [&str; 14] = [
    "",
    "a,",
    "a+b",
    "a,b c",
    "[k=\"x y\"]",
    "[k='x\"]",
    "*",
    "[k]",
    "[k~=v]",
    "[]",
    "#",
    ". a",
    "table tr.fill > td",
    "a  ",
];

const BITS: [&[u8]; 30] = [
    b"a",
    b"td",
    b"x+y",
    b"#",
    b".",
    b"*",
    b"[",
    b"]",
    b"=",
    b"~=",
    b"^=",
    b"$=",
    b"*=",
    b"\"",
    b"'",
    b" ",
    b"  ",
    b",",
    b">",
    b"id",
    b"class",
    b"k",
    b"[k]",
    b"[k=v]",
    b"[k*='v']",
    b"\t",
    b"\n",
    b"\xc3\xa9",
    b"\xff",
    b"~",
];

/// A random text that is seldom a selector.
pub fn any(random: &mut Random) -> Vec<u8> {
    let bits = random.below(12);
    (0..bits)
        .flat_map(|_| random.pick(&BITS).to_vec())
        .collect()
}

/// A selector that can be read, out of a page's words and others. Not all of a page's words are identifiers; then it is
/// refused, on all sides alike.
pub fn about(words: &Words, random: &mut Random) -> Vec<u8> {
    let mut selector = Vec::new();
    loop {
        piece(words, random, &mut selector);
        let joiner: &[u8] = match random.below(8) {
            0 => b"",
            1 => b",",
            2 => b" , ",
            3 if random.once_in(3) => b" ",
            4 if random.once_in(3) => b">",
            _ => return selector,
        };
        selector.extend(joiner);
    }
}

/// A selector whose length is near the limit, on either side.
pub fn around_limit(random: &mut Random) -> Vec<u8> {
    let length = SELECTOR_LIMIT - 4 + random.below(9);
    of_length(length, random)
}

/// A selector of exactly this many bytes that can be read: long names, or many pieces.
pub fn of_length(length: usize, random: &mut Random) -> Vec<u8> {
    let mut selector = Vec::new();
    if random.once_in(4) {
        selector.resize(length, b'a');
        return selector;
    }
    let words = Words::default();
    loop {
        let mut next = selector.clone();
        piece(&words, random, &mut next);
        next.push(b',');
        if next.len() >= length {
            break;
        }
        selector = next;
    }
    selector.resize(length, b'z');
    selector
}

fn piece(words: &Words, random: &mut Random, selector: &mut Vec<u8>) {
    match random.below(10) {
        0 | 1 => selector.extend(word(&words.tags, &[b"a", b"td", b"br"], random)),
        2 => {
            selector.push(b'#');
            selector.extend(word(&words.ids, &[b"", b"i"], random));
        }
        3 | 4 => {
            selector.push(b'.');
            selector.extend(word(&words.classes, &[b"", b"c"], random));
        }
        5 if random.once_in(3) => selector.push(b'*'),
        _ => bracket(words, random, selector),
    }
}

fn bracket(words: &Words, random: &mut Random, selector: &mut Vec<u8>) {
    const TESTS: [&[u8]; 6] = [b"", b"=", b"~=", b"^=", b"$=", b"*="];
    const QUOTES: [&[u8]; 3] = [b"", b"\"", b"'"];
    selector.push(b'[');
    selector.extend(word(&words.names, &[b"", b"id", b"class", b"k"], random));
    let test = random.pick(&TESTS);
    if !test.is_empty() {
        let quote = random.pick(&QUOTES);
        let value = word(&words.values, &[b"", b"v", b"c"], random);
        selector.extend([test, quote, run_within(value, random), quote].concat());
    }
    selector.push(b']');
}

/// A word of the page, or one of the others if there is none, and now and then all the same.
fn word<'w>(from: &BTreeSet<&'w [u8]>, others: &[&'w [u8]], random: &mut Random) -> &'w [u8] {
    if from.is_empty() || random.once_in(6) {
        return random.pick(others);
    }
    let nth = random.below(from.len());
    from.iter().nth(nth).copied().unwrap_or_default()
}

/// A part of a value that a selector can name: one of its runs of identifier bytes, perhaps shortened at either end.
fn run_within<'v>(value: &'v [u8], random: &mut Random) -> &'v [u8] {
    let runs = identifier_runs(value);
    if runs.is_empty() {
        return b"";
    }
    let run = random.pick(&runs);
    match random.below(6) {
        0 => &run[random.below(run.len())..],
        1 => &run[..random.below(run.len() + 1)],
        _ => run,
    }
}
