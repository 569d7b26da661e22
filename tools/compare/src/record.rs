//! Records questions with tl's answers for the program `replay`: what it is asked (`stdin`) and what it must print (`stdout`).
//! crates/replay/src/main.rt has the form of both.
//!
//! Each answer to an accepted question about a page is tl's, of a list of handles tl's for one tag after the other. tl keeps no
//! table, so the words of one are the model's, once tl's nodes and the model's are the same. Nor has it views: in the finished one
//! the model leaves out of tl's finds those that are not finished, and says which tag has an id. Nor fallbacks: where tl has no value
//! the model hands back the fallback. Refusals, what a buffer holds after a call, and what is answered about a table that no reading
//! made follow the paper. `replay` starts with tl's profile; the last questions are asked under others, and follow the paper too.
mod fallbacks;
mod lists;
mod profiles;

use crate::asks::Asks;
use crate::execution;
use crate::model::{
    self, tl_profile, words_for, Asked, Held, Kind, Manner, Piece, View, HEADER_WORDS, PAGE_LIMIT,
    ROW_WORDS, SELECTOR_LIMIT,
};
use crate::pages;
use crate::selectors;
use crate::tl_side::{self, TlPage};
use common::Random;
use std::fmt::Write as _;
use std::fs;
use std::io;
use std::path::Path;

/// What `replay` sets every entry of a buffer to before a call.
const MARK: usize = 9;
/// The words of its table, and the most rows that it has room for.
const WORDS: usize = 16_384;
const ROWS: usize = (WORDS - HEADER_WORDS) / ROW_WORDS;
/// The most questions of one kind that are recorded of a random page.
const FEW: usize = 5;

#[derive(Default)]
struct Recording {
    asked: Vec<u8>,
    printed: String,
    records: usize,
    /// how many bytes the page has that is asked about
    page_bytes: usize,
}

type Answer = Result<Vec<usize>, usize>;

impl Recording {
    /// One question: its numbers and bytes, and the line that answers it.
    fn record(&mut self, numbers: [usize; 4], bytes: &[u8], word: &str, answer: &[usize]) {
        let [operation, x, y, z] = numbers;
        let head = format!("{operation} {x} {y} {z} {}\n", bytes.len());
        self.asked.extend(head.as_bytes());
        self.asked.extend(bytes);
        self.asked.push(b'\n');
        self.printed.push_str(word);
        for number in answer {
            write!(self.printed, " {number}").expect("a string takes it");
        }
        self.printed.push('\n');
        self.records += 1;
        // a page, `y` times over
        if operation == 1 {
            self.page_bytes = bytes.len() * y;
        }
    }

    /// A question that fills a buffer of `room` entries, `each` for one of what is counted.
    fn list(&mut self, ask: ([usize; 4], &[u8], &str), room: usize, each: usize, answer: &Answer) {
        let said = match answer {
            Ok(found) => filled(found.len() / each, &[(room, found)]),
            Err(number) => refused(*number, room),
        };
        self.record(ask.0, ask.1, ask.2, &said);
    }

    /// The same with a buffer that is exactly full, with one that is one short, and with one to spare.
    fn rooms(
        &mut self,
        ask: impl Fn(usize) -> [usize; 4],
        bytes: &[u8],
        word: &str,
        each: usize,
        answer: &Answer,
    ) {
        let size = answer.as_ref().map_or(0, Vec::len);
        for room in [size, size + 1].into_iter().chain(size.checked_sub(1)) {
            self.list((ask(room), bytes, word), room, each, answer);
        }
    }

    /// A page, `text` so many times over, read into a table of so many words. Answers the words.
    fn page(&mut self, text: &[u8], times: usize, words: usize) -> Vec<u32> {
        let page = text.repeat(times);
        let answer = match page.len() > PAGE_LIMIT {
            true => refused(1, words),
            false => read(&page, words),
        };
        self.record([1, words, times, 0], text, "parse", &answer);
        answer[2..].iter().map(|&word| word as u32).collect()
    }

    /// Word `i` of the table becomes `value`.
    fn word(&mut self, i: usize, value: usize) {
        self.record([12, i, value, 0], b"", "word", &[i, value]);
    }

    /// Byte `i` of the profile becomes `value`.
    fn byte(&mut self, i: usize, value: usize) {
        self.record([14, i, value, 0], b"", "byte", &[i, value]);
    }

    fn selector(&mut self, selector: &[u8]) {
        let answer = match tl_side::read_selector(selector) {
            _ if selector.len() > SELECTOR_LIMIT => Err(5),
            None => Err(6),
            Some(chain) => Ok(chain.iter().flat_map(words_of).collect()),
        };
        self.rooms(|room| [7, 0, room, 0], selector, "selector", 6, &answer);
    }
}

/// What an accepted call says that fills buffers, each of so many entries; it is refused if one of them has too few.
fn filled(count: usize, buffers: &[(usize, &[usize])]) -> Vec<usize> {
    if buffers.iter().any(|(room, found)| *room < found.len()) {
        return refused(7, buffers.iter().map(|(room, _)| room).sum());
    }
    let mut said = vec![0, count];
    for (room, found) in buffers {
        let end = said.len() + room;
        said.extend(*found);
        said.resize(end, MARK);
    }
    said
}

fn refused(number: usize, room: usize) -> Vec<usize> {
    let mut said = vec![number, 0];
    said.resize(2 + room, 0);
    said
}

fn words_of(piece: &Piece) -> [usize; 6] {
    let (first, second) = (piece.first, piece.second);
    [
        piece.kind as usize,
        first.0,
        first.1,
        second.0,
        second.1,
        piece.joiner as usize,
    ]
}

/// What reading a page into so many words answers, and the words.
fn read(page: &[u8], words: usize) -> Vec<usize> {
    let reading = model::read(page, tl_profile());
    let rows = TlPage::read(tl_side::as_str(page)).rows();
    assert_eq!(rows.len(), reading.rows.len());
    for (tl, row) in rows.iter().zip(&reading.rows) {
        assert_eq!((tl.kind, tl.parent), (row.kind, row.parent));
        assert!(tl.place.is_none_or(|place| place == (row.start, row.end)));
        assert!(row.kind != Kind::Tag || tl.name == row.name);
    }
    let table = model::words_of(page.len(), &reading);
    if words < table.len() {
        return refused(2, words);
    }
    let mut said = vec![0, reading.rows.len()];
    said.extend(table.iter().map(|&word| word as usize));
    said.resize(2 + words, MARK);
    said
}

/// The numbers of the views, and those of a manner with a view.
const VIEWS: [(usize, View); 2] = [(0, View::All), (1, View::Finished)];
const MANNERS: [([usize; 2], Manner); 3] = [
    ([0, 0], Manner::Scan(View::All)),
    ([0, 1], Manner::Scan(View::Finished)),
    ([1, 0], Manner::Closed),
];

/// Whether tl's answers on this page are the paper's, and `replay` has room for it.
fn is_plain(page: &[u8]) -> bool {
    let reading = model::read(page, tl_profile());
    let asked = Asked::new(page, &reading.rows, tl_profile());
    let mut tags = (0..reading.rows.len()).filter(|&handle| reading.rows[handle].is_tag());
    std::str::from_utf8(page).is_ok()
        && reading.rows.len() <= ROWS
        && !tags.any(|tag| asked.repeats(tag) || asked.has_bad_class(tag))
}

/// Reads a page and asks tl what `asks` names.
fn questions(to: &mut Recording, page: &[u8], random: &mut Random) {
    let reading = model::read(page, tl_profile());
    let asked = Asked::new(page, &reading.rows, tl_profile());
    let asks = Asks::of_page(&asked, random);
    let tl = TlPage::read(tl_side::as_str(page));
    to.page(page, 1, words_for(reading.rows.len()) + random.below(3));
    let beyond = reading.rows.len() + random.below(3);
    to.record([2, beyond, 0, 0], b"", "range", &[4, 0, 0, 0]);
    for &tag in asks.tags.iter().take(FEW) {
        let range = tl
            .range(tag)
            .map_or([0; 3], |(first, last)| [last + 1 - first, first, last]);
        to.record([2, tag, 0, 0], b"", "range", &[&[0], &range[..]].concat());
        let text = Ok(numbers_of(&tl.text_parts(tag).concat()));
        to.rooms(|room| [4, tag, room, 0], b"", "text", 1, &text);
    }
    for (tag, name) in asks.attributes.iter().take(3 * FEW) {
        let held = three_of(tl.attribute(*tag, name));
        let said = [&[0], &held[..]].concat();
        to.record([3, *tag, 0, 0], name, "attribute", &said);
    }
    fallbacks::questions(to, &asked, &tl, &asks);
    let sides = Sides {
        asked: &asked,
        tl: &tl,
    };
    sides.lookups(to, &asks, &MANNERS);
    sides.queries(to, &asks, &VIEWS);
    lists::questions(to, &asked, &tl, &asks.lists, random);
}

fn numbers_of(bytes: &[u8]) -> Vec<usize> {
    bytes.iter().map(|&byte| byte as usize).collect()
}

/// What a tag holds, in numbers.
fn three_of(held: Held) -> [usize; 3] {
    match held {
        Held::Absent => [0, 0, 0],
        Held::Bare => [1, 0, 0],
        Held::Value((start, end)) => [2, start, end],
    }
}

/// Who answers lookups and queries about a page: tl, and the model where not all is shown.
struct Sides<'p> {
    asked: &'p Asked<'p>,
    tl: &'p TlPage<'p>,
}

impl Sides<'_> {
    fn by_id(&self, manner: Manner, id: &[u8]) -> Option<usize> {
        match manner {
            Manner::Scan(View::Finished) => self.asked.by_id(manner, id),
            _ => self.tl.by_id(manner, id),
        }
    }

    fn by_class(&self, manner: Manner, class: &[u8]) -> Vec<usize> {
        let found = self.tl.by_class(manner, class);
        match manner {
            Manner::Scan(view) => self.asked.shown(view, found),
            Manner::Closed => found,
        }
    }

    /// What a query finds, or refusal 5 or 6.
    fn found(&self, view: View, selector: &[u8], query: Option<Vec<usize>>) -> Answer {
        if selector.len() > SELECTOR_LIMIT {
            return Err(5);
        }
        query.map(|found| self.asked.shown(view, found)).ok_or(6)
    }

    /// Asks in manners with these numbers.
    fn lookups(&self, to: &mut Recording, asks: &Asks, manners: &[([usize; 2], Manner)]) {
        for &([number, view], manner) in manners {
            for id in asks.ids.iter().take(FEW) {
                let found = self.by_id(manner, id);
                let found = found.map_or([0; 3], |handle| [0, 1, handle]);
                to.record([5, number, view, 0], id, "id", &found);
            }
            for class in asks.classes.iter().take(FEW) {
                let found = Ok(self.by_class(manner, class));
                to.rooms(|room| [6, number, room, view], class, "class", 1, &found);
            }
        }
    }

    /// Asks in views with these numbers.
    fn queries(&self, to: &mut Recording, asks: &Asks, views: &[(usize, View)]) {
        for selector in &asks.selectors {
            for &(number, view) in views {
                let found = self.found(view, selector, self.tl.query(selector));
                to.rooms(|room| [8, number, room, 0], selector, "query", 1, &found);
            }
            to.selector(selector);
        }
        for (tag, selector) in asks.below.iter().take(FEW) {
            for &(number, view) in views {
                let found = self.found(view, selector, self.tl.query_below(*tag, selector));
                to.rooms(|room| [9, *tag, room, number], selector, "below", 1, &found);
            }
        }
    }
}

/// Every question to a page and table that are refused with this number.
fn all_refused(to: &mut Recording, number: usize) {
    one_refused(to, number);
    lists::refused(to, number);
}

/// Those that are not about a list.
fn one_refused(to: &mut Recording, number: usize) {
    to.record([2, 0, 0, 0], b"", "range", &[number, 0, 0, 0]);
    to.record([3, 0, 0, 0], b"k", "attribute", &[number, 0, 0, 0]);
    fallbacks::refused(to, 0, number);
    to.list(([4, 0, 3, 0], b"", "text"), 3, 1, &Err(number));
    for ([manner, view], _) in MANNERS {
        to.record([5, manner, view, 0], b"k", "id", &[number, 0, 0]);
        to.list(([6, manner, 2, view], b"k", "class"), 2, 1, &Err(number));
    }
    for (view, _) in VIEWS {
        to.list(([8, view, 2, 0], b"a,", "query"), 2, 1, &Err(number));
        to.list(([9, 0, 2, view], b"a,", "below"), 2, 1, &Err(number));
    }
}

/// Zero length, the longest page and selector and one byte more, tables of few words.
fn limits(to: &mut Recording) {
    let one_row = words_for(1);
    for words in [0, HEADER_WORDS - 1, HEADER_WORDS, one_row - 1, one_row] {
        to.page(b"", 1, words);
        if words < HEADER_WORDS {
            all_refused(to, 3);
        }
        to.page(b"a", 1, words);
    }
    for (length, refused) in [(PAGE_LIMIT, false), (PAGE_LIMIT + 1, true)] {
        to.page(b"a", length, one_row);
        // the one row is a text
        for (view, found) in [(0, vec![0]), (1, vec![])] {
            let found = if refused { Err(1) } else { Ok(found) };
            to.list(([8, view, 1, 0], b"*", "query"), 1, 1, &found);
        }
        if refused {
            all_refused(to, 1);
        }
    }
    to.page(b"<p>", 1, one_row);
    for length in [SELECTOR_LIMIT, SELECTOR_LIMIT + 1] {
        let selector = b"a".repeat(length);
        to.selector(&selector);
        let none = if length > SELECTOR_LIMIT {
            Err(5)
        } else {
            Ok(vec![])
        };
        for (view, _) in VIEWS {
            to.rooms(|room| [8, view, room, 0], &selector, "query", 1, &none);
        }
    }
}

/// A sound table with one word changed at a time, to what makes it unsound, and changed back.
fn damaged_tables(to: &mut Recording) {
    let page = b"<table id=a><tr class=b><td>x</td><br></tr><!--c--></table>y";
    let rows = model::read(page, tl_profile()).rows;
    let table = to.page(page, 1, words_for(rows.len()));
    for i in 0..table.len() {
        for value in [0, table[i].wrapping_add(1), u32::MAX] {
            let mut damaged = table.clone();
            damaged[i] = value;
            if model::reading_of(page.len(), &damaged).is_none() {
                to.word(i, value as usize);
                to.record([2, 0, 0, 0], b"", "range", &[3, 0, 0, 0]);
            }
        }
        to.word(i, table[i] as usize);
    }
    all_still_asked(to, &Asked::new(page, &rows, tl_profile()));
    to.word(0, 0x7fff_ffff);
    all_refused(to, 3);
}

/// The table as it was is sound again.
fn all_still_asked(to: &mut Recording, asked: &Asked) {
    for (number, view) in VIEWS {
        let all = Ok(shown(view, asked));
        to.rooms(|room| [8, number, room, 0], b"*", "query", 1, &all);
    }
}

/// All rows that a view shows.
fn shown(view: View, asked: &Asked) -> Vec<usize> {
    asked.shown(view, (0..asked.rows.len()).collect())
}

/// Tables whose tags end in another order than a reading's, or all at one place: the answers in the closed manner are the
/// model's. The page is long, so that the ends lie far apart.
fn ends_in_other_orders(to: &mut Recording) {
    const TIMES: usize = 9;
    let open = b"<p id=i class='c d c'>";
    let text = [&open[..], &[b'x'; 3000], b"</p>"].concat();
    let page = text.repeat(TIMES);
    let rows = model::read(&page, tl_profile()).rows.len();
    let mut table = to.page(&text, TIMES, words_for(rows));
    // the end of a tag that opens at a place, one of those in the page
    let orders: [fn(usize, usize, usize) -> usize; 3] = [
        |last, i, _| last - 340 * i,
        |last, _, _| last,
        |last, i, opened| opened + 1 + (7919 * i + 5000) % (last - opened),
    ];
    for order in orders {
        let tags = (0..rows).filter(|handle| handle % 2 == 0);
        for (i, handle) in tags.enumerate() {
            let word = words_for(handle) + 2;
            let end = order(page.len(), i, text.len() * i + open.len());
            table[word] = end as u32;
            to.word(word, end);
        }
        let reading = model::reading_of(page.len(), &table).expect("a sound table");
        let asked = Asked::new(&page, &reading.rows, tl_profile());
        for class in [&b"c"[..], b"d"] {
            let found = Ok(asked.by_class(Manner::Closed, class, model::PAPER));
            to.rooms(|room| [6, 1, room, 0], class, "class", 1, &found);
        }
        let handle = asked.by_id(Manner::Closed, b"i").expect("a tag has it");
        to.record([5, 1, 0, 0], b"i", "id", &[0, 1, handle]);
    }
}

/// A table with word 8 of one row changed at a time, to every number that means something and one more, and changed back:
/// sound or not as the model says, and with other finished tags. Then the width of a row, to a word less and a word more.
fn ended_in_other_ways(to: &mut Recording) {
    let page = b"<p>x<br><b>y</b><!--c--><i><q></q";
    let rows = model::read(page, tl_profile()).rows.len();
    let mut table = to.page(page, 1, words_for(rows));
    let words = (0..rows).map(|handle| (words_for(handle) + 8, 0..=4));
    let width = ROW_WORDS as u32;
    for (word, values) in words.chain([(4, width - 1..=width + 1)]) {
        let before = table[word];
        for value in values.chain([before]) {
            table[word] = value;
            to.word(word, value as usize);
            let reading = model::reading_of(page.len(), &table);
            let said = if reading.is_some() {
                [0, rows - 1, 1, rows - 1]
            } else {
                [3, 0, 0, 0]
            };
            to.record([2, 0, 0, 0], b"", "range", &said);
            let finished = reading.ok_or(3).map(|reading| {
                let asked = Asked::new(page, &reading.rows, tl_profile());
                shown(View::Finished, &asked)
            });
            to.list(([8, 1, rows, 0], b"*", "query"), rows, 1, &finished);
        }
    }
}

/// Rows of every kind and ending, with numbers above 1 for the finished view, and with any view in the closed manner; and queries
/// below a tag that is open, one that is finished, and a node that is no tag.
fn views_by_other_numbers(to: &mut Recording) {
    const ABOVE_1: [usize; 4] = [2, 256, 65_536, u32::MAX as usize];
    let page = b"<p id=i><b class=c id=a>x<br class=c id=v><i class='c d' id=a>y</i><!--z--><u class=c></u";
    let rows = model::read(page, tl_profile()).rows;
    let words = |words: &[&[u8]]| words.iter().map(|word| word.to_vec()).collect();
    let asks = Asks {
        ids: words(&[b"i", b"a", b"v"]),
        classes: words(&[b"c", b"d"]),
        selectors: words(&[b"*", b".c"]),
        below: [1, 4].map(|tag| (tag, b"*".to_vec())).into(),
        ..Asks::default()
    };
    let sides = Sides {
        asked: &Asked::new(page, &rows, tl_profile()),
        tl: &TlPage::read(tl_side::as_str(page)),
    };
    to.page(page, 1, words_for(rows.len()));
    sides.lookups(to, &asks, &MANNERS);
    sides.queries(to, &asks, &VIEWS);
    for number in ABOVE_1 {
        let manners = [
            ([0, number], Manner::Scan(View::Finished)),
            ([1, number], Manner::Closed),
            ([number, 1], Manner::Closed),
        ];
        sides.lookups(to, &asks, &manners);
        sides.queries(to, &asks, &[(number, View::Finished)]);
    }
    below_no_tag(to, &rows);
}

/// Below a text, and a handle that the page does not have, whatever the selector.
fn below_no_tag(to: &mut Recording, rows: &[model::Row]) {
    let text = rows.iter().position(|row| row.kind == Kind::Text);
    for handle in [text.expect("the page has a text"), rows.len()] {
        for selector in [&b"*"[..], b"a,", &[b'a'; SELECTOR_LIMIT + 1]] {
            for (view, _) in VIEWS {
                to.list(([9, handle, 2, view], selector, "below"), 2, 1, &Err(4));
            }
        }
    }
}

fn random_pages(to: &mut Recording, seed: u64) {
    let mut kept = 0;
    for index in 0.. {
        let mut random = Random::for_input(seed, 99, index);
        let page = match index % 5 {
            0 => execution::page(&mut random),
            1 => {
                let mut page = execution::page(&mut random);
                page.truncate(random.below(page.len() + 1));
                page
            }
            2 => pages::of_bytes(&mut random),
            _ => pages::of_markup(&mut random),
        };
        if page.len() <= 600 && is_plain(&page) {
            questions(to, &page, &mut random);
            kept += 1;
        }
        if kept == 300 {
            return;
        }
    }
}

/// Writes the two files into a folder.
pub fn record(folder: &Path, seed: u64) -> io::Result<()> {
    let mut to = Recording::default();
    for page in pages::CHECKED {
        if is_plain(page.as_bytes()) {
            questions(
                &mut to,
                page.as_bytes(),
                &mut Random::for_input(seed, 98, page.len() as u64),
            );
        }
    }
    selectors::CHECKED
        .iter()
        .for_each(|selector| to.selector(selector.as_bytes()));
    limits(&mut to);
    damaged_tables(&mut to);
    random_pages(&mut to, seed);
    ends_in_other_orders(&mut to);
    ended_in_other_ways(&mut to);
    views_by_other_numbers(&mut to);
    fallbacks::every_kind(&mut to);
    profiles::questions_under_others(&mut to);
    writeln!(to.printed, "records {}", to.records).expect("a string takes it");
    fs::write(folder.join("stdin"), &to.asked)?;
    fs::write(folder.join("stdout"), &to.printed)
}
