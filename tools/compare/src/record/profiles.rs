//! Questions under other profiles than tl's. tl has none, so the answers are the model's. Each group changes some bytes of the
//! profile, and restores them afterwards.
use super::lists::{body, list_refused};
use super::{
    all_refused, fallbacks, filled, numbers_of, one_refused, questions, refused, three_of,
    Recording, MANNERS, MARK, VIEWS,
};
use crate::model::{
    self, words_for, Asked, Names, Profile, ProfileBytes, Reading, NAMES, NAMES_AT, NAME_BYTES,
    PAGE_LIMIT, PAPER, PROFILE_BYTES, TL_BYTES, WHITE_AT,
};
use crate::profiles::refusals;
use common::Random;

/// What is written into a profile: a place and some bytes.
type Change<'c> = (usize, &'c [u8]);

/// The first place for a name that tl's profile leaves empty, and the last place of all.
const FREE: usize = NAMES_AT + 15 * NAME_BYTES;
const LAST: usize = NAMES_AT + (NAMES - 1) * NAME_BYTES;

fn changed(changes: &[Change]) -> ProfileBytes {
    let mut profile = TL_BYTES;
    for (place, bytes) in changes {
        profile[*place..][..bytes.len()].copy_from_slice(bytes);
    }
    profile
}

/// Makes one profile of another, byte by byte.
fn change(to: &mut Recording, from: &ProfileBytes, into: &ProfileBytes) {
    for i in (0..PROFILE_BYTES).filter(|&i| from[i] != into[i]) {
        to.byte(i, into[i] as usize);
    }
}

/// Questions that are asked under a profile. Before and after them it is tl's.
fn under(to: &mut Recording, profile: &ProfileBytes, ask: impl FnOnce(&mut Recording)) {
    change(to, &TL_BYTES, profile);
    ask(to);
    change(to, profile, &TL_BYTES);
}

fn rules(bytes: &ProfileBytes) -> Profile {
    Profile::of(bytes).expect("a profile that is not refused")
}

/// A page read under a profile, with a word to spare, and every call asked about it, or refused as 1.
fn read_and_ask(to: &mut Recording, bytes: &ProfileBytes, page: &[u8]) {
    let profile = rules(bytes);
    under(to, bytes, |to| {
        let reading = read(to, page, &profile);
        match page.len() > profile.limit {
            true => all_refused(to, 1),
            false => ask(to, page, &reading, &profile),
        }
    });
}

fn read(to: &mut Recording, page: &[u8], profile: &Profile) -> Reading {
    let reading = model::read(page, profile);
    let table = model::words_of(page.len(), &reading);
    let words = table.len() + 1;
    let answer = match page.len() > profile.limit {
        true => refused(1, words),
        false => {
            let mut said = vec![0, reading.rows.len()];
            said.extend(table.iter().map(|&word| word as usize));
            said.push(MARK);
            said
        }
    };
    to.record([1, words, 1, 0], page, "parse", &answer);
    reading
}

/// Asks every call about the first tags of a page and its table.
fn ask(to: &mut Recording, page: &[u8], reading: &Reading, profile: &Profile) {
    let asked = Asked::new(page, &reading.rows, profile);
    let tags = (0..reading.rows.len()).filter(|&handle| reading.rows[handle].is_tag());
    let tags: Vec<usize> = tags.take(3).collect();
    for &tag in &tags {
        of_tag(to, &asked, tag);
    }
    lookups(to, &asked);
    listed(to, &asked, &tags);
}

fn of_tag(to: &mut Recording, asked: &Asked, tag: usize) {
    let range = asked
        .range(tag)
        .map_or([0; 3], |(first, last)| [last + 1 - first, first, last]);
    to.record([2, tag, 0, 0], b"", "range", &[&[0], &range[..]].concat());
    let text = Ok(numbers_of(&asked.text(tag)));
    to.list(([4, tag, 9, 0], b"", "text"), 9, 1, &text);
    for name in [&b"k"[..], b"c"] {
        let held = asked.attribute(tag, name, PAPER);
        let said = [&[0], &three_of(held)[..]].concat();
        to.record([3, tag, 0, 0], name, "attribute", &said);
        fallbacks::OUTSIDE.ask(to, asked.page, tag, name, held);
    }
    let selector = b"[k=c],br";
    let count = asked.rows[tag].last - tag;
    let found = asked.find(tag + 1, count, selector, &chain(selector), PAPER);
    for (number, view) in VIEWS {
        let found = Ok(asked.shown(view, found.clone()));
        to.list(([9, tag, 4, number], selector, "below"), 4, 1, &found);
    }
}

fn chain(selector: &[u8]) -> Vec<model::Piece> {
    model::read_selector(selector).expect("a selector that can be read")
}

fn lookups(to: &mut Recording, asked: &Asked) {
    for ([number, view], manner) in MANNERS {
        let found = asked
            .by_id(manner, b"i")
            .map_or([0; 3], |handle| [0, 1, handle]);
        to.record([5, number, view, 0], b"i", "id", &found);
        let found = Ok(asked.by_class(manner, b"c", PAPER));
        to.list(([6, number, 2, view], b"c", "class"), 2, 1, &found);
    }
    for selector in [&b"*"[..], b"[k=a],[class~=c],x,br"] {
        let all = asked.find(0, asked.rows.len(), selector, &chain(selector), PAPER);
        for (number, view) in VIEWS {
            let found = asked.shown(view, all.clone());
            let room = found.len() + 1;
            to.list(
                ([8, number, room, 0], selector, "query"),
                room,
                1,
                &Ok(found),
            );
        }
    }
}

fn listed(to: &mut Recording, asked: &Asked, tags: &[usize]) {
    let handles: Vec<u32> = tags.iter().map(|&tag| tag as u32).collect();
    let count = handles.len();
    let words = |names: &[&[u8]]| -> Vec<usize> {
        let held = asked.attributes(&handles, names, PAPER).into_iter();
        held.flat_map(three_of).collect()
    };
    let held = words(&[b"k"]);
    let room = held.len() + 1;
    let said = filled(count, &[(room, &held)]);
    let bytes = body(&handles, b"k");
    to.record([10, count, room, 0], &bytes, "attributes", &said);

    let names = Names::of(&[b"k", b"id", b"class"]);
    let held = words(&names.each());
    let room = held.len();
    let said = filled(count, &[(room, &held)]);
    let bytes = body(&handles, &body(&names.ends, &names.text));
    to.record([13, count, room, names.ends.len()], &bytes, "names", &said);

    let texts = asked.texts(&handles);
    let text = numbers_of(&texts.bytes);
    let room = text.len() + 1;
    let said = filled(count, &[(count, &texts.ends), (room, &text)]);
    to.record(
        [11, count, room, count],
        &body(&handles, b""),
        "texts",
        &said,
    );
}

/// Other white bytes than tl's, each with a page that shows it. An unused place does not make byte 0 white.
fn white(to: &mut Recording) {
    let indented = b"<!doctype\thtml><p\tid=i\tk=a b\tclass='c\td'>x<\tbr\t>y</p><q k=c j>z";
    let zeros = b"<p\0k=a\0b\0id=i>x<\0q>y<p id=a\0 k=b\0>z<>w";
    let low = b"<p\x01k=a\x01id=i\rclass\t=\r b\nc>x<br\t>y<q\x1fk=c\x1f>z";
    for (white, page) in [
        ([9, 0, 0, 0], &indented[..]),
        ([0, 0, 0, 9], indented),
        ([9, 9, 32, 9], indented),
        ([0, 0, 0, 0], zeros),
        ([0, 0, 0, 9], zeros),
        ([1, 9, 13, 32], low),
        ([31, 1, 1, 12], low),
    ] {
        read_and_ask(to, &changed(&[(WHITE_AT, &white)]), page);
    }
}

/// Other void names: `x` after tl's, in the last place, and twice; none; one with `/`; one of 16 bytes; 24 that are alike at both
/// ends.
fn void_names(to: &mut Recording) {
    let void = b"<x k=1>a<xx>b</xx><X>c</X><br k=c>d</br><>e</><x/>f</x>";
    let long = b"<abcdefghijklmnop>a<abcdefghijklmno>b<abcdefghijklmnopq>c<ABCDEFGHIJKLMNOP>d";
    let none = &[0; 15 * NAME_BYTES];
    let alike: Vec<u8> = (b'A'..).take(NAMES).flat_map(alike).collect();
    let groups: [(&[Change], &[u8]); 7] = [
        (&[(FREE, b"x")], void),
        (&[(LAST, b"x")], void),
        (&[(FREE, b"x"), (LAST, b"x")], void),
        (&[(NAMES_AT, none)], b"<br k=1>a<img>b<>c"),
        (&[(FREE, b"br/")], b"<br/>a<wbr>b<br>c<wbr/>d"),
        (&[(LAST, b"abcdefghijklmnop")], long),
        (
            &[(NAMES_AT, &alike)],
            b"<aAa>a<aXa>b<aMa>c<aMb>d</aMb><aYa>e<br>f",
        ),
    ];
    for (changes, page) in groups {
        read_and_ask(to, &changed(changes), page);
    }
}

/// The place of a name of three bytes.
fn alike(middle: u8) -> [u8; NAME_BYTES] {
    let mut place = [0; NAME_BYTES];
    place[..3].copy_from_slice(&[b'a', middle, b'a']);
    place
}

/// Limit 1 with pages of no byte to two, and limits at a page's length, one below and one above.
fn limits(to: &mut Recording) {
    let page = b"<p id=i k=a>x</p>";
    for (limit, page) in [
        (1, &b""[..]),
        (1, b"a"),
        (1, b"ab"),
        (page.len(), page),
        (page.len() - 1, page),
        (page.len() + 1, page),
    ] {
        read_and_ask(to, &limited(limit), page);
    }
}

fn limited(limit: usize) -> ProfileBytes {
    changed(&[(0, &(limit as u32).to_le_bytes())])
}

/// A table that was read under one profile, asked under another: what is read again is read as the other says.
fn asked_under_others(to: &mut Recording) {
    let page = b"<p\tk=a b\tid=i\tclass=c>x<q k=c\td>y</q>";
    let tabs = changed(&[(WHITE_AT, b"\t\0"), (FREE, b"q")]);
    let tl = rules(&TL_BYTES);
    let reading = read(to, page, &tl);
    under(to, &tabs, |to| ask(to, page, &reading, &rules(&tabs)));
    let mut by_tabs = None;
    under(to, &tabs, |to| {
        by_tabs = Some(read(to, page, &rules(&tabs)))
    });
    if let Some(reading) = by_tabs {
        ask(to, page, &reading, &tl);
    }
}

/// tl's profile, spoilt in every way; of white bytes that are too great the least is enough.
fn spoilt() -> Vec<ProfileBytes> {
    let too_great = |way: &[(usize, u8)]| way == [(way[0].0, 255)];
    let ways = refusals().into_iter().filter(|way| !too_great(way));
    ways.map(|way| {
        let mut profile = TL_BYTES;
        for (place, byte) in way {
            profile[place] = byte;
        }
        profile
    })
    .collect()
}

/// Every way to be refused as 14, for every call on a page and its table. Reading leaves zeros in the table.
fn refused_as_14(to: &mut Recording) {
    let page = b"<p k=1>x";
    let words = words_for(2);
    for profile in spoilt() {
        to.page(page, 1, words);
        under(to, &profile, |to| {
            one_refused(to, 14);
            list_refused(to, &[0], 14);
            to.record([1, words, 1, 0], page, "parse", &refused(14, words));
        });
        all_refused(to, 3);
    }
}

/// 14 comes before every other refusal: of a table that is not sound, of one that is too small, of a page that is too long. A
/// selector that is read alone knows no profile.
fn before_the_others(to: &mut Recording) {
    let words = words_for(1);
    to.page(b"<p k=1>x", 1, words_for(2));
    to.word(0, 3);
    let white_33 = changed(&[(WHITE_AT + 3, &[33])]);
    under(to, &white_33, |to| {
        all_refused(to, 14);
        to.selector(b"p,[k]");
        for (page, times) in [(&b"<p k=1>x"[..], 1), (b"a", PAGE_LIMIT + 1)] {
            let said = refused(14, words);
            to.record([1, words, times, 0], page, "parse", &said);
            all_refused(to, 14);
        }
    });
    all_refused(to, 1);
    let short_and_spoilt = changed(&[(0, &[1, 0, 0]), (LAST, b".")]);
    under(to, &short_and_spoilt, |to| {
        to.record([1, words, 1, 0], b"ab", "parse", &refused(14, words));
        all_refused(to, 14);
    });
}

/// A byte past the profile's end changes nothing, and with tl's bytes tl's answers are there again.
fn tls_again(to: &mut Recording) {
    to.byte(PROFILE_BYTES, 255);
    questions(to, b"<br><p id=a>Hello</p>", &mut Random::new(14));
}

pub fn questions_under_others(to: &mut Recording) {
    white(to);
    void_names(to);
    limits(to);
    asked_under_others(to);
    refused_as_14(to);
    before_the_others(to);
    tls_again(to);
}
