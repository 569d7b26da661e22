//! Pages of many kinds, and damage done to them and to tables.
use crate::model::{self, tl_profile, words_for, HEADER_WORDS, PAGE_LIMIT, ROW_WORDS};
use common::Random;

/// The bytes of which every short page is made.
pub const ALPHABET: [&[u8]; 9] = [b"<", b">", b"/", b"a", b" ", b"=", b"\"", b"!", b"-"];

/// The parts of which every short row of parts is made.
pub const PARTS: [&[u8]; 18] = [
    b"<a>",
    b"</a>",
    b"<b ",
    b"</b>",
    b"<br>",
    b"<br/>",
    b"x",
    b"<",
    b">",
    b"/",
    b" ",
    b"<!--",
    b"-->",
    b"<!doctype html",
    b"id=i ",
    b"class=\"c d c\"",
    b"k=",
    "é".as_bytes(),
];

/// Pages that the papers and docs/DIFFERENCES.md name. The inputs of its table are asked by tests (`differences`).
pub const CHECKED: [&str; 28] = [
    "",
    "a",
    "a < b",
    "<br/>x",
    "<BR>x",
    "<!---->",
    "<!--a-->",
    "<i b cd>",
    "<p id=a>",
    "<p id=a></p><q id=a></q>",
    "<a><b></a>x",
    "<a></ab>",
    "<a></a",
    "<!doctype html public>y",
    "<br><p>Hello</p>",
    "<p>",
    "<p k=1 k=2 j>",
    "<p k=1 k=2>",
    "<p id=a id=b class=c class>",
    "<a><!doctype éx",
    "<a\tb>",
    "<!-->",
    "<p></p>",
    "<p></p",
    "<br>",
    "<p />",
    "<></>",
    "<></",
];

/// How many rows there are of up to `length` of `letters` letters.
pub fn rows_up_to(letters: usize, length: u32) -> u64 {
    (0..=length).map(|n| (letters as u64).pow(n)).sum()
}

/// The row of letters with this number: the shorter ones first.
pub fn row_of<'l>(letters: &[&'l [u8]], index: u64) -> Vec<u8> {
    let base = letters.len() as u64;
    let mut length = 0;
    let mut left = index;
    while left >= base.pow(length) {
        left -= base.pow(length);
        length += 1;
    }
    let mut row: Vec<&'l [u8]> = Vec::new();
    for _ in 0..length {
        row.push(letters[(left % base) as usize]);
        left /= base;
    }
    row.concat()
}

/// Every character below this number stands in values: all of White_Space, and what lies around it.
pub const CHARACTERS: u64 = 0x3100;

/// What is asked of a page with a character in its values.
pub const AROUND_CHARACTER: [&str; 7] = [
    "[k~=a]",
    "[k~=b]",
    ".a",
    ".b",
    "[k=a]",
    "[k$=b]",
    "[class~=a]",
];

/// A page with a character in its values and text.
pub fn of_character(number: u64) -> Vec<u8> {
    let c = char::from_u32(number as u32).unwrap_or('?');
    format!("<p k=\"a{c}b\" class='a{c}b'>{c}<q id=a{c} k={c}a>").into_bytes()
}

/// A length: mostly small, now and then large.
fn length(random: &mut Random, usual: usize) -> usize {
    match random.below(40) {
        0 => random.below(usual * 12),
        1..=6 => random.below(usual * 3),
        _ => random.below(usual),
    }
}

/// Random bytes of the kind that matters to the reader.
pub fn of_bytes(random: &mut Random) -> Vec<u8> {
    const COMMON: &[u8] = b"<<<>>>>//  \n\t==\"\"''!--abk";
    const ALL: &[u8] =
        b"<>/ \n\t\r\x0c\x0b=\"'!-_:+.#abcdefghijklmnopqrstuvwxyzABCZ019&;?,[]\0\x7f";
    let common = random.below(10);
    let length = length(random, 40);
    (0..length)
        .map(|_| match random.below(10) < common {
            true => *random.of(COMMON),
            false => *random.of(ALL),
        })
        .collect()
}

const NAMES: [&str; 26] = [
    "a",
    "b",
    "p",
    "td",
    "tr",
    "div",
    "br",
    "hr",
    "img",
    "input",
    "wbr",
    "BR",
    "Td",
    "h1",
    "x-y",
    "exec:fill",
    "a+b",
    "a_b",
    "br/",
    "",
    "table",
    "meta",
    "col",
    "keygen",
    "command",
    "0",
];
const ATTRIBUTES: [&str; 18] = [
    "id",
    "class",
    "k",
    "j",
    "data-fill",
    "data-venue",
    "href",
    "ID",
    "Class",
    "x:y",
    "+",
    "",
    "a",
    "b",
    "disabled",
    "ids",
    "clas",
    "id",
];
const VALUES: [&str; 26] = [
    "a",
    "b",
    "i",
    "c",
    "c d",
    "c c",
    " c",
    "c\td",
    "d\nc\rc",
    "c\u{c}d",
    "c\u{b}d",
    "",
    "1",
    "fill late",
    "x/y",
    "a>b",
    "<b>",
    "XLON",
    "\u{a0}",
    "a\u{a0}b",
    "a\u{2003}b",
    "日本 東京",
    "\u{85}a",
    "é",
    "a\u{3000}b\u{1680}c",
    "\u{feff}a",
];
/// White characters, and such as are taken for them.
const AROUND_WHITE: [&str; 35] = [
    "\t", "\n", "\u{b}", "\u{c}", "\r", " ", "\u{85}", "\u{a0}", "\u{1680}", "\u{2000}",
    "\u{2001}", "\u{2002}", "\u{2003}", "\u{2004}", "\u{2005}", "\u{2006}", "\u{2007}", "\u{2008}",
    "\u{2009}", "\u{200a}", "\u{2028}", "\u{2029}", "\u{202f}", "\u{205f}", "\u{3000}", "\u{1c}",
    "\u{1f}", "\u{180e}", "\u{200b}", "\u{2060}", "\u{feff}", "\u{2027}", "\u{205e}", "\u{84}",
    "\u{3001}",
];
const TEXTS: [&str; 16] = [
    "x",
    " ",
    "\n",
    "a < b",
    "&amp;",
    "&lt;b&gt;",
    "1,250.50",
    "é",
    "東京",
    "😀",
    ">",
    "/",
    "\u{a0}",
    "--",
    "-->",
    "\t",
];
const SPACES: [&str; 8] = [" ", " ", " ", "\n", "  ", "\t", " \n ", "\r\n"];

fn push(page: &mut Vec<u8>, text: &str) {
    page.extend(text.as_bytes());
}

/// The words of which a page's tags are made.
struct Style {
    names: &'static [&'static str],
    attributes: &'static [&'static str],
    values: &'static [&'static str],
}

const WIDE: Style = Style {
    names: &NAMES,
    attributes: &ATTRIBUTES,
    values: &VALUES,
};

/// Few words, so that the same ids, classes and names come again on a page.
const NARROW: Style = Style {
    names: &["a", "b", "br"],
    attributes: &["id", "id", "class", "class", "k"],
    values: &["i", "j", "c", "c d", "c d c", ""],
};

/// A random page of tags, texts, comments and document types, with slips of every kind in it.
pub fn of_markup(random: &mut Random) -> Vec<u8> {
    let style = if random.once_in(3) { NARROW } else { WIDE };
    let parts = length(random, 14);
    let mut page = Vec::new();
    let mut open: Vec<&str> = Vec::new();
    for _ in 0..parts {
        match random.below(12) {
            0..=4 => {
                let name = random.pick(style.names);
                tag(&mut page, name, &style, random);
                open.push(name);
            }
            5..=7 => closing(&mut page, &mut open, random),
            8 => comment(&mut page, random),
            9 if random.once_in(2) => document_type(&mut page, random),
            _ => push(&mut page, random.pick(&TEXTS)),
        }
    }
    page
}

fn tag(page: &mut Vec<u8>, name: &str, style: &Style, random: &mut Random) {
    push(page, if random.once_in(12) { "< " } else { "<" });
    push(page, name);
    let attributes = match random.below(8) {
        0..=2 => 0,
        3 | 4 => 1,
        5 => 2,
        _ => random.below(7),
    };
    for _ in 0..attributes {
        push(page, random.pick(&SPACES));
        attribute(page, style, random);
    }
    match random.below(14) {
        0 => push(page, "/>"),
        1 => push(page, " />"),
        2 => push(page, " >"),
        3 => push(page, "/"),
        4 if random.once_in(2) => {}
        _ => push(page, ">"),
    }
}

fn attribute(page: &mut Vec<u8>, style: &Style, random: &mut Random) {
    push(page, random.pick(style.attributes));
    let value = match random.below(10) {
        0 => format!("a{}b", random.pick(&AROUND_WHITE)),
        _ => random.pick(style.values).to_string(),
    };
    match random.below(9) {
        0 => {}
        1 | 2 => push(page, &format!("={value}")),
        3 => push(page, &format!("='{value}'")),
        4 => push(page, &format!(" = \"{value}\"")),
        5 if random.once_in(4) => push(page, &format!("=\"{value}")),
        _ => push(page, &format!("=\"{value}\"")),
    }
}

/// Mostly closes what is open; now and then something else.
fn closing(page: &mut Vec<u8>, open: &mut Vec<&str>, random: &mut Random) {
    let name = match random.below(8) {
        0 => random.pick(&NAMES),
        _ => open.pop().unwrap_or("a"),
    };
    push(page, "</");
    push(page, name);
    push(page, if random.once_in(12) { " >" } else { ">" });
}

fn comment(page: &mut Vec<u8>, random: &mut Random) {
    push(
        page,
        random.pick(&["<!--", "<!-- ", "< !--", "<!-", "<!---"]),
    );
    push(page, random.pick(&TEXTS));
    push(
        page,
        random.pick(&["-->", "-->", " -->", "--->", "-- >", "", "--!>"]),
    );
}

fn document_type(page: &mut Vec<u8>, random: &mut Random) {
    push(
        page,
        random.pick(&[
            "<!doctype",
            "<!DOCTYPE",
            "<!DocType",
            "<!docType",
            "<!doc",
            "< !doctype",
        ]),
    );
    push(page, random.pick(&[" ", "\n", "", "  "]));
    push(
        page,
        random.pick(&["html", "HTML", "hTmL", "svg", "", "htm", "html5"]),
    );
    push(
        page,
        random.pick(&[">", ">", " >", "", "é", " public \"x\">", "\t>"]),
    );
}

/// Deletes, doubles, swaps or replaces some bytes.
pub fn damage(page: &mut Vec<u8>, random: &mut Random) {
    for _ in 0..=random.below(4) {
        if page.is_empty() {
            return;
        }
        let at = random.below(page.len());
        match random.below(5) {
            0 => {
                let end = (at + 1 + random.below(6)).min(page.len());
                page.drain(at..end);
            }
            1 => page.insert(at, page[at]),
            2 => {
                let other = random.below(page.len());
                page.swap(at, other);
            }
            3 => page[at] = *random.of(b"<>/ \n=\"'!-ax"),
            _ => {
                let end = (at + random.below(40)).min(page.len());
                let copy = page[at..end].to_vec();
                let to = random.below(page.len() + 1);
                page.splice(to..to, copy);
            }
        }
    }
}

/// Puts in bytes that are no UTF-8, among them beginnings of white characters.
pub fn spoil(page: &mut Vec<u8>, random: &mut Random) {
    const BAD: [&[u8]; 14] = [
        b"\xff",
        b"\x80",
        b"\xc2",
        b"\xc2\x85",
        b"\xe2\x80",
        b"\xe2\x80\x83",
        b"\xe1\x9a\x80",
        b"\xe3\x80",
        b"\xf0\x9f\x98",
        b"\xed\xa0\x80",
        b"\xc0\xaf",
        b"\xa0",
        b"\x85",
        b"\xf5\xe2\x80\xa8",
    ];
    for _ in 0..=random.below(6) {
        let inside = within_values(page);
        let at = match inside.is_empty() || random.once_in(3) {
            true => random.below(page.len() + 1),
            false => inside[random.below(inside.len())],
        };
        let bad = random.pick(&BAD).to_vec();
        page.splice(at..at, bad);
    }
}

/// The places after each `=` and quote, where a value is likely to be.
fn within_values(page: &[u8]) -> Vec<usize> {
    let starts = |byte: &u8| b"=\"'".contains(byte);
    (1..page.len() + 1)
        .filter(|&place| starts(&page[place - 1]))
        .collect()
}

/// The makings of pages of a given length.
const FILLINGS: [&str; 12] = [
    "a",
    "<",
    "<a>",
    "<>a",
    "<a></a>",
    "<b>x</b><!---->",
    "<!--",
    "<p id=\"i\" class='c d c'>",
    "<p k=\"",
    "<br>é",
    "</a>",
    "<a b c d e=f>",
];

/// A page of exactly this many bytes.
pub fn of_length(length: usize, random: &mut Random) -> Vec<u8> {
    let filling = random.pick(&FILLINGS);
    let mut page = match random.below(3) {
        0 => of_markup(random),
        _ => Vec::new(),
    };
    while page.len() < length {
        push(&mut page, filling);
        if random.once_in(2000) {
            page.extend(of_markup(random));
        }
    }
    page.truncate(length);
    page
}

/// A page of tags within tags.
pub fn nested(depth: usize, random: &mut Random) -> Vec<u8> {
    let opening = random.pick(&["<a>", "<a>x", "x<a>", "<a id=i>", "<a><br>", "<a class=c>"]);
    let closing = random.pick(&["</a>", "y</a>", "", "</a><!---->"]);
    let mut page = opening.repeat(depth).into_bytes();
    push(&mut page, "middle");
    let closed = if random.once_in(3) {
        random.below(depth + 1)
    } else {
        depth
    };
    push(&mut page, &closing.repeat(closed));
    page
}

/// A page with a sound table of so many rows, which may be more than a reading of any page has: tags that all reach to the
/// last row, and texts among them.
pub fn with_rows(rows: usize, random: &mut Random) -> (Vec<u8>, Vec<u32>) {
    let page = [b"<p k=v class=c>", &of_markup(random)[..]].concat();
    let length = page.len() as u32;
    let mut table = model::header(rows as u32, 0, page.len()).to_vec();
    let mut parent = 0;
    for handle in 0..rows as u32 {
        if random.once_in(4) {
            table.extend([1, 0, length, 1, 2, 15, parent, rows as u32 - 1, 0]);
            parent = handle + 1;
        } else {
            let start = random.below(page.len() + 1) as u32;
            let end = length.min(start + random.below(3) as u32);
            table.extend([2, start, end, 0, 0, 0, parent, handle, 0]);
        }
    }
    settle_endings(&mut table, random);
    (page, table)
}

/// A page of many tags with classes, and a sound table whose tags end anywhere, in any order.
pub fn with_ends(random: &mut Random) -> (Vec<u8>, Vec<u32>) {
    const TAGS: [&str; 4] = ["<p class=c>x</p>", "<p class='c d c'>", "<b>y</b>", "</p>"];
    let length = 6_000 + random.below(PAGE_LIMIT - 6_000 + 1);
    let mut page = Vec::new();
    while page.len() < length {
        push(&mut page, random.pick(&TAGS));
    }
    page.truncate(length);
    let mut table = model::words_of(length, &model::read(&page, tl_profile()));
    for row in rows_of(&mut table) {
        let opened = row[5] as usize;
        if row[0] == 1 {
            row[2] = (opened + random.below(length - opened + 1)) as u32;
        }
    }
    settle_endings(&mut table, random);
    (page, table)
}

fn rows_of(table: &mut [u32]) -> impl Iterator<Item = &mut [u32]> {
    table[HEADER_WORDS..].chunks_exact_mut(ROW_WORDS)
}

/// Gives every row a word 8 that soundness allows it, at random where it allows two.
fn settle_endings(table: &mut [u32], random: &mut Random) {
    for (handle, row) in rows_of(table).enumerate() {
        let closed = row[2] > row[5];
        let alone = row[7] as usize == handle;
        let allowed: &[u32] = match row[0] {
            1 if closed => &[1, 2],
            1 if alone => &[0, 3],
            _ => &[0],
        };
        row[8] = allowed[random.below(allowed.len())];
    }
}

/// A table that is perhaps still sound, but as no reading makes it.
pub fn change_table(table: &mut Vec<u32>, page_len: usize, random: &mut Random) {
    let way = random.below(7);
    match way {
        1 | 2 => change_places(table, page_len, random),
        3 => nest_anew(table, random),
        4 => {
            change_places(table, page_len, random);
            nest_anew(table, random);
        }
        5 => change_ends(table, page_len, random),
        _ => {}
    }
    settle_endings(table, random);
    match way {
        0 | 1 => spoil_table(table, page_len, random),
        6 => spoil_ending(table, random),
        _ => {}
    }
}

/// Gives some tags another end, often the same one: closed when they were not, in another order, or at equal ends.
fn change_ends(table: &mut [u32], page_len: usize, random: &mut Random) {
    for row in rows_of(table) {
        let opened = row[5];
        if row[0] == 1 && random.once_in(2) {
            let beyond = page_len - opened as usize;
            row[2] = match random.below(3) {
                0 => opened + random.below(beyond + 1) as u32,
                _ => page_len as u32,
            };
        }
    }
}

/// Changes any word, or the length.
fn spoil_table(table: &mut Vec<u32>, page_len: usize, random: &mut Random) {
    if random.once_in(12) {
        let length = random.below(table.len() + 1);
        table.truncate(length);
        return;
    }
    for _ in 0..=random.below(2) {
        let at = random.below(table.len());
        let values = [
            random.below(4) as u32,
            random.below(page_len + 2) as u32,
            table[at].wrapping_add(1),
            table[at].wrapping_sub(1),
            u32::MAX,
        ];
        table[at] = values[random.below(values.len())];
    }
}

/// Changes word 8 of one row, or now and then the width of a row in the header, and nothing else, so that it alone decides.
fn spoil_ending(table: &mut [u32], random: &mut Random) {
    let rows = rows_of(table).count();
    if rows == 0 || random.once_in(8) {
        // a word less, the same, or a word more
        table[4] = (ROW_WORDS - 1 + random.below(3)) as u32;
        return;
    }
    let at = words_for(random.below(rows)) + 8;
    table[at] = [0, 1, 2, 3, 4, u32::MAX][random.below(6)];
}

/// Gives some rows other places, in the order that soundness asks for.
fn change_places(table: &mut [u32], page_len: usize, random: &mut Random) {
    let rows = rows_of(table).count();
    for _ in 0..=random.below(3) {
        if rows == 0 {
            return;
        }
        let at = words_for(random.below(rows));
        let mut places: Vec<u32> = (0..5).map(|_| random.below(page_len + 1) as u32).collect();
        places.sort_unstable();
        if table[at] == 1 {
            let [start, name_start, name_end, opened, end] = places[..] else {
                return;
            };
            table[at + 1..at + 6].copy_from_slice(&[start, end, name_start, name_end, opened]);
        } else {
            table[at] = 2 + random.below(2) as u32;
            table[at + 1..at + 3].copy_from_slice(&[places[1], places[3]]);
        }
    }
}

/// Gives the tags other last descendants that nest, and every row the parent that follows from them.
fn nest_anew(table: &mut [u32], random: &mut Random) {
    let rows = rows_of(table).count();
    let mut open: Vec<(usize, usize)> = Vec::new();
    for handle in 0..rows {
        open.retain(|&(_, last)| last >= handle);
        let (parent, most) = open
            .last()
            .map_or((0, rows - 1), |&(h, last)| (h + 1, last));
        let at = words_for(handle);
        let last = match table[at] {
            1 => handle + random.below(most - handle + 1),
            _ => handle,
        };
        table[at + 6] = parent as u32;
        table[at + 7] = last as u32;
        open.push((handle, last));
    }
}
