//! Random pages, of several kinds.

use common::Random;

/// What a page is made of.
#[derive(Clone, Copy, Debug, PartialEq, Eq)]
pub enum Kind {
    /// Marks and letters of a small alphabet in any order.
    Soup,
    /// Tags that mostly nest and close, with attributes of every form.
    Nested,
    /// An execution page: rows of fills, with cells.
    Fills,
    /// The last two with bytes lost, changed, doubled or put in.
    Damaged,
    /// Comments, document types and what looks like them.
    Comments,
    /// Arbitrary bytes, mostly not UTF-8, with marks among them.
    Bytes,
}

pub const KINDS: [Kind; 6] = [
    Kind::Soup,
    Kind::Nested,
    Kind::Fills,
    Kind::Damaged,
    Kind::Comments,
    Kind::Bytes,
];

/// A page of a kind, of exactly `length` bytes, so that most break off somewhere.
pub fn page(random: &mut Random, kind: Kind, length: usize) -> Vec<u8> {
    let mut page = Vec::with_capacity(length + 64);
    if kind == Kind::Damaged {
        let whole = *random.of(&[Kind::Nested, Kind::Fills]);
        fill(random, whole, &mut page, length + length / 8 + 8);
        let times = random.between(1, 2 + page.len() / 40);
        for _ in 0..times {
            damage(random, &mut page);
        }
    }
    // damage may have left too little
    fill(random, kind, &mut page, length);
    page.truncate(length);
    page
}

fn fill(random: &mut Random, kind: Kind, page: &mut Vec<u8>, length: usize) {
    if kind == Kind::Fills {
        fills(random, page, length);
    }
    let mut open = Vec::new();
    while page.len() < length {
        match kind {
            Kind::Soup => page.extend_from_slice(random.text(SOUP)),
            Kind::Comments => page.extend_from_slice(random.text(COMMENTS)),
            Kind::Bytes => bytes(random, page),
            Kind::Nested | Kind::Damaged | Kind::Fills => nested(random, page, &mut open),
        }
    }
}

#[rustfmt::skip]
const SOUP: &[&[u8]] = &[
    b"<", b"<", b"<", b"<", b">", b">", b">", b">", b"/", b"</", b"</", b"/>", b"!", b"-", b"--",
    b"=", b"=", b"\"", b"'", b" ", b" ", b" ", b"\n", b"\t", b"\r", b"a", b"b", b"a", b"b", b"k",
    b"p", b"br", b"id", b"class", b"id=", b"class=", b"<a", b"<b ", b"<p>", b"<br>", b"</a>",
    b"</b>", b"<!", b"<!--", b"-->", b"k=v", b"1", b"<>", b"</>", b"x y", b"_", b":", b"+",
];

#[rustfmt::skip]
const COMMENTS: &[&[u8]] = &[
    b"<!--", b"<!--", b"<!---->", b"<!--a-->", b"<!-->", b"<!--->", b"-->", b"-->", b"--", b"-",
    b">", b"--->", b"a", b"b ", b"<!", b"<!doctype html>", b"<!DOCTYPE HTML", b"<!doctype",
    b"<! ", b"html", b" ", b"\n", b"<a>", b"<b k=1>", b"</a>", b"</b>", b"<br>", b"< !--", b"<!-",
    b"<i b cd>", b"<p id=a class='x y'>", b"</p>", b"\xc2\xa0",
];

#[rustfmt::skip]
const TAGS: &[&[u8]] = &[
    b"a", b"b", b"p", b"div", b"td", b"tr", b"span", b"a+b", b"x:y", b"br", b"img", b"BR", b"hr",
    b"A", b"", b"br/", b"meta",
];

#[rustfmt::skip]
const NAMES: &[&[u8]] = &[
    b"id", b"id", b"class", b"class", b"k", b"data-fill", b"data-rev", b"data-venue", b"href",
    b"ID", b"a", b"b", b"checked", b"", b"x-1",
];

#[rustfmt::skip]
const VALUES: &[&[u8]] = &[
    b"a", b"b", b"", b"v", b"1", b"12", b"x y", b"fill late", b" fill  odd-lot ", b"XLON",
    b"x-y_z", b"a>b", b"a/b", b"a'b", b"a\"b", b"a\nb", b"a\tb", b"\xc3\xa9", b"a\xc2\xa0b",
    b"a\xe3\x80\x80b", b"\xff", b"a\x0bb", b"x\xe2\x80\x83y", b"\xe2\x80", b"late", b"<", b"=",
];

const CLASSES: &[&[u8]] = &[b"fill", b"fill late", b"fill odd-lot", b"fill  late"];

fn attribute(random: &mut Random, page: &mut Vec<u8>) {
    page.extend_from_slice(random.text(&[b" ", b" ", b" ", b"  ", b"\n", b"\t", b""]));
    page.extend_from_slice(random.text(NAMES));
    if random.once_in(5) {
        return;
    }
    page.extend_from_slice(random.text(&[b"=", b"=", b"=", b" = ", b"= "]));
    let value = random.text(VALUES);
    let quote = *random.of(&[None, Some(b'"'), Some(b'"'), Some(b'\'')]);
    page.extend(quote);
    page.extend_from_slice(value);
    page.extend(quote.filter(|_| !random.once_in(20)));
}

fn nested(random: &mut Random, page: &mut Vec<u8>, open: &mut Vec<&'static [u8]>) {
    match random.below(10) {
        0..=3 => {
            let tag = random.text(TAGS);
            page.push(b'<');
            if random.once_in(12) {
                page.push(b' ');
            }
            page.extend_from_slice(tag);
            for _ in 0..*random.of(&[0, 0, 1, 1, 2, 3]) {
                attribute(random, page);
            }
            if random.once_in(10) {
                page.extend_from_slice(b" /");
            }
            page.push(b'>');
            open.push(tag);
        }
        4..=6 => {
            let tag = match open.pop() {
                Some(tag) if !random.once_in(8) => tag,
                _ => random.text(TAGS),
            };
            page.extend_from_slice(b"</");
            page.extend_from_slice(tag);
            page.push(b'>');
        }
        7 => page.extend_from_slice(random.text(COMMENTS)),
        _ => page.extend_from_slice(random.text(VALUES)),
    }
}

fn fills(random: &mut Random, page: &mut Vec<u8>, length: usize) {
    if random.once_in(2) {
        page.extend_from_slice(b"<!doctype html>\n");
    }
    page.extend_from_slice(b"<table class=\"fills\" id=book>\n");
    let mut number = random.below(900);
    while page.len() < length {
        number += 1;
        let class = random.text(CLASSES);
        page.extend_from_slice(format!("<tr id=f{number} class=\"").as_bytes());
        page.extend_from_slice(class);
        page.extend_from_slice(
            format!("\" data-fill=F{number} data-rev={}>", number % 4).as_bytes(),
        );
        for _ in 0..random.between(1, 4) {
            match random.below(5) {
                0 => page.extend_from_slice(
                    format!("<td data-venue=\"XLON\">{}</td>", 10 * number).as_bytes(),
                ),
                1 => page.extend_from_slice(b"<td data-venue='XPAR main' late>"),
                2 => page.extend_from_slice(b"<td class=px>101.25<br>net</td>"),
                3 => page.extend_from_slice(b"<td><!-- corrected --><b>5</b></td>"),
                _ => page.extend_from_slice(
                    "<td data-desk=\"Z\u{fc}rich\u{a0}1\">\u{20ac} 7</td>".as_bytes(),
                ),
            }
        }
        page.extend_from_slice(random.text(&[b"</tr>\n", b"</tr>\n", b"</tr>\n", b"\n"]));
        if random.once_in(6) {
            page.extend_from_slice(b"</table><table>");
        }
    }
}

fn bytes(random: &mut Random, page: &mut Vec<u8>) {
    match random.below(8) {
        0 => page.extend_from_slice(b"<"),
        1 => page.extend_from_slice(b">"),
        2 => page.extend_from_slice(random.text(SOUP)),
        3 => {
            page.extend_from_slice(b"<a ");
            page.push(random.byte());
            page.extend_from_slice(b"k=");
            page.extend([random.byte(), random.byte()]);
            page.push(b'>');
        }
        4 => {
            page.extend_from_slice(b"<b id=\"");
            page.extend([random.byte(), b'a', random.byte()]);
            page.extend_from_slice(b"\" class='x ");
            page.push(random.byte());
            page.extend_from_slice(b" y'>");
        }
        _ => page.push(random.byte()),
    }
}

fn damage(random: &mut Random, page: &mut Vec<u8>) {
    let at = random.below(page.len());
    let long = random.between(1, 1 + page.len() / 20);
    let to = (at + long).min(page.len());
    match random.below(5) {
        0 => drop(page.drain(at..to)),
        1 => {
            let copy = page[at..to].to_vec();
            let into = random.below(page.len());
            page.splice(into..into, copy);
        }
        2 if at < page.len() => page[at] = random.byte(),
        3 if at < page.len() => page[at] = *random.of(b"<>/\"'= \n!-"),
        _ => page.insert(at, *random.of(b"<>/\"'= \n!-")),
    }
}

#[cfg(test)]
mod tests {
    use super::*;

    #[test]
    fn as_long_as_asked() {
        for number in 0..100 {
            let mut random = Random::for_page(1, number);
            for kind in KINDS {
                let length = random.between(0, 300);
                assert_eq!(page(&mut random, kind, length).len(), length);
            }
        }
    }
}
