//! Pages made to fit a profile: with its white bytes and others between names and in values, and with tags that have its void names
//! or names next to them.
use crate::model::{Profile, NAME_BYTES};
use common::Random;

const IDENTIFIER: &[u8] = b"abxzABZ0189-_:+/";
const NAMES: [&str; 14] = [
    "x",
    "br",
    "b",
    "a",
    "p",
    "td",
    "BR",
    "br/",
    "img",
    "a+b",
    "0",
    ":",
    "exec:fill-report",
    "abcdefghijklmno",
];
const ATTRIBUTES: [&str; 8] = ["id", "class", "k", "j", "k", "", "a", "class"];
const TEXTS: [&str; 8] = ["x", " ", "\t", "\0", "a < b", "é", ">", "-->"];

/// A page of some tags, texts, comments and document types.
pub fn of(profile: &Profile, random: &mut Random) -> Vec<u8> {
    let parts = match random.below(10) {
        0 => random.below(60),
        _ => 1 + random.below(10),
    };
    parts_of(profile, parts, random)
}

/// A page of a tag or two.
pub fn short(profile: &Profile, random: &mut Random) -> Vec<u8> {
    let parts = 1 + random.below(4);
    parts_of(profile, parts, random)
}

fn parts_of(profile: &Profile, parts: usize, random: &mut Random) -> Vec<u8> {
    let mut page = Vec::new();
    let mut open = Vec::new();
    for _ in 0..parts {
        match random.below(10) {
            0..=4 => {
                let name = tag_name(profile, random);
                tag(&mut page, &name, profile, random);
                open.push(name);
            }
            5 | 6 => {
                let name = open.pop().unwrap_or_default();
                page.extend([b"</", &name[..], b">"].concat());
            }
            7 => declaration(&mut page, profile, random),
            _ => page.extend(random.pick(&TEXTS).as_bytes()),
        }
    }
    page
}

/// A name that a profile may have, often next to one that it has.
pub fn void_name(others: &[Vec<u8>], random: &mut Random) -> Vec<u8> {
    let mut name = match random.below(4) {
        0 => {
            let length = 1 + random.below(NAME_BYTES);
            (0..length).map(|_| *random.of(IDENTIFIER)).collect()
        }
        1 if !others.is_empty() => near(&others[random.below(others.len())], random),
        _ => random.pick(&NAMES).as_bytes().to_vec(),
    };
    name.truncate(NAME_BYTES);
    name
}

/// A name as long as one may be.
pub fn long_name(random: &mut Random) -> Vec<u8> {
    (0..NAME_BYTES).map(|_| *random.of(IDENTIFIER)).collect()
}

/// One of the void names, a name next to one, or another.
fn tag_name(profile: &Profile, random: &mut Random) -> Vec<u8> {
    let own = &profile.void_names;
    if own.is_empty() || random.once_in(4) {
        return match random.once_in(3) {
            true => Vec::new(),
            false => random.pick(&NAMES).as_bytes().to_vec(),
        };
    }
    let name = match random.once_in(5) {
        true => &own[own.len() - 1],
        false => &own[random.below(own.len())],
    };
    match random.once_in(2) {
        true => near(name, random),
        false => name.clone(),
    }
}

/// A name cut short, one byte longer, in another case, or with another byte.
fn near(name: &[u8], random: &mut Random) -> Vec<u8> {
    let mut near = name.to_vec();
    let at = random.below(near.len());
    match random.below(6) {
        0 => near.truncate(at),
        1 => near.push(*random.of(IDENTIFIER)),
        2 => near.insert(0, *random.of(IDENTIFIER)),
        3 => near = near.to_ascii_uppercase(),
        4 if near.get(at).is_some_and(u8::is_ascii_alphabetic) => near[at] ^= 0x20,
        _ if !near.is_empty() => near[at] = *random.of(IDENTIFIER),
        _ => {}
    }
    near
}

/// A white byte of the profile, or one that is white elsewhere, or 0, which is white nowhere.
fn white(profile: &Profile, random: &mut Random) -> u8 {
    match profile.white.is_empty() || random.once_in(3) {
        true => *random.of(b" \n\t\r\x0b\x0c\0\x01\x1f\x20"),
        false => *random.of(&profile.white),
    }
}

/// Up to so many of them.
fn whites(page: &mut Vec<u8>, most: usize, profile: &Profile, random: &mut Random) {
    for _ in 0..random.below(most + 1) {
        page.push(white(profile, random));
    }
}

fn tag(page: &mut Vec<u8>, name: &[u8], profile: &Profile, random: &mut Random) {
    page.push(b'<');
    if random.once_in(6) {
        whites(page, 2, profile, random);
    }
    page.extend(name);
    for _ in 0..random.below(4) {
        page.push(white(profile, random));
        whites(page, 1, profile, random);
        attribute(page, profile, random);
    }
    if random.once_in(5) {
        whites(page, 2, profile, random);
    }
    let end: &str = random.pick(&[">", ">", ">", ">", ">", "/>", "/", ""]);
    page.extend(end.as_bytes());
}

/// An attribute, mostly with a value without quotes, in which there may be white that ends it and white that does not.
fn attribute(page: &mut Vec<u8>, profile: &Profile, random: &mut Random) {
    page.extend(random.pick(&ATTRIBUTES).as_bytes());
    if random.once_in(5) {
        return;
    }
    if random.once_in(4) {
        whites(page, 1, profile, random);
    }
    page.push(b'=');
    if random.once_in(4) {
        whites(page, 1, profile, random);
    }
    let quote: &str = random.pick(&["", "", "", "'", "\""]);
    page.extend(quote.as_bytes());
    for _ in 0..1 + random.below(3) {
        page.push(*random.of(b"abcd"));
        whites(page, 1, profile, random);
    }
    page.extend(quote.as_bytes());
}

/// A comment, or a document type with any white in it.
fn declaration(page: &mut Vec<u8>, profile: &Profile, random: &mut Random) {
    page.push(b'<');
    whites(page, 1, profile, random);
    if random.once_in(3) {
        page.extend(b"!--c-->");
        return;
    }
    page.extend(random.pick(&["!doctype", "!DocType", "!doc"]).as_bytes());
    whites(page, 2, profile, random);
    page.extend(random.pick(&["html", "HTML", "svg", ""]).as_bytes());
    whites(page, 1, profile, random);
    page.push(b'>');
}

/// Gives a page other white: each byte that is white somewhere may become one that is white here, or one that is not.
pub fn change_white(page: &mut [u8], profile: &Profile, random: &mut Random) {
    for byte in page {
        if b" \n\t\r\x0c\x0b".contains(byte) && !random.once_in(4) {
            *byte = white(profile, random);
        }
    }
}
