//! Random profiles, and every way in which one is refused.
use super::markup;
use crate::model::{
    name_place, set_limit, ProfileBytes, NAMES, NAMES_AT, NAME_BYTES, PAGE_LIMIT, PROFILE_BYTES,
    WHITE_AT, WHITE_BYTES,
};
use common::Random;

/// How many profiles there are that differ from one in one byte at most.
pub const CHANGES: u64 = PROFILE_BYTES as u64 * 256;

/// Each of them once, as the place and the value, spread so that a short run has some of each place.
pub fn change(number: u64) -> (usize, u8) {
    let change = number * 9_973 % CHANGES;
    ((change / 256) as usize, (change % 256) as u8)
}

/// A limit at the page's length, next to it, at either end of what is allowed, or anywhere.
pub fn limit(page_len: usize, random: &mut Random) -> usize {
    let limit = match random.below(12) {
        0 => page_len,
        1 => page_len.saturating_sub(1),
        2 => page_len + 1,
        3 => 1,
        4 => 1 + random.below(PAGE_LIMIT),
        _ => PAGE_LIMIT,
    };
    limit.clamp(1, PAGE_LIMIT)
}

/// A profile that is not refused.
pub fn fine(random: &mut Random) -> ProfileBytes {
    let mut profile = [0; PROFILE_BYTES];
    set_limit(&mut profile, PAGE_LIMIT as u32);
    profile[WHITE_AT..NAMES_AT].copy_from_slice(&white(random));
    let names = names(random);
    for (number, name) in names.iter().enumerate() {
        // all places are used, or some anywhere
        let at = match names.len() {
            NAMES => number,
            _ => random.below(NAMES),
        };
        put_name(&mut profile, at, name);
    }
    profile
}

/// The tab alone, none, one byte at several places or in the last, or any.
fn white(random: &mut Random) -> [u8; WHITE_BYTES] {
    const COMMON: &[u8] = b"\t\n\r \x0b\x0c\x01\x1f ";
    let one = *random.of(COMMON);
    match random.below(10) {
        0 => [b'\t', 0, 0, 0],
        1 => [0; WHITE_BYTES],
        2 => [one, 0, one, one],
        3 => [0, 0, 0, one],
        _ => [(); WHITE_BYTES].map(|()| match random.below(4) {
            0 => 0,
            1 => 1 + random.below(32) as u8,
            _ => *random.of(COMMON),
        }),
    }
}

/// None, `x` alone, one name several times, names of 16 bytes, as many as there are places, or some.
fn names(random: &mut Random) -> Vec<Vec<u8>> {
    let count = match random.below(10) {
        0 => 0,
        1 => return vec![b"x".to_vec()],
        2 => {
            let name = markup::void_name(&[], random);
            return vec![name; 2 + random.below(4)];
        }
        3 => return (0..3).map(|_| markup::long_name(random)).collect(),
        4 | 5 => NAMES,
        _ => 1 + random.below(4),
    };
    let mut names = Vec::new();
    for _ in 0..count {
        names.push(markup::void_name(&names, random));
    }
    names
}

fn put_name(profile: &mut ProfileBytes, at: usize, name: &[u8]) {
    let place = name_place(profile, at);
    place.fill(0);
    place[..name.len()].copy_from_slice(name);
}

/// Makes some names void besides, or in place of others.
pub fn add_names(profile: &mut ProfileBytes, names: &[Vec<u8>], random: &mut Random) {
    for name in random.some_of(names, 3) {
        put_name(profile, random.below(NAMES), &name);
    }
}

/// Ways in which any profile becomes one that is refused: bytes to be written into it.
pub fn refusals() -> Vec<Vec<(usize, u8)>> {
    let mut all = Vec::new();
    for limit in [0, 65_537, 1 << 24, (1 << 24) + 1, u32::MAX] {
        all.push((0..WHITE_AT).zip(limit.to_le_bytes()).collect());
    }
    for place in WHITE_AT..NAMES_AT {
        all.push(vec![(place, 33)]);
        all.push(vec![(place, 255)]);
    }
    // no identifier byte at either end of a name or within it, and one that goes on after a zero: at once, later, and in its last
    // byte alone
    let names: [&[u8]; 6] = [
        b".",
        b"b\xe9r",
        b"abcdefghijklmno ",
        b"\0x",
        b"b\0r",
        b"abcdefghijklmn\0p",
    ];
    for place in [NAMES_AT, PROFILE_BYTES - NAME_BYTES] {
        all.extend(names.map(|name| (place..).zip(name.iter().copied()).collect()));
    }
    all
}

/// Makes a profile one that is refused, in the ways above by their numbers, or anywhere in its names.
pub fn spoil(profile: &mut ProfileBytes, number: usize, random: &mut Random) {
    let ways = refusals();
    let anywhere = NAMES_AT + random.below(PROFILE_BYTES - NAMES_AT);
    let changes = match number % (ways.len() + 4) {
        way if way < ways.len() => ways[way].clone(),
        _ if anywhere % NAME_BYTES != NAMES_AT % NAME_BYTES && random.once_in(2) => {
            vec![(anywhere - 1, 0), (anywhere, b'a')]
        }
        _ => vec![(
            anywhere,
            *random.of(b"\x01 !\"#*,.;<=>?@[\\]^`{|}~\x7f\x80\xc3\xff"),
        )],
    };
    for (place, byte) in changes {
        profile[place] = byte;
    }
}
