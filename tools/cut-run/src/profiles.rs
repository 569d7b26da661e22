//! Random profiles within their limits, and pages that have their white bytes and void tags.

use std::fmt;

use common::{is_identifier, Random};
use tl_rattle::sys::tl_profile;
use tl_rattle::{Ended, Profile, MAX_PAGE};

/// A profile's places for void names, and the bytes of one.
const PLACES: usize = 24;
const PLACE: usize = 16;

/// White bytes of most profiles, and what pages have where a tag may have white.
const WHITE_BYTES: &[u8] = b"  \n\t\t\r\x0c";

/// Void names besides those on the page.
#[rustfmt::skip]
const OTHERS: &[&[u8]] = &[
    b"x", b"br", b"hr", b"BR", b"br/", b"a+b", b"leg", b"x-fill", b"/", b"-", b"0", b"tdx", b"0123456789abcde",
    b"0123456789abcdef", b"execution-report",
];

const IDENTIFIER: &[u8] = b"0123456789ABCXYZabcxyz-_:+/";

/// White bytes and void names by chance, those of a page among them; the limit is the highest.
pub fn profile(random: &mut Random, page: &[u8]) -> Profile {
    let on_page = names_on(page);
    let mut raw = tl_profile {
        limit: MAX_PAGE as u32,
        white: white(random),
        void_names: [[0; PLACE]; PLACES],
    };
    let many = *random.of(&[0, 1, 2, 5, 15, PLACES]);
    for place in &mut raw.void_names {
        // about so many, with unused places between them
        if random.below(PLACES) < many {
            let name = name(random, &on_page);
            place[..name.len()].copy_from_slice(&name);
        }
    }
    Profile::from_raw(raw)
}

/// Four white bytes, or 0 for none.
fn white(random: &mut Random) -> [u8; 4] {
    let [one, other] = [0; 2].map(|_| white_byte(random));
    match random.below(8) {
        0 => [0; 4],
        1 => [b'\t', 0, 0, 0],
        2 => [b' ', b'\n', b'\t', 0],
        3 => [one; 4],
        4 => [0, one, 0, other],
        5 => [other, one, one, 0],
        _ => [0; 4].map(|_| white_byte(random)),
    }
}

fn white_byte(random: &mut Random) -> u8 {
    match random.below(3) {
        0 => random.between(1, 32) as u8,
        _ => *random.of(WHITE_BYTES),
    }
}

fn name(random: &mut Random, on_page: &[&[u8]]) -> Vec<u8> {
    match random.below(8) {
        0..=3 if !on_page.is_empty() => random.text(on_page).to_vec(),
        4 => {
            let long = *random.of(&[1, 2, 3, 15, PLACE, PLACE]);
            (0..long).map(|_| *random.of(IDENTIFIER)).collect()
        }
        _ => random.text(OTHERS).to_vec(),
    }
}

/// What stands after each `<` and the `/` there may be: as much of the name as has a place.
fn names_on(page: &[u8]) -> Vec<&[u8]> {
    let parts = page.split(|byte| *byte == b'<').skip(1);
    let names = parts.map(|part| {
        let part = part.strip_prefix(b"/").unwrap_or(part);
        let name = part.split(|byte| !is_identifier(*byte)).next();
        let name = name.unwrap_or_default();
        &name[..name.len().min(PLACE)]
    });
    names.filter(|name| !name.is_empty()).collect()
}

/// The profile with another limit.
pub fn limited(profile: &Profile, limit: usize) -> Profile {
    Profile::from_raw(tl_profile {
        limit: limit as u32,
        ..*profile.as_raw()
    })
}

/// The profile with a limit that mostly lets a page of so many bytes through: its length, more, or the highest.
pub fn with_limit(random: &mut Random, profile: &Profile, length: usize) -> Profile {
    let least = length.max(1);
    let limit = match random.below(16) {
        0 => random.between(1, least),
        1..=5 => least,
        6 | 7 => least + 1,
        8 => random.between(least, MAX_PAGE),
        _ => MAX_PAGE,
    };
    limited(profile, limit)
}

/// A page with white bytes and void tags of a profile put in, as long as before.
pub fn adapted(random: &mut Random, profile: &Profile, mut page: Vec<u8>) -> Vec<u8> {
    let white: Vec<u8> = profile.white().collect();
    let names: Vec<&[u8]> = profile.void_names().collect();
    let length = page.len();
    for byte in page.iter_mut().filter(|byte| WHITE_BYTES.contains(byte)) {
        if !white.is_empty() && random.once_in(2) {
            *byte = *random.of(&white);
        }
    }
    for _ in 0..random.between(0, 1 + length / 40) {
        // mostly before a tag
        let at = random.below(length);
        let tag = page[at..].iter().position(|byte| *byte == b'<');
        let at = at + tag.filter(|_| !random.once_in(4)).unwrap_or(0);
        let part = tag_of(random, &white, &names);
        page.splice(at..at, part);
    }
    page.truncate(length);
    page
}

/// A tag, mostly a void one, with the profile's white bytes.
fn tag_of(random: &mut Random, white: &[u8], names: &[&[u8]]) -> Vec<u8> {
    let [one, two] = [0; 2].map(|_| match white {
        [] => &b" "[..],
        white => std::slice::from_ref(random.of(white)),
    });
    let name = match names {
        [] => random.text(OTHERS),
        names => random.text(names),
    };
    match random.below(8) {
        0 | 1 => [b"<", name, b">"].concat(),
        2 => [b"<", name, one, b"k=v>"].concat(),
        3 => [b"<", name, one, b"id=a", two, b"class=fill>x"].concat(),
        4 => [b"</", name, b">"].concat(),
        5 => [b"<", one, name, two, b"k", two, b"=", one, b"'v w'>"].concat(),
        6 => [b"<", name, one, b"/>"].concat(),
        _ => [b"<", name, b"s>y<td", one, b"k=a b", two, b"j=c\td>"].concat(),
    }
}

/// What the profiles were like, of how many pages each.
#[derive(Default)]
pub struct ProfileCounts {
    tab: usize,
    tab_alone: usize,
    no_space: usize,
    no_white: usize,
    repeated: usize,
    no_name: usize,
    all_names: usize,
    longest_name: usize,
    just_fits: usize,
    too_short: usize,
    void_tags: usize,
}

impl ProfileCounts {
    /// Counts the profile of a page.
    pub fn observe(&mut self, profile: &Profile, page: &[u8]) {
        let white: Vec<u8> = profile.white().collect();
        let names: Vec<&[u8]> = profile.void_names().collect();
        let repeated = (1..white.len()).any(|at| white[..at].contains(&white[at]));
        let limit = profile.limit();
        for (count, is) in [
            (&mut self.tab, white.contains(&b'\t')),
            (&mut self.tab_alone, white == b"\t"),
            (&mut self.no_space, !white.contains(&b' ')),
            (&mut self.no_white, white.is_empty()),
            (&mut self.repeated, repeated),
            (&mut self.no_name, names.is_empty()),
            (&mut self.all_names, names.len() == PLACES),
            (
                &mut self.longest_name,
                names.iter().any(|name| name.len() == PLACE),
            ),
            (&mut self.just_fits, limit == page.len()),
            (&mut self.too_short, limit < page.len()),
        ] {
            *count += usize::from(is);
        }
        if let Ok(dom) = tl_rattle::parse_with(profile, page) {
            let never = |node: &tl_rattle::Node<'_, '_>| node.ended() == Some(Ended::NeverOpened);
            self.void_tags += dom.nodes().filter(never).count();
        }
    }
}

impl fmt::Display for ProfileCounts {
    fn fmt(&self, f: &mut fmt::Formatter<'_>) -> fmt::Result {
        write!(
            f,
            "profiles: the tab is white on {} pages, alone on {}; the space is not on {}, no byte on {}, a byte is said twice on {}; ",
            self.tab, self.tab_alone, self.no_space, self.no_white, self.repeated
        )?;
        write!(
            f,
            "no name is void on {}, {PLACES} are on {}, one of {PLACE} bytes on {}; ",
            self.no_name, self.all_names, self.longest_name
        )?;
        write!(
            f,
            "the limit is the page's length on {}, less on {}; tags never opened {}",
            self.just_fits, self.too_short, self.void_tags
        )
    }
}

#[cfg(test)]
mod tests {
    use super::*;
    use crate::pages;
    use tl_rattle::Refusal;

    #[test]
    fn within_the_limits_and_as_long_as_before() {
        let mut counts = ProfileCounts::default();
        for number in 0..600 {
            let mut random = Random::for_page(1, number);
            let length = random.between(0, 300);
            let page = pages::page(&mut random, pages::Kind::Nested, length);
            let profile = profile(&mut random, &page);
            let page = adapted(&mut random, &profile, page);
            assert_eq!(page.len(), length);
            assert!(tl_rattle::parse_with(&profile, &page).is_ok());
            let profile = with_limit(&mut random, &profile, length);
            let refused = tl_rattle::parse_with(&profile, &page).err();
            let over = length > profile.limit();
            assert_eq!(refused, over.then_some(Refusal::PageTooLong));
            counts.observe(&profile, &page);
        }
        assert!(counts.tab_alone.min(counts.no_white).min(counts.repeated) > 10);
        assert!(
            counts
                .no_name
                .min(counts.all_names)
                .min(counts.longest_name)
                > 10
        );
        assert!(counts.just_fits.min(counts.too_short) > 10);
    }

    #[test]
    fn names_on_a_page() {
        let page = b"x<a></b ><0123456789abcdefg k>< c><!--<br/";
        let names: [&[u8]; 4] = [b"a", b"b", b"0123456789abcdef", b"br/"];
        assert_eq!(names_on(page), names);
    }
}
