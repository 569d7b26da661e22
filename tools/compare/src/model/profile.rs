//! A profile: how long a counterparty's pages may be, what is white in them and which names are void, as 392 bytes. Bytes 0 to 3 are
//! the limit, low byte first, 4 to 7 the white bytes, 0 where there is none; then come 24 places of 16 bytes, each a void name
//! followed by zeros.
use super::cursor::is_identifier;
use super::PAGE_LIMIT;
use std::sync::LazyLock;

pub const WHITE_AT: usize = 4;
pub const WHITE_BYTES: usize = 4;
pub const NAMES_AT: usize = 8;
pub const NAMES: usize = 24;
pub const NAME_BYTES: usize = 16;
pub const PROFILE_BYTES: usize = NAMES_AT + NAMES * NAME_BYTES;

pub type ProfileBytes = [u8; PROFILE_BYTES];

#[derive(Clone, Debug)]
pub struct Profile {
    pub limit: usize,
    pub white: Vec<u8>,
    pub void_names: Vec<Vec<u8>>,
}

impl Profile {
    /// The profile that these bytes are; nothing if it is refused as 14.
    pub fn of(bytes: &ProfileBytes) -> Option<Profile> {
        // A place that holds 0 holds no white byte, and one that is empty no name.
        let white = bytes[WHITE_AT..NAMES_AT].iter().copied();
        let names = name_places(bytes).map(name_in);
        is_fine(bytes).then(|| Profile {
            limit: limit_of(bytes),
            white: white.filter(|&byte| byte != 0).collect(),
            void_names: names.filter(|name| !name.is_empty()).collect(),
        })
    }

    /// What a page's reader skips.
    pub fn is_white(&self, byte: u8) -> bool {
        self.white.contains(&byte)
    }

    pub fn is_void(&self, name: &[u8]) -> bool {
        self.void_names.iter().any(|void| void == name)
    }
}

/// Whether limit, white bytes and names are within their limits.
fn is_fine(bytes: &ProfileBytes) -> bool {
    (1..=PAGE_LIMIT).contains(&limit_of(bytes))
        && bytes[WHITE_AT..NAMES_AT].iter().all(|&byte| byte <= 32)
        && name_places(bytes).all(name_is_fine)
}

pub fn limit_of(bytes: &ProfileBytes) -> usize {
    let [first, second, third, fourth, ..] = *bytes;
    u32::from_le_bytes([first, second, third, fourth]) as usize
}

pub fn set_limit(bytes: &mut ProfileBytes, limit: u32) {
    bytes[..WHITE_AT].copy_from_slice(&limit.to_le_bytes());
}

/// The places of the names, used or not.
pub fn name_places(bytes: &ProfileBytes) -> impl Iterator<Item = &[u8]> {
    bytes[NAMES_AT..].chunks_exact(NAME_BYTES)
}

/// The place of one name, by its number.
pub fn name_place(bytes: &mut ProfileBytes, name: usize) -> &mut [u8] {
    &mut bytes[NAMES_AT + name * NAME_BYTES..][..NAME_BYTES]
}

/// The bytes of one name in its place: what stands before the first 0.
fn name_in(place: &[u8]) -> Vec<u8> {
    place
        .iter()
        .copied()
        .take_while(|&byte| byte != 0)
        .collect()
}

/// Identifier bytes, and from the first 0 on nothing but zeros.
fn name_is_fine(place: &[u8]) -> bool {
    let name = name_in(place);
    let rest = &place[name.len()..];
    name.iter().all(|&byte| is_identifier(byte)) && rest.iter().all(|&byte| byte == 0)
}

/// tl's profile.
pub const TL_BYTES: ProfileBytes = tl_bytes();

pub fn tl_profile() -> &'static Profile {
    static PROFILE: LazyLock<Profile> =
        LazyLock::new(|| Profile::of(&TL_BYTES).expect("tl's profile is not refused"));
    &PROFILE
}

const fn tl_bytes() -> ProfileBytes {
    const VOID_TAGS: [&[u8]; 15] = [
        b"area", b"base", b"br", b"col", b"embed", b"hr", b"img", b"input", b"keygen", b"link",
        b"meta", b"param", b"source", b"track", b"wbr",
    ];
    let mut bytes = [0; PROFILE_BYTES];
    // 65,536
    bytes[2] = 1;
    bytes[WHITE_AT] = b' ';
    bytes[WHITE_AT + 1] = b'\n';
    let mut i = 0;
    while i < VOID_TAGS.len() {
        let mut j = 0;
        while j < VOID_TAGS[i].len() {
            bytes[NAMES_AT + i * NAME_BYTES + j] = VOID_TAGS[i][j];
            j += 1;
        }
        i += 1;
    }
    bytes
}

#[cfg(test)]
mod tests {
    use super::super::{read, Asked, Ended, PAPER};
    use super::*;

    fn with(places: &[(usize, u8)]) -> Option<Profile> {
        let mut bytes = TL_BYTES;
        for &(place, byte) in places {
            bytes[place] = byte;
        }
        Profile::of(&bytes)
    }

    #[test]
    fn tl_has_its_rules() {
        let tl = tl_profile();
        assert_eq!((tl.limit, &tl.white[..]), (65_536, &b" \n"[..]));
        assert_eq!(tl.void_names.len(), 15);
        assert!(tl.is_void(b"br") && tl.is_void(b"keygen"));
        assert!(!tl.is_void(b"BR") && !tl.is_void(b"br/"));
    }

    #[test]
    fn unused_places_mean_nothing() {
        assert!(!tl_profile().is_white(0));
        assert!(!tl_profile().is_void(b""));
    }

    #[test]
    fn a_limit_is_1_to_65536() {
        let limit =
            |[a, b, c, d]: [u8; 4]| with(&[(0, a), (1, b), (2, c), (3, d)]).map(|fine| fine.limit);
        assert_eq!(limit([1, 0, 0, 0]), Some(1));
        assert_eq!(limit([2, 1, 0, 0]), Some(258));
        assert_eq!(limit([0, 0, 1, 0]), Some(65_536));
        for refused in [
            [0, 0, 0, 0],
            [1, 0, 1, 0],
            [0, 0, 0, 1],
            [1, 0, 0, 1],
            [255; 4],
        ] {
            assert_eq!(limit(refused), None);
        }
    }

    #[test]
    fn a_white_byte_is_at_most_32() {
        for place in WHITE_AT..NAMES_AT {
            assert!(with(&[(place, 32)]).is_some());
            assert!(with(&[(place, 33)]).is_none());
        }
    }

    #[test]
    fn a_name_is_identifier_bytes_and_then_zeros() {
        let last = PROFILE_BYTES - NAME_BYTES;
        let full: Vec<(usize, u8)> = (last..PROFILE_BYTES).zip(*b"abcdefghijklmnop").collect();
        assert!(with(&full).is_some_and(|fine| fine.is_void(b"abcdefghijklmnop")));
        assert!(with(&full[..15]).is_some());
        assert!(with(&full[1..]).is_none());
        assert!(with(&[(PROFILE_BYTES - 1, b'x')]).is_none());
        for byte in 1..=255u8 {
            let allowed = byte.is_ascii_alphanumeric() || b"-_:+/".contains(&byte);
            assert_eq!(with(&[(last, byte)]).is_some(), allowed);
        }
    }

    /// The tab alone is white, and `x` is void besides tl's names.
    fn tabs() -> Profile {
        let x = NAMES_AT + 15 * NAME_BYTES;
        let places = [(WHITE_AT, b'\t'), (WHITE_AT + 1, 0), (x, b'x')];
        with(&places).expect("it is not refused")
    }

    #[test]
    fn white_stands_between_names_and_ends_values() {
        let page = b"<\tp\tk=a b\0c\td>";
        let value = |rules: &Profile| {
            let rows = read(page, rules).rows;
            let asked = Asked::new(page, &rows, rules);
            let name = asked.page[rows[0].name.0..rows[0].name.1].to_vec();
            (name, asked.value(0, b"k", PAPER).map(<[u8]>::to_vec))
        };
        assert_eq!(value(&tabs()), (b"p".to_vec(), Some(b"a b\0c".to_vec())));
        // under tl's profile the name is empty, and so is the first attribute's
        assert_eq!(value(tl_profile()), (Vec::new(), Some(b"a".to_vec())));
    }

    #[test]
    fn void_names_are_never_opened() {
        let opened = |page: &[u8], rules: &Profile| read(page, rules).rows[0].ended == Ended::Open;
        for page in [&b"<x>"[..], b"<br>"] {
            assert!(!opened(page, &tabs()));
        }
        for page in [&b"<xx>"[..], b"<X>", b"<x/>", b"<>"] {
            assert!(opened(page, &tabs()));
        }
        assert!(opened(b"<x>", tl_profile()));
    }
}
