//! Does a node match a chain, and what does a query find.
use super::lookup::Asked;
use super::selector::Piece;
use super::{Span, Way};

/// Unicode White_Space, as the characters that a value's words are cut at under `~=`.
const WHITE_SPACE: [char; 25] = [
    '\u{9}', '\u{a}', '\u{b}', '\u{c}', '\u{d}', '\u{20}', '\u{85}', '\u{a0}', '\u{1680}',
    '\u{2000}', '\u{2001}', '\u{2002}', '\u{2003}', '\u{2004}', '\u{2005}', '\u{2006}', '\u{2007}',
    '\u{2008}', '\u{2009}', '\u{200a}', '\u{2028}', '\u{2029}', '\u{202f}', '\u{205f}', '\u{3000}',
];

impl Asked<'_> {
    /// The handles from `first` on, `count` of them, that match.
    pub fn find(
        &self,
        first: usize,
        count: usize,
        selector: &[u8],
        chain: &[Piece],
        way: Way,
    ) -> Vec<usize> {
        let handles = first..first + count;
        handles
            .filter(|&handle| self.matches(handle, selector, chain, way))
            .collect()
    }

    /// Meaning runs from the right: a piece is joined to all the rest.
    fn matches(&self, handle: usize, selector: &[u8], chain: &[Piece], way: Way) -> bool {
        let Some((piece, rest)) = chain.split_first() else {
            return false;
        };
        let this = || self.matches_piece(handle, selector, piece, way);
        match piece.joiner {
            0 => this(),
            1 => this() && self.matches(handle, selector, rest, way),
            2 => this() || self.matches(handle, selector, rest, way),
            _ => false,
        }
    }

    fn matches_piece(&self, handle: usize, selector: &[u8], piece: &Piece, way: Way) -> bool {
        if piece.kind == 4 {
            return true;
        }
        let row = &self.rows[handle];
        if !row.is_tag() {
            return false;
        }
        let part = |span: Span| &selector[span.0..span.1];
        let (first, second) = (part(piece.first), part(piece.second));
        let holds = |test: fn(&[u8], &[u8]) -> bool| {
            let value = self.value(handle, first, way);
            value.is_some_and(|value| test(value, second))
        };
        match piece.kind {
            1 => &self.page[row.name.0..row.name.1] == first,
            2 => self.value(handle, b"id", way) == Some(first),
            3 => self.times(handle, first, way) > 0,
            5 => self.attribute(handle, first, way) != super::Held::Absent,
            6 => holds(|value, sought| value == sought),
            7 => holds(has_word),
            8 => holds(|value, sought| value.starts_with(sought)),
            9 => holds(|value, sought| value.ends_with(sought)),
            10 => holds(has_part),
            _ => false,
        }
    }
}

fn has_part(value: &[u8], sought: &[u8]) -> bool {
    (0..=value.len()).any(|place| value[place..].starts_with(sought))
}

/// Whether one of the words between white characters, none of them empty, is the one sought.
fn has_word(value: &[u8], sought: &[u8]) -> bool {
    let mut start = 0;
    let mut place = 0;
    while place < value.len() {
        match white_at(&value[place..]) {
            0 => place += 1,
            n => {
                if start < place && &value[start..place] == sought {
                    return true;
                }
                place += n;
                start = place;
            }
        }
    }
    start < place && &value[start..] == sought
}

/// How many bytes of white character the bytes begin with.
fn white_at(bytes: &[u8]) -> usize {
    let begins = |white: &&char| bytes.starts_with(white.encode_utf8(&mut [0; 4]).as_bytes());
    WHITE_SPACE.iter().find(begins).map_or(0, |c| c.len_utf8())
}
