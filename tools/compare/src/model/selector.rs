//! The selector reader: a chain of pieces, each with the joiner to the rest.
use super::cursor::{is_identifier, Cursor};
use super::Span;

/// The written form of a piece: kind 1 to 10, two names (0, 0 where missing), joiner 0 to 4.
#[derive(Clone, Copy, Debug, PartialEq, Eq)]
pub struct Piece {
    pub kind: u32,
    pub first: Span,
    pub second: Span,
    pub joiner: u32,
}

/// Reads a selector of any length; nothing if it cannot be read.
pub fn read_selector(selector: &[u8]) -> Option<Vec<Piece>> {
    let mut at = Cursor::new(selector, 0);
    let mut chain = Vec::new();
    loop {
        at.run(is_space);
        let (kind, first, second) = simple(&mut at)?;
        let joiner = joiner(&mut at);
        chain.push(Piece {
            kind,
            first,
            second,
            joiner,
        });
        if joiner == 0 {
            return Some(chain);
        }
    }
}

fn is_space(byte: u8) -> bool {
    byte == b' '
}

/// What stands between a piece and the next one. The end is a joiner too, with or without spaces before it.
fn joiner(at: &mut Cursor) -> u32 {
    let spaces = at.run(is_space);
    match at.now() {
        None => 0,
        Some(b',') => {
            at.pass(1);
            2
        }
        Some(b'>') => {
            at.pass(1);
            4
        }
        Some(_) if spaces.0 < spaces.1 => 3,
        Some(_) => 1,
    }
}

fn simple(at: &mut Cursor) -> Option<(u32, Span, Span)> {
    const NONE: Span = (0, 0);
    match at.now()? {
        b'#' => {
            at.pass(1);
            Some((2, at.identifier(), NONE))
        }
        b'.' => {
            at.pass(1);
            Some((3, at.identifier(), NONE))
        }
        b'*' => {
            at.pass(1);
            Some((4, NONE, NONE))
        }
        b'[' => {
            at.pass(1);
            bracket(at)
        }
        byte if is_identifier(byte) => Some((1, at.identifier(), NONE)),
        _ => None,
    }
}

/// What follows a `[`: a name, perhaps a comparison and a value, `]`.
fn bracket(at: &mut Cursor) -> Option<(u32, Span, Span)> {
    let name = at.identifier();
    if at.pass_if(b']') {
        return Some((5, name, (0, 0)));
    }
    let kind = match at.now()? {
        b'=' => 6,
        b'~' => 7,
        b'^' => 8,
        b'$' => 9,
        b'*' => 10,
        _ => return None,
    };
    if kind != 6 {
        at.pass(1);
    }
    if !at.pass_if(b'=') {
        return None;
    }
    let quote = at.now().filter(|byte| [b'"', b'\''].contains(byte));
    at.pass(quote.iter().count());
    let value = at.identifier();
    if quote.is_some_and(|quote| !at.pass_if(quote)) || !at.pass_if(b']') {
        return None;
    }
    Some((kind, name, value))
}
