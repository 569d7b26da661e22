//! A place in some bytes. A place past the end counts as the end.
use super::Span;

pub struct Cursor<'b> {
    pub bytes: &'b [u8],
    pub place: usize,
}

impl<'b> Cursor<'b> {
    pub fn new(bytes: &'b [u8], place: usize) -> Self {
        Cursor { bytes, place }
    }

    pub fn now(&self) -> Option<u8> {
        self.bytes.get(self.place).copied()
    }

    pub fn at_end(&self) -> bool {
        self.place >= self.bytes.len()
    }

    pub fn at(&self, what: &[u8]) -> bool {
        self.bytes[self.place..].starts_with(what)
    }

    pub fn pass(&mut self, n: usize) {
        self.place = (self.place + n).min(self.bytes.len());
    }

    pub fn pass_if(&mut self, byte: u8) -> bool {
        let there = self.now() == Some(byte);
        if there {
            self.pass(1);
        }
        there
    }

    /// Goes on to the first byte that answers no, or to the end, and gives the part passed.
    pub fn run(&mut self, goes_on: impl Fn(u8) -> bool) -> Span {
        let start = self.place;
        while self.now().is_some_and(&goes_on) {
            self.place += 1;
        }
        (start, self.place)
    }

    pub fn identifier(&mut self) -> Span {
        self.run(is_identifier)
    }

    pub fn part(&self, span: Span) -> &'b [u8] {
        &self.bytes[span.0..span.1]
    }
}

pub fn is_identifier(byte: u8) -> bool {
    byte.is_ascii_alphanumeric() || b"-_:+/".contains(&byte)
}

pub fn is_closing(byte: u8) -> bool {
    byte == b'/' || byte == b'>'
}
