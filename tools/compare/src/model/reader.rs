//! One step of the reader after the other, until the end of the page.
use super::cursor::{is_closing, Cursor};
use super::{Ended, Kind, Profile, Reading, Row, Span};

/// Reads a page of any length.
pub fn read(page: &[u8], profile: &Profile) -> Reading {
    let mut reader = Reader {
        profile,
        at: Cursor::new(page, 0),
        rows: Vec::new(),
        open: Vec::new(),
        version: 0,
    };
    while !reader.at.at_end() {
        reader.step();
    }
    settle_last(&mut reader.rows);
    Reading {
        version: reader.version,
        rows: reader.rows,
    }
}

/// A row's last descendant: children come after their parent, so going backwards each row's own is known when it is needed.
fn settle_last(rows: &mut [Row]) {
    for handle in (0..rows.len()).rev() {
        let last = rows[handle].last;
        if let Some(parent) = rows[handle].parent {
            rows[parent].last = rows[parent].last.max(last);
        }
    }
}

struct Reader<'p> {
    profile: &'p Profile,
    at: Cursor<'p>,
    rows: Vec<Row>,
    /// the open tags' handles, the innermost last
    open: Vec<usize>,
    version: u32,
}

impl Reader<'_> {
    fn step(&mut self) {
        let start = self.at.place;
        if self.at.now() != Some(b'<') {
            let (start, end) = self.at.run(|byte| byte != b'<');
            self.add(Kind::Text, start, end, (0, 0), 0);
            return;
        }
        self.at.pass(1);
        self.skip_white();
        match self.at.now() {
            None => {}
            Some(b'/') => self.closing_tag(),
            Some(b'!') => self.declaration(),
            Some(_) => self.tag(start),
        }
    }

    fn skip_white(&mut self) {
        self.at.run(|byte| self.profile.is_white(byte));
    }

    /// Adds a row below the innermost open tag.
    fn add(&mut self, kind: Kind, start: usize, end: usize, name: Span, opened: usize) -> usize {
        let handle = self.rows.len();
        self.rows.push(Row {
            kind,
            start,
            end,
            name,
            opened,
            parent: self.open.last().copied(),
            last: handle,
            ended: Ended::Open,
        });
        handle
    }

    fn closing_tag(&mut self) {
        self.at.pass(1);
        let name = self.at.run(|byte| byte != b'>');
        let ended = match self.at.pass_if(b'>') {
            true => Ended::Closed,
            false => Ended::CutShort,
        };
        if let Some(&handle) = self.open.last() {
            if self.at.part(self.rows[handle].name) == self.at.part(name) {
                self.rows[handle].end = self.at.place;
                self.rows[handle].ended = ended;
                self.open.pop();
            }
        }
    }

    fn declaration(&mut self) {
        let before = self.at.place - 1;
        self.at.pass(1);
        if self.at.at(b"--") {
            let end = self.comment_end().unwrap_or(before);
            self.add(Kind::Comment, before, end, (0, 0), 0);
        } else {
            self.document_type();
        }
    }

    /// Where the comment ends, or nothing if the page ends first.
    fn comment_end(&mut self) -> Option<usize> {
        while !self.at.at_end() {
            if self.at.at(b"--") {
                self.at.pass(2);
                if self.at.pass_if(b'>') {
                    return Some(self.at.place);
                }
            }
            self.at.pass(1);
        }
        None
    }

    fn document_type(&mut self) {
        let word = self.at.identifier();
        self.skip_white();
        if !self.at.part(word).eq_ignore_ascii_case(b"doctype") {
            return;
        }
        let which = self.at.identifier();
        if self.at.part(which).eq_ignore_ascii_case(b"html") {
            self.version = 5;
        }
        self.skip_white();
        self.at.pass(1);
    }

    fn tag(&mut self, start: usize) {
        let name = self.at.identifier();
        attributes(&mut self.at, self.profile);
        let slash = self.at.pass_if(b'/');
        if !self.at.pass_if(b'>') {
            return;
        }
        let end = self.at.place;
        let handle = self.add(Kind::Tag, start, end, name, end);
        if slash || self.profile.is_void(self.at.part(name)) {
            self.rows[handle].ended = Ended::NeverOpened;
        } else {
            self.open.push(handle);
        }
    }
}

pub struct Attribute {
    pub name: Span,
    pub value: Option<Span>,
}

/// Reads attributes up to `/`, `>` or the end.
pub fn attributes(at: &mut Cursor, profile: &Profile) -> Vec<Attribute> {
    let mut all = Vec::new();
    loop {
        at.run(|byte| profile.is_white(byte));
        if at.now().is_none_or(is_closing) {
            return all;
        }
        all.push(attribute(at, profile));
        if at.now().is_some_and(|byte| !is_closing(byte)) {
            at.pass(1);
        }
    }
}

fn attribute(at: &mut Cursor, profile: &Profile) -> Attribute {
    let is_white = |byte: u8| profile.is_white(byte);
    let name = at.identifier();
    at.run(is_white);
    if !at.pass_if(b'=') {
        return Attribute { name, value: None };
    }
    at.run(is_white);
    let value = match at.now() {
        Some(quote @ (b'"' | b'\'')) => {
            at.pass(1);
            at.run(|byte| byte != quote)
        }
        _ => at.run(|byte| !is_white(byte) && !is_closing(byte)),
    };
    Attribute {
        name,
        value: Some(value),
    }
}
