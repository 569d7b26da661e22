//! The paper's rules, written down a second time and as plainly as possible. The model is the second opinion on every page,
//! and the only one on tables that no reading made, under profiles that tl does not have, and in the finished view.
//!
//! Where tl is known to depart from the paper, the model can answer in tl's way too (`Way`), so that tl is held to something
//! exact there as well.

mod cursor;
mod lists;
mod lookup;
mod matching;
mod profile;
mod reader;
mod selector;
mod table;

pub use lists::{Names, Texts};
pub use lookup::{class_words, Asked};
pub use profile::{
    limit_of, name_place, name_places, set_limit, tl_profile, Profile, ProfileBytes, NAMES,
    NAMES_AT, NAME_BYTES, PROFILE_BYTES, TL_BYTES, WHITE_AT, WHITE_BYTES,
};
pub use reader::read;
pub use selector::{read_selector, Piece};
pub use table::{header, reading_of, words_for, words_of, HEADER_WORDS, ROW_WORDS};

/// The longest page that a profile may allow, and the longest selector that the library takes.
pub const PAGE_LIMIT: usize = 65_536;
pub const SELECTOR_LIMIT: usize = 128;

/// The most nodes that a page of so many bytes has (request U13).
pub fn max_nodes(bytes: usize) -> usize {
    (2 * bytes + 1) / 3
}

/// Start and end (exclusive) of a part of a page or selector.
pub type Span = (usize, usize);

#[derive(Clone, Copy, Debug, PartialEq, Eq)]
pub enum Kind {
    Tag,
    Text,
    Comment,
}

/// How a row ended, with the paper's numbers. Texts and comments have 0.
#[derive(Clone, Copy, Debug, PartialEq, Eq)]
pub enum Ended {
    /// open at the end of the page
    Open = 0,
    /// closed by a closing tag with its `>`
    Closed = 1,
    /// closed by one that the page's end cut short
    CutShort = 2,
    /// void, or with `/`
    NeverOpened = 3,
}

/// A node. Name and opening mean something for tags only and are 0 elsewhere.
#[derive(Clone, Debug, PartialEq, Eq)]
pub struct Row {
    pub kind: Kind,
    pub start: usize,
    pub end: usize,
    pub name: Span,
    /// the place after the opening `>`
    pub opened: usize,
    pub parent: Option<usize>,
    pub last: usize,
    pub ended: Ended,
}

impl Row {
    pub fn is_tag(&self) -> bool {
        self.kind == Kind::Tag
    }
}

/// What reading a page gives.
#[derive(Clone, Debug, PartialEq, Eq)]
pub struct Reading {
    pub version: u32,
    pub rows: Vec<Row>,
}

/// What a tag holds for an attribute name.
#[derive(Clone, Copy, Debug, PartialEq, Eq)]
pub enum Held {
    Absent,
    Bare,
    Value(Span),
}

impl Held {
    /// What the lookup with a fallback hands back: the value's bytes, or the whole fallback where the name is absent or has no
    /// value.
    pub fn or<'b>(self, page: &'b [u8], fallback: &'b [u8]) -> &'b [u8] {
        match self {
            Held::Absent | Held::Bare => fallback,
            Held::Value((start, end)) => &page[start..end],
        }
    }
}

/// Which rows a lookup in the scan, or a query, goes over.
#[derive(Clone, Copy, Debug, PartialEq, Eq)]
pub enum View {
    All,
    Finished,
}

pub const VIEWS: [View; 2] = [View::All, View::Finished];

impl View {
    /// The finished ones are the tags whose word 8 is 1 or 3.
    pub fn shows(self, row: &Row) -> bool {
        match self {
            View::All => true,
            View::Finished => row.is_tag() && [1, 3].contains(&(row.ended as u32)),
        }
    }
}

/// The two manners of a lookup. The closed one has no view.
#[derive(Clone, Copy, Debug, PartialEq, Eq)]
pub enum Manner {
    Scan(View),
    Closed,
}

pub const MANNERS: [Manner; 3] = [
    Manner::Scan(View::All),
    Manner::Scan(View::Finished),
    Manner::Closed,
];

/// Whose answer is wanted where paper and tl are known to differ.
#[derive(Clone, Copy, Debug, PartialEq, Eq)]
pub struct Way {
    /// A repeated other name: the first counts; in tl the last does if the tag has three or more other attributes.
    pub last_of_three: bool,
    /// A class value that is not UTF-8 is cut as bytes; in tl it holds no class.
    pub classes_in_utf8: bool,
}

pub const PAPER: Way = Way {
    last_of_three: false,
    classes_in_utf8: false,
};

pub const TL: Way = Way {
    last_of_three: true,
    classes_in_utf8: true,
};
