//! What a comparison found: how much was compared, which known departures showed, and the differences.
use crate::model::{Ended, VIEWS};
use crate::question::Question;

/// The departures of docs/DIFFERENCES.md that a comparison can meet.
#[derive(Clone, Copy, Debug, PartialEq, Eq)]
pub enum Departure {
    PageTooLong,
    SelectorTooLong,
    RepeatedAttribute,
    ClassNotUtf8,
    TextNotUtf8,
}

pub const DEPARTURES: [(Departure, &str); 5] = [
    (
        Departure::PageTooLong,
        "pages over 65,536 bytes: read by tl, refused as 1 here",
    ),
    (
        Departure::SelectorTooLong,
        "selectors over 128 bytes: read by tl, refused as 5 here",
    ),
    (
        Departure::RepeatedAttribute,
        "answers on a repeated attribute: the last of three and more in tl, the first here",
    ),
    (
        Departure::ClassNotUtf8,
        "answers on a class value that is not UTF-8: no class in tl, cut as bytes here",
    ),
    (
        Departure::TextNotUtf8,
        "texts that are not UTF-8: characters replaced in tl's string, the bytes here",
    ),
];

/// The ways in which a tag ends.
pub const ENDINGS: [(Ended, &str); 4] = [
    (Ended::Open, "tags open at the end of the page"),
    (Ended::Closed, "tags closed by a closing tag with its `>`"),
    (
        Ended::CutShort,
        "tags closed by one that the page's end cut short",
    ),
    (Ended::NeverOpened, "tags never opened"),
];

/// An answer that is not as it should be.
pub struct Difference {
    pub question: Question,
    /// the library's answer, and what the paper says
    pub ours: String,
    pub paper: String,
    /// tl's answer, if it was asked, and what it was expected to be
    pub tl: Option<(String, String)>,
}

/// What a run wants to be sure that it met.
#[derive(Default)]
pub struct Covered {
    /// answers to a list of handles, and the handles of these lists
    pub lists: u64,
    pub listed: u64,
    /// pages that are not UTF-8
    pub not_utf8: u64,
    /// pages that have the most nodes that so many bytes may have
    pub densest: u64,
    /// tags in which a name other than `id` and `class` is repeated
    pub repeating_tags: u64,
    /// lookups with fallbacks; those that hand them back, and those that hand back an empty value
    pub with_fallbacks: u64,
    pub fell_back: u64,
    pub empty_values: u64,
    /// tags of pages that were read, by how they ended
    pub ended: [u64; ENDINGS.len()],
    /// answers to lookups in the scan and to queries, by their view
    pub in_view: [u64; VIEWS.len()],
    /// finds of the finished view that are not those of the view of all nodes
    pub unlike_all: u64,
    /// queries in the finished view below a tag that it does not show
    pub below_unshown: u64,
}

impl Covered {
    pub fn add(&mut self, more: &Covered) {
        self.lists += more.lists;
        self.listed += more.listed;
        self.not_utf8 += more.not_utf8;
        self.densest += more.densest;
        self.repeating_tags += more.repeating_tags;
        self.with_fallbacks += more.with_fallbacks;
        self.fell_back += more.fell_back;
        self.empty_values += more.empty_values;
        for (sum, more) in self.ended.iter_mut().zip(more.ended) {
            *sum += more;
        }
        for (sum, more) in self.in_view.iter_mut().zip(more.in_view) {
            *sum += more;
        }
        self.unlike_all += more.unlike_all;
        self.below_unshown += more.below_unshown;
    }
}

/// What was asked under other profiles than tl's.
#[derive(Default)]
pub struct Others {
    pub pages: u64,
    /// pages whose profile is refused, and answers that say so
    pub profiles_refused: u64,
    pub refused_as_14: u64,
    /// pages that are longer than their profile allows
    pub too_long: u64,
}

impl Others {
    pub fn add(&mut self, more: &Others) {
        self.pages += more.pages;
        self.profiles_refused += more.profiles_refused;
        self.refused_as_14 += more.refused_as_14;
        self.too_long += more.too_long;
    }
}

#[derive(Default)]
pub struct Findings {
    pub pages: u64,
    pub selectors: u64,
    pub answers: u64,
    pub others: Others,
    pub covered: Covered,
    pub departures: [u64; DEPARTURES.len()],
    pub differences: Vec<Difference>,
}

impl Findings {
    pub fn depart(&mut self, departure: Departure) {
        self.departures[departure as usize] += 1;
    }

    /// Under a profile that tl does not have there is nothing to depart from.
    pub fn without_departures(self) -> Findings {
        Findings {
            departures: Default::default(),
            ..self
        }
    }

    pub fn differ(&mut self, difference: Difference) {
        self.differences.push(difference);
    }
}
