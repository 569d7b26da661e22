//! The calls with one kind of answer altered on purpose.

mod view;

use std::cell::Cell;

use tl_rattle::calls::{self, HeldAt};
use tl_rattle::{Profile, Refusal, View, MAX_PAGE};

use crate::profiles::limited;
use crate::reader::{Asked, Compiled, Reader};
use crate::rows::Rows;
use view::Looked;
pub use view::{Asking, How, IN_VIEW, IN_WHOLE};

/// What is altered.
#[derive(Clone, Copy, Debug, PartialEq, Eq)]
pub enum Alteration {
    ReadingRefused,
    ReadOneByteLess,
    LastTagDropped,
    TextMadeATag,
    StartMoved,
    NameShortened,
    ParentForgotten,
    OpenedMoved,
    LastTooLow,
    LastTooHigh,
    ValueForgotten,
    ValueShortened,
    AbsentMadeBare,
    BareMadeAbsent,
    BareMadeEmpty,
    AttributeRefused,
    /// handed back although there is a value, or only where it is empty
    FallbackForValue,
    FallbackForEmpty,
    /// no byte of the fallback is handed back, or all but the last one: of any, or only of one that lies in the page
    NothingForAbsent,
    NothingForBare,
    FallbackShortened,
    FallbackInPageShortened,
    FindDropped,
    FindInvented,
    FindsSwapped,
    QueryRefused,
    OtherRefusal,
    QueryAccepted,
    FindBelowDropped,
    FindBelowInvented,
    BelowRefused,
    TextRefused,
    TextLengthened,
    TextShortened,
    ClosedTextShortened,
    FinishedEndMoved,
    FinishedLastMoved,
    FinishedOtherwise,
    CutShortMadeClosed,
    OpenMadeNeverOpened,
    /// in the finished view
    InView(Asking, How),
    ReadByTls,
    AttributeByTls,
    QueryByTls,
}

/// Answers by tl's profile, where the whole page goes by another.
pub const BY_TLS: [Alteration; 3] = [
    Alteration::ReadByTls,
    Alteration::AttributeByTls,
    Alteration::QueryByTls,
];

/// Of a finished row of the whole page.
pub const OF_FINISHED: [Alteration; 3] = [
    Alteration::FinishedEndMoved,
    Alteration::FinishedLastMoved,
    Alteration::FinishedOtherwise,
];

pub const ALTERATIONS: [Alteration; 37] = [
    Alteration::ReadingRefused,
    Alteration::ReadOneByteLess,
    Alteration::LastTagDropped,
    Alteration::TextMadeATag,
    Alteration::StartMoved,
    Alteration::NameShortened,
    Alteration::ParentForgotten,
    Alteration::OpenedMoved,
    Alteration::LastTooLow,
    Alteration::LastTooHigh,
    Alteration::ValueForgotten,
    Alteration::ValueShortened,
    Alteration::AbsentMadeBare,
    Alteration::BareMadeAbsent,
    Alteration::BareMadeEmpty,
    Alteration::AttributeRefused,
    Alteration::FallbackForValue,
    Alteration::FallbackForEmpty,
    Alteration::NothingForAbsent,
    Alteration::NothingForBare,
    Alteration::FallbackShortened,
    Alteration::FallbackInPageShortened,
    Alteration::FindDropped,
    Alteration::FindInvented,
    Alteration::FindsSwapped,
    Alteration::QueryRefused,
    Alteration::OtherRefusal,
    Alteration::QueryAccepted,
    Alteration::FindBelowDropped,
    Alteration::FindBelowInvented,
    Alteration::BelowRefused,
    Alteration::TextRefused,
    Alteration::TextLengthened,
    Alteration::TextShortened,
    Alteration::ClosedTextShortened,
    Alteration::CutShortMadeClosed,
    Alteration::OpenMadeNeverOpened,
];

/// The calls with some answers altered.
pub struct Altered {
    alteration: Alteration,
    taken: Cell<bool>,
}

impl Altered {
    pub fn new(alteration: Alteration) -> Altered {
        Altered {
            alteration,
            taken: Cell::new(false),
        }
    }

    /// Whether an answer was altered since this was last asked.
    pub fn taken(&self) -> bool {
        self.taken.replace(false)
    }

    fn is(&self, alteration: Alteration) -> bool {
        self.alteration == alteration
    }

    fn take(&self) {
        self.taken.set(true);
    }

    /// Drops, invents or swaps a find. Only tags count, since texts and comments are left out.
    fn finds(
        &self,
        drops: bool,
        invents: bool,
        swaps: bool,
        asked: Asked<'_>,
        many: usize,
        out: &mut [u32],
    ) -> usize {
        let rows = Rows(asked.table);
        let tags: Vec<usize> = (0..many).filter(|at| rows.is_tag(out[*at])).collect();
        if let (true, Some(last)) = (drops, tags.last()) {
            self.take();
            out.copy_within(last + 1..many, *last);
            return many - 1;
        }
        if invents && many < out.len() {
            let new = (0..rows.count()).find(|h| rows.is_tag(*h) && !out[..many].contains(h));
            if let Some(new) = new {
                self.take();
                out[many] = new;
                return many + 1;
            }
        }
        if let (true, [first, second, ..]) = (swaps, &tags[..]) {
            self.take();
            out.swap(*first, *second);
        }
        many
    }
}

impl Altered {
    /// Reads all but the last byte.
    fn read_one_byte_less(
        &self,
        profile: &Profile,
        page: &[u8],
        table: &mut [u32],
    ) -> Result<usize, Refusal> {
        let tags = |table: &[u32]| {
            let rows = Rows(table);
            (0..rows.count()).filter(|h| rows.is_tag(*h)).count()
        };
        let before = tags(table);
        let less = &page[..page.len().saturating_sub(1)];
        let count = calls::parse(profile, less, table)?;
        if tags(table) < before {
            self.take();
        }
        table[2] = page.len() as u32;
        Ok(count)
    }

    /// Reads by tl's profile. It is an alteration where a tag, or its start, name, parent or place, is another one.
    fn read_by_tls(&self, page: &[u8], table: &mut [u32]) -> Result<usize, Refusal> {
        let tags = |table: &[u32]| {
            let rows = Rows(table);
            let tags = (0..rows.count()).filter(|h| rows.is_tag(*h));
            let of = |h| {
                (
                    h,
                    rows.start(h),
                    rows.name(page, h),
                    rows.parent(h),
                    rows.places(h),
                )
            };
            tags.map(of).collect::<Vec<_>>()
        };
        let before = tags(table);
        let count = calls::parse(&Profile::TL, page, table)?;
        if tags(table) != before {
            self.take();
        }
        Ok(count)
    }

    /// Asks a selector, which found so many, by tl's profile. Only tags count here too.
    fn query_by_tls(
        &self,
        asked: Asked<'_>,
        selector: &[u8],
        many: usize,
        out: &mut [u32],
    ) -> Result<usize, Refusal> {
        let tags = |finds: &[u32]| {
            let is_tag = |handle: &u32| Rows(asked.table).is_tag(*handle);
            finds.iter().copied().filter(is_tag).collect::<Vec<_>>()
        };
        let before = tags(&out[..many]);
        let answer = Compiled.query(asked.by(&Profile::TL), View::All, selector, out);
        if answer.map(|many| tags(&out[..many])) != Ok(before) {
            self.take();
        }
        answer
    }

    /// Alters an answer in the finished view, where `all` asks the same in the view of all.
    fn in_view(
        &self,
        looked: Looked<'_>,
        out: &mut [u32],
        all: impl FnOnce(&mut [u32]) -> Result<usize, Refusal>,
    ) -> Result<usize, Refusal> {
        let how = match self.alteration {
            Alteration::InView(asking, how) if asking == looked.asking => how,
            _ => return looked.answer,
        };
        let mut room = vec![0; out.len()];
        let found = || {
            let many = all(&mut room).unwrap_or(0);
            room.truncate(many);
            room
        };
        let altered = how.alter(looked, out, found);
        if altered.is_some() {
            self.take();
        }
        altered.unwrap_or(looked.answer)
    }

    /// Alters the last row that can be.
    fn alter_row(&self, table: &mut [u32]) -> Option<()> {
        let rows = Rows(table);
        let last_tag_with =
            |with: &dyn Fn(u32) -> bool| rows.last_with(|h| rows.is_tag(h) && with(h));
        match self.alteration {
            Alteration::LastTagDropped => drop_tag(table, last_tag_with(&|_| true)?),
            Alteration::TextMadeATag => {
                let long = |h| !rows.is_tag(h) && rows.start(h) + 2 < rows.end(h);
                make_tag(table, rows.last_with(long)?);
            }
            Alteration::StartMoved => table[Rows::at(last_tag_with(&|_| true)?) + 1] += 1,
            Alteration::NameShortened => {
                let named = |h| rows.word(h, 3) < rows.word(h, 4);
                table[Rows::at(last_tag_with(&named)?) + 4] -= 1;
            }
            Alteration::ParentForgotten => {
                table[Rows::at(last_tag_with(&|h| rows.parent(h) > 0)?) + 6] = 0;
            }
            Alteration::OpenedMoved => table[Rows::at(last_tag_with(&|_| true)?) + 5] -= 1,
            Alteration::LastTooLow => {
                table[Rows::at(last_tag_with(&|h| rows.last(h) > h)?) + 7] -= 1;
            }
            Alteration::LastTooHigh => table[Rows::at(last_tag_with(&|_| true)?) + 7] += 1,
            _ => return self.alter_finished(table),
        }
        self.take();
        Some(())
    }

    /// Alters the last finished row, or makes the last one that can be a finished one.
    fn alter_finished(&self, table: &mut [u32]) -> Option<()> {
        let rows = Rows(table);
        let last_finished = || rows.last_with(|h| rows.is_finished(h));
        match self.alteration {
            Alteration::FinishedEndMoved => table[Rows::at(last_finished()?) + 2] -= 1,
            Alteration::FinishedLastMoved => table[Rows::at(last_finished()?) + 7] += 1,
            Alteration::FinishedOtherwise => {
                let ended = Rows::at(last_finished()?) + 8;
                // 1 for 3, and 3 for 1
                table[ended] = 4 - table[ended];
            }
            Alteration::CutShortMadeClosed => {
                let cut_short = |h| rows.is_tag(h) && rows.ended(h) == 2;
                table[Rows::at(rows.last_with(cut_short)?) + 8] = 1;
            }
            Alteration::OpenMadeNeverOpened => {
                let empty = |h| rows.is_tag(h) && rows.ended(h) == 0 && rows.last(h) == h;
                table[Rows::at(rows.last_with(empty)?) + 8] = 3;
            }
            _ => return None,
        }
        self.take();
        Some(())
    }
}

/// Makes a text of a tag.
fn drop_tag(table: &mut [u32], handle: u32) {
    let row = Rows::at(handle);
    table[row] = 2;
    table[row + 3..row + 6].fill(0);
    table[row + 7] = handle;
    table[row + 8] = 0;
}

/// Makes a tag without a name of a text or a comment.
fn make_tag(table: &mut [u32], handle: u32) {
    let (row, start) = (Rows::at(handle), Rows(table).start(handle));
    table[row] = 1;
    table[row + 3..row + 6].copy_from_slice(&[start + 1, start + 1, start + 2]);
    table[row + 8] = 1;
}

impl Reader for Altered {
    fn parse(&self, profile: &Profile, page: &[u8], table: &mut [u32]) -> Result<usize, Refusal> {
        let count = calls::parse(profile, page, table)?;
        match self.alteration {
            Alteration::ReadingRefused => {
                self.take();
                return Err(Refusal::TableTooSmall);
            }
            Alteration::ReadOneByteLess => return self.read_one_byte_less(profile, page, table),
            Alteration::ReadByTls => return self.read_by_tls(page, table),
            _ => self.alter_row(table),
        };
        Ok(count)
    }

    fn attribute(&self, asked: Asked<'_>, handle: u32, name: &[u8]) -> Result<HeldAt, Refusal> {
        let held = Compiled.attribute(asked, handle, name);
        let altered = match (self.alteration, held) {
            (Alteration::ValueForgotten, Ok(HeldAt::Value(..))) => Ok(HeldAt::Bare),
            (Alteration::ValueShortened, Ok(HeldAt::Value(start, end))) if start < end => {
                Ok(HeldAt::Value(start, end - 1))
            }
            (Alteration::AbsentMadeBare, Ok(HeldAt::Absent)) => Ok(HeldAt::Bare),
            (Alteration::BareMadeAbsent, Ok(HeldAt::Bare)) => Ok(HeldAt::Absent),
            (Alteration::BareMadeEmpty, Ok(HeldAt::Bare)) => Ok(HeldAt::Value(0, 0)),
            (Alteration::AttributeRefused, Ok(_)) => Err(Refusal::NotATag),
            (Alteration::AttributeByTls, _) => {
                Compiled.attribute(asked.by(&Profile::TL), handle, name)
            }
            _ => held,
        };
        if altered != held {
            self.take();
        }
        altered
    }

    fn handed_back<'f>(
        &self,
        page: &'f [u8],
        held: Result<HeldAt, Refusal>,
        fallback: &'f [u8],
    ) -> Option<&'f [u8]> {
        let part = Compiled.handed_back(page, held, fallback);
        let shortened = &fallback[..fallback.len().saturating_sub(1)];
        let in_page = page.as_ptr_range().contains(&fallback.as_ptr());
        let altered = match (self.alteration, held) {
            (Alteration::FallbackForValue, Ok(HeldAt::Value(..))) => fallback,
            (Alteration::FallbackForEmpty, Ok(HeldAt::Value(start, end))) if start == end => {
                fallback
            }
            (Alteration::NothingForAbsent, Ok(HeldAt::Absent))
            | (Alteration::NothingForBare, Ok(HeldAt::Bare)) => &page[..0],
            (Alteration::FallbackShortened, Ok(HeldAt::Absent | HeldAt::Bare)) => shortened,
            (Alteration::FallbackInPageShortened, Ok(HeldAt::Absent | HeldAt::Bare)) if in_page => {
                shortened
            }
            _ => return part,
        };
        if Some(altered) != part {
            self.take();
        }
        Some(altered)
    }

    fn class(
        &self,
        asked: Asked<'_>,
        view: View,
        class: &[u8],
        out: &mut [u32],
    ) -> Result<usize, Refusal> {
        let answer = Compiled.class(asked, view, class, out);
        if view == View::Finished {
            let all = |all: &mut [u32]| Compiled.class(asked, View::All, class, all);
            return self.in_view(Looked::new(Asking::Class, asked, None, answer), out, all);
        }
        answer
    }

    fn query(
        &self,
        asked: Asked<'_>,
        view: View,
        selector: &[u8],
        out: &mut [u32],
    ) -> Result<usize, Refusal> {
        let answer = Compiled.query(asked, view, selector, out);
        if view == View::Finished {
            let all = |all: &mut [u32]| Compiled.query(asked, View::All, selector, all);
            return self.in_view(Looked::new(Asking::Query, asked, None, answer), out, all);
        }
        let altered = match (self.alteration, answer) {
            (Alteration::QueryRefused, Ok(_)) => Err(Refusal::SelectorNotRead),
            (Alteration::OtherRefusal, Err(Refusal::SelectorTooLong)) => {
                Err(Refusal::SelectorNotRead)
            }
            (Alteration::QueryAccepted, Err(_)) => Ok(0),
            (Alteration::QueryByTls, Ok(many)) => {
                return self.query_by_tls(asked, selector, many, out)
            }
            (_, Ok(many)) => {
                let drops = self.is(Alteration::FindDropped);
                let invents = self.is(Alteration::FindInvented);
                let swaps = self.is(Alteration::FindsSwapped);
                return Ok(self.finds(drops, invents, swaps, asked, many, out));
            }
            _ => return answer,
        };
        self.take();
        altered
    }

    fn below(
        &self,
        asked: Asked<'_>,
        handle: u32,
        view: View,
        selector: &[u8],
        out: &mut [u32],
    ) -> Result<usize, Refusal> {
        let answer = Compiled.below(asked, handle, view, selector, out);
        if view == View::Finished {
            let looked = Looked::new(Asking::Below, asked, Some(handle), answer);
            let all = |all: &mut [u32]| Compiled.below(asked, handle, View::All, selector, all);
            return self.in_view(looked, out, all);
        }
        match (self.alteration, answer) {
            (Alteration::BelowRefused, Ok(_)) => {
                self.take();
                Err(Refusal::NotATag)
            }
            (_, Ok(many)) => {
                let drops = self.is(Alteration::FindBelowDropped);
                let invents = self.is(Alteration::FindBelowInvented);
                Ok(self.finds(drops, invents, false, asked, many, out))
            }
            _ => answer,
        }
    }

    fn text(&self, asked: Asked<'_>, handle: u32, out: &mut [u8]) -> Result<usize, Refusal> {
        let many = Compiled.text(asked, handle, out)?;
        let altered = match self.alteration {
            Alteration::TextRefused => Err(Refusal::NotATag),
            Alteration::TextLengthened if many > 0 && many < out.len() => {
                out.copy_within(..many, 1);
                // unlike the first byte, so that the whole page's text does not begin so
                out[0] = !out[1];
                Ok(many + 1)
            }
            Alteration::TextShortened if many > 0 => Ok(many - 1),
            Alteration::ClosedTextShortened if many > 0 && has_closing_tag(asked, handle) => {
                Ok(many - 1)
            }
            _ => return Ok(many),
        };
        self.take();
        altered
    }
}

/// The calls, with word 8 of every tag exchanged for another one where the table stays sound with it, so that no call refuses
/// the table.
#[derive(Default)]
pub struct EndedExchanged {
    pub exchanged: Cell<usize>,
}

impl Reader for EndedExchanged {
    fn parse(&self, profile: &Profile, page: &[u8], table: &mut [u32]) -> Result<usize, Refusal> {
        let count = calls::parse(profile, page, table)?;
        for h in 0..count as u32 {
            if let Some(other) = other_ending(Rows(table), h) {
                table[Rows::at(h) + 8] = other;
                self.exchanged.set(self.exchanged.get() + 1);
            }
        }
        Ok(count)
    }
}

/// The calls, but for a reading that lets every page through.
pub struct AnyLength;

impl Reader for AnyLength {
    fn parse(&self, profile: &Profile, page: &[u8], table: &mut [u32]) -> Result<usize, Refusal> {
        calls::parse(&limited(profile, MAX_PAGE), page, table)
    }
}

/// Another word 8 for a tag's row: 1 and 2 stand for a closed tag; 0, and 3 where nothing descends from it, for one that is not.
fn other_ending(rows: Rows<'_>, handle: u32) -> Option<u32> {
    match rows.ended(handle) {
        _ if !rows.is_tag(handle) => None,
        0 if rows.last(handle) == handle => Some(3),
        1 => Some(2),
        2 => Some(1),
        3 => Some(0),
        _ => None,
    }
}

/// Whether a whole closing tag closes the tag: then the whole page closes it there too, and all below it has ended.
fn has_closing_tag(asked: Asked<'_>, handle: u32) -> bool {
    let rows = Rows(asked.table);
    let end = rows.end(handle);
    end > rows.opened(handle) && asked.page[end as usize - 1] == b'>'
}
