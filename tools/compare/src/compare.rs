//! Asks the library, tl and the model the same and holds the answers together.
//!
//! The library is held to the paper, as the model has it. tl is held to the model too, answering in tl's way (`model::TL`),
//! which is the paper's but for the departures of docs/DIFFERENCES.md. So library and tl agree wherever no departure is
//! counted, and where one is counted both are what the list says. All this is under tl's profile and in the view of all nodes; under
//! others, and in the finished view, there is the model alone.
mod fallbacks;
mod lists;
#[cfg(test)]
mod tests;

use crate::asks::Asks;
use crate::ffi::LentProfile;
use crate::findings::{Departure, Difference, Findings};
use crate::model::{
    self, tl_profile, Asked, Held, Manner, Piece, Profile, ProfileBytes, Reading, Row, View, Way,
    MANNERS, PAPER, SELECTOR_LIMIT, TL, TL_BYTES, VIEWS,
};
use crate::numbers::{self, Numbers};
use crate::ours::{self, Answer, Ours, Refusal};
use crate::question::Question;
use crate::tl_side::{self, as_str, TlPage, TlRow};
use common::Random;
use std::fmt::Debug;

/// Reads a page under tl's profile on all sides and asks what `asks` names.
pub fn page(page: &[u8], asks: impl FnOnce(&Asked) -> Asks, random: &mut Random) -> Findings {
    let tl = TlPage::read(as_str(page));
    reading(page, &LentProfile::alone(&TL_BYTES), Some(tl), asks, random)
}

/// The same under any profile, beside the model alone.
pub fn page_under(
    page: &[u8],
    profile: &LentProfile,
    asks: impl FnOnce(&Asked) -> Asks,
    random: &mut Random,
) -> Findings {
    reading(page, profile, None, asks, random).without_departures()
}

fn reading<'p>(
    page: &'p [u8],
    profile: &'p LentProfile,
    tl: Option<TlPage<'p>>,
    asks: impl FnOnce(&Asked) -> Asks,
    random: &mut Random,
) -> Findings {
    let rules = Rules::of(&profile.bytes, page);
    let reading = model::read(page, &rules.profile);
    let words = model::words_of(page.len(), &reading);
    // Words after the last row mean nothing.
    let mut table = words.clone();
    table.resize(words.len() + random.below(12), ours::MARK);
    let mut run = Run {
        asked: Asked::new(page, &reading.rows, &rules.profile),
        ours: Ours {
            profile: &profile.raw,
            page,
            table: &table,
        },
        tl,
        refusal: rules.refusal,
        departs: false,
        random,
        found: rules.found(),
    };
    run.found.covered.not_utf8 = std::str::from_utf8(page).is_err() as u64;
    run.nodes(&reading, &words);
    // The other questions are about nodes that all sides have.
    if run.found.differences.is_empty() {
        let asks = asks(&run.asked);
        run.look_for_departures();
        run.ask(&asks);
    }
    run.found
}

/// Asks the library about a table that no reading need have made. There is nothing in tl to ask, only the model.
pub fn table(
    page: &[u8],
    table: &[u32],
    asks: impl FnOnce(&Asked) -> Asks,
    random: &mut Random,
) -> Findings {
    asking(page, &LentProfile::alone(&TL_BYTES), table, asks, random)
}

/// The same under any profile.
pub fn table_under(
    page: &[u8],
    profile: &LentProfile,
    table: &[u32],
    asks: impl FnOnce(&Asked) -> Asks,
    random: &mut Random,
) -> Findings {
    asking(page, profile, table, asks, random).without_departures()
}

fn asking(
    page: &[u8],
    profile: &LentProfile,
    table: &[u32],
    asks: impl FnOnce(&Asked) -> Asks,
    random: &mut Random,
) -> Findings {
    let rules = Rules::of(&profile.bytes, page);
    let sound = model::reading_of(page.len(), table);
    let refusal = rules.refusal.or(sound.is_none().then_some(3));
    // Of a table that is not sound anything may be asked; the refusal comes first.
    let reading = sound.unwrap_or_else(|| model::read(page, &rules.profile));
    let mut run = Run {
        asked: Asked::new(page, &reading.rows, &rules.profile),
        ours: Ours {
            profile: &profile.raw,
            page,
            table,
        },
        tl: None,
        refusal,
        departs: false,
        random,
        found: rules.found(),
    };
    let asks = asks(&run.asked);
    run.ask(&asks);
    run.found
}

/// What holds for every call with a profile on a page.
struct Rules {
    /// the profile; if it is refused tl's, since anything may be asked then
    profile: Profile,
    is_tl: bool,
    refusal: Option<u32>,
}

impl Rules {
    /// A profile is refused before a page that is too long for it.
    fn of(bytes: &ProfileBytes, page: &[u8]) -> Rules {
        let fine = Profile::of(bytes);
        let refusal = match &fine {
            None => Some(14),
            Some(profile) => (page.len() > profile.limit).then_some(1),
        };
        Rules {
            profile: fine.unwrap_or_else(|| tl_profile().clone()),
            is_tl: *bytes == TL_BYTES,
            refusal,
        }
    }

    /// What is known before anything is asked.
    fn found(&self) -> Findings {
        let mut found = Findings {
            pages: 1,
            ..Findings::default()
        };
        let too_long = self.refusal == Some(1);
        if too_long {
            found.depart(Departure::PageTooLong);
        }
        if !self.is_tl {
            found.others.pages = 1;
            found.others.profiles_refused = (self.refusal == Some(14)) as u64;
            found.others.too_long = too_long as u64;
        }
        found
    }
}

/// Reads a selector on all sides.
pub fn selector(selector: &[u8]) -> Findings {
    let mut found = Findings {
        selectors: 1,
        ..Findings::default()
    };
    let chain = model::read_selector(selector);
    let words = chain.as_ref().map_or(0, |chain| chain.len() * 6);
    let paper = match &chain {
        _ if selector.len() > SELECTOR_LIMIT => Err(Refusal::Number(5)),
        None => Err(Refusal::Number(6)),
        Some(chain) => Ok(chain.clone()),
    };
    if paper == Err(Refusal::Number(5)) && chain.is_some() {
        found.depart(Departure::SelectorTooLong);
    }
    let ask = || Question::Selector;
    let tl = tl_side::read_selector(selector);
    let answered = ours::read_selector(selector, words + selector.len() % 7);
    check(&mut found, ask, answered, &paper, Some((tl, chain)));
    if let (Ok(_), 1..) = (&paper, words) {
        let short = ours::read_selector(selector, words - 1);
        check_ours(&mut found, ask, short, &Err(Refusal::Number(7)));
    }
    found
}

/// Holds the library's answer to the paper's, and tl's, if it was asked, to what it is expected to be.
fn check<T: PartialEq + Debug, U: PartialEq + Debug>(
    found: &mut Findings,
    question: impl Fn() -> Question,
    ours: Answer<T>,
    paper: &Answer<T>,
    tl: Option<(U, U)>,
) {
    found.answers += 1;
    found.others.refused_as_14 += matches!(paper, Err(Refusal::Number(14))) as u64;
    let same = ours == *paper && tl.as_ref().is_none_or(|(said, expected)| said == expected);
    if !same {
        found.differ(Difference {
            question: question(),
            ours: format!("{ours:?}"),
            paper: format!("{paper:?}"),
            tl: tl.map(|(said, expected)| (format!("{said:?}"), format!("{expected:?}"))),
        });
    }
}

/// The same where tl has nothing to say.
fn check_ours<T: PartialEq + Debug>(
    found: &mut Findings,
    question: impl Fn() -> Question,
    ours: Answer<T>,
    paper: &Answer<T>,
) {
    check::<T, ()>(found, question, ours, paper, None);
}

/// A page and its table on all sides.
struct Run<'p, 'r> {
    asked: Asked<'p>,
    ours: Ours<'p>,
    tl: Option<TlPage<'p>>,
    /// the refusal that comes before any other, if there is one
    refusal: Option<u32>,
    /// whether a departure can show on this page
    departs: bool,
    random: &'r mut Random,
    found: Findings,
}

impl<'p> Run<'p, '_> {
    /// What the library should say where the rules say `answer`.
    fn expect<T>(&self, answer: T) -> Answer<T> {
        match self.refusal {
            Some(number) => Err(Refusal::Number(number)),
            None => Ok(answer),
        }
    }

    /// A buffer's length that is enough for so many entries.
    fn room(&mut self, entries: usize) -> usize {
        entries + self.random.below(4)
    }

    /// Now and then an answer is asked for with one entry too few.
    fn try_short(&mut self, entries: usize) -> bool {
        entries > 0 && self.random.once_in(4)
    }

    fn nodes(&mut self, reading: &Reading, words: &[u32]) {
        let ours = ours::read(self.ours.profile, self.asked.page, self.ours.table.len());
        let paper = self.expect(words.to_vec());
        let rows = self.tl.as_ref().map(TlPage::rows);
        let expected = reading.rows.iter().map(as_tl_has_it).collect::<Vec<_>>();
        // the header, and each row
        self.found.answers += 1 + reading.rows.len() as u64;
        let tl = rows.map(|rows| (rows, expected));
        check(&mut self.found, || Question::Nodes, ours, &paper, tl);
        self.max_nodes(reading.rows.len());
        self.count_endings();
        self.version(reading);
        self.small_table(words.len());
    }

    /// The nodes have been compared; on no side are they more than the page's length allows.
    fn max_nodes(&mut self, nodes: usize) {
        let most = model::max_nodes(self.asked.page.len());
        self.found.covered.densest += (nodes == most) as u64;
        if nodes > most {
            self.found.differ(Difference {
                question: Question::MaxNodes,
                ours: format!("{nodes}"),
                paper: format!("at most {most}"),
                tl: None,
            });
        }
    }

    /// How the page's tags ended, unless the page was refused.
    fn count_endings(&mut self) {
        if self.refusal.is_some() {
            return;
        }
        for tag in self.asked.rows.iter().filter(|row| row.is_tag()) {
            self.found.covered.ended[tag.ended as usize] += 1;
        }
    }

    /// The library's version stands in its table, which has been compared.
    fn version(&mut self, reading: &Reading) {
        let tl = self.tl.as_ref();
        let tl = tl.map(|tl| (tl.version(), reading.version));
        let same = Ok(());
        check(&mut self.found, || Question::Version, Ok(()), &same, tl);
    }

    /// Now and then the page is read into a table that has no room for it, by one word or by more.
    fn small_table(&mut self, words: usize) {
        if self.random.once_in(4) {
            let less = 1 + self.random.below(2) * self.random.below(words);
            let answered = ours::read(self.ours.profile, self.asked.page, words - less);
            let paper = Err(Refusal::Number(self.refusal.unwrap_or(2)));
            check_ours(&mut self.found, || Question::SmallTable, answered, &paper);
        }
    }

    /// Only on pages with a repeated name, or a class that is not UTF-8, does the model answer in two ways.
    fn look_for_departures(&mut self) {
        let handles = 0..self.asked.rows.len();
        let repeats = handles.clone().filter(|&h| self.asked.repeats(h)).count();
        let bad_class = handles.filter(|&h| self.asked.has_bad_class(h)).count();
        self.found.covered.repeating_tags += repeats as u64;
        self.departs = self.tl.is_some() && repeats + bad_class > 0;
    }

    fn ask(&mut self, asks: &Asks) {
        for &tag in &asks.openings {
            self.opening(tag);
        }
        for &tag in &asks.tags {
            self.range(tag);
            self.text(tag);
        }
        for (tag, name) in &asks.attributes {
            self.attribute(*tag, name);
        }
        for manner in MANNERS {
            self.lookups(manner, asks);
        }
        for view in VIEWS {
            self.queries(view, asks);
        }
        for list in &asks.lists {
            self.list(list);
        }
        self.no_tag();
    }

    fn lookups(&mut self, manner: Manner, asks: &Asks) {
        let before = self.found.answers;
        for id in &asks.ids {
            self.id(manner, id);
        }
        for class in &asks.classes {
            self.class(manner, class);
        }
        if let Manner::Scan(view) = manner {
            self.count_view(view, before);
        }
    }

    fn queries(&mut self, view: View, asks: &Asks) {
        let before = self.found.answers;
        for selector in &asks.selectors {
            self.query(view, selector);
        }
        for (tag, selector) in &asks.below {
            self.query_below(*tag, view, selector);
        }
        self.count_view(view, before);
    }

    /// The answers since there were so many are in this view.
    fn count_view(&mut self, view: View, before: u64) {
        self.found.covered.in_view[view as usize] += self.found.answers - before;
    }

    /// Whether the finished view answers a lookup in another way than that of all nodes.
    fn count_unlike_all<T: PartialEq>(
        &mut self,
        manner: Manner,
        answer: &T,
        in_manner: impl Fn(&Asked, Manner) -> T,
    ) {
        if manner == Manner::Scan(View::Finished) && self.refusal.is_none() {
            let in_all = in_manner(&self.asked, Manner::Scan(View::All));
            self.found.covered.unlike_all += (*answer != in_all) as u64;
        }
    }

    /// tl keeps no place after a tag's opening `>` once the tag is closed. But it has the tag in the page cut off at that
    /// place, and lacks it in the page cut off one byte before.
    fn opening(&mut self, tag: usize) {
        if self.tl.is_none() {
            return;
        }
        let opened = self.asked.rows[tag].opened;
        let page = self.asked.page;
        let has = |end: usize| tl_side::has_tag(as_str(&page[..end]), tag);
        let tl = Some(((has(opened - 1), has(opened)), (false, true)));
        check(
            &mut self.found,
            || Question::Opening(tag),
            Ok(()),
            &Ok(()),
            tl,
        );
    }

    fn range(&mut self, tag: usize) {
        let range = self.asked.range(tag);
        let ours = self.ours.range(tag);
        let paper = self.expect(range);
        let tl = self.tl.as_ref().map(|tl| (tl.range(tag), range));
        check(&mut self.found, || Question::Range(tag), ours, &paper, tl);
    }

    /// tl's text is a string, made of parts of which each may have lost bytes that are no UTF-8. Its parts are compared as
    /// bytes, and the string with the parts.
    fn text(&mut self, tag: usize) {
        let text = self.asked.text(tag);
        let room = self.room(text.len());
        let ours = self.ours.text(tag, room);
        let paper = self.expect(text.clone());
        let tl = self.tl.as_ref().map(|tl| {
            let parts = tl.text_parts(tag);
            let string: String = parts
                .iter()
                .map(|part| String::from_utf8_lossy(part))
                .collect();
            ((parts.concat(), tl.text(tag)), (text.clone(), string))
        });
        if let Some(((bytes, string), _)) = &tl {
            if bytes != string.as_bytes() {
                self.found.depart(Departure::TextNotUtf8);
            }
        }
        let ask = || Question::Text(tag);
        check(&mut self.found, ask, ours, &paper, tl);
        if self.try_short(text.len()) {
            let short = self.ours.text(tag, text.len() - 1);
            self.refused_as_7(ask, short);
        }
    }

    fn refused_as_7<T: PartialEq + Debug>(&mut self, ask: impl Fn() -> Question, ours: Answer<T>) {
        let paper = Err(Refusal::Number(self.refusal.unwrap_or(7)));
        check_ours(&mut self.found, ask, ours, &paper);
    }

    /// tl's answer, if tl is asked, and what it is expected to be: what the model says in tl's way, a departure if that is not what it
    /// says in the paper's.
    fn beside_tl<T: Clone + PartialEq>(
        &mut self,
        paper: &T,
        departure: Departure,
        answer: impl Fn(&Self, Way) -> T,
        said: impl Fn(&TlPage<'p>) -> T,
    ) -> Option<(T, T)> {
        let said = said(self.tl.as_ref()?);
        if !self.departs {
            return Some((said, paper.clone()));
        }
        let expected = answer(self, TL);
        if expected != *paper {
            self.found.depart(departure);
        }
        Some((said, expected))
    }

    fn attribute(&mut self, tag: usize, name: &[u8]) {
        let held = self.asked.attribute(tag, name, PAPER);
        let ours = self.ours.attribute(tag, name);
        let paper = self.expect(held);
        let tl = self.beside_tl(
            &held,
            Departure::RepeatedAttribute,
            |run, way| run.asked.attribute(tag, name, way),
            |tl| tl.attribute(tag, name),
        );
        let ask = || Question::Attribute(tag, name.to_vec());
        check(&mut self.found, ask, ours.clone(), &paper, tl);
        self.attribute_or(tag, name, ours, Held::or);
    }

    fn id(&mut self, manner: Manner, id: &[u8]) {
        let numbers = Numbers::of(manner, self.random);
        let handle = self.asked.by_id(manner, id);
        let ours = self.ours.by_id(numbers, id);
        let paper = self.expect(handle);
        let tl = match manner {
            Manner::Scan(View::Finished) => None,
            _ => self.tl.as_ref().map(|tl| (tl.by_id(manner, id), handle)),
        };
        let ask = || Question::Id(numbers, id.to_vec());
        check(&mut self.found, ask, ours, &paper, tl);
        self.count_unlike_all(manner, &handle, |asked, manner| asked.by_id(manner, id));
    }

    fn class(&mut self, manner: Manner, class: &[u8]) {
        let numbers = Numbers::of(manner, self.random);
        let handles = self.asked.by_class(manner, class, PAPER);
        let room = self.room(handles.len());
        let ours = self.ours.by_class(numbers, class, room);
        let paper = self.expect(handles.clone());
        let tl = match manner {
            Manner::Scan(View::Finished) => None,
            _ => self.beside_tl(
                &handles,
                Departure::ClassNotUtf8,
                |run, way| run.asked.by_class(manner, class, way),
                |tl| tl.by_class(manner, class),
            ),
        };
        let ask = || Question::Class(numbers, class.to_vec());
        check(&mut self.found, ask, ours, &paper, tl);
        self.count_unlike_all(manner, &handles, |asked, manner| {
            asked.by_class(manner, class, PAPER)
        });
        if self.try_short(handles.len()) {
            let short = self.ours.by_class(numbers, class, handles.len() - 1);
            self.refused_as_7(ask, short);
        }
    }

    fn query(&mut self, view: View, selector: &[u8]) {
        let all = (0, self.asked.rows.len());
        let number = numbers::of_view(view, self.random);
        self.find(
            || Question::Query(number, selector.to_vec()),
            all,
            view,
            selector,
            |run, room| run.ours.query(number, selector, room),
            |tl| tl.query(selector),
        );
    }

    fn query_below(&mut self, tag: usize, view: View, selector: &[u8]) {
        let row = &self.asked.rows[tag];
        let below = (tag + 1, row.last - tag);
        self.found.covered.below_unshown += (self.refusal.is_none() && !view.shows(row)) as u64;
        let number = numbers::of_view(view, self.random);
        self.find(
            || Question::Below(tag, number, selector.to_vec()),
            below,
            view,
            selector,
            |run, room| run.ours.query_below(tag, number, selector, room),
            |tl| tl.query_below(tag, selector),
        );
    }

    /// A query over the handles from a first one on, so and so many.
    fn find(
        &mut self,
        ask: impl Fn() -> Question,
        (first, count): (usize, usize),
        view: View,
        selector: &[u8],
        ours: impl Fn(&Self, usize) -> Answer<Vec<usize>>,
        tl: impl Fn(&TlPage) -> Option<Vec<usize>>,
    ) {
        let chain = model::read_selector(selector);
        let all = |run: &Self, way: Way| {
            let find = |chain: &Vec<Piece>| run.asked.find(first, count, selector, chain, way);
            chain.as_ref().map(find)
        };
        let in_all = all(self, PAPER);
        let found = in_all.clone().map(|all| self.asked.shown(view, all));
        let paper = match &found {
            _ if self.refusal.is_some() => self.expect(Vec::new()),
            _ if selector.len() > SELECTOR_LIMIT => Err(Refusal::Number(5)),
            None => Err(Refusal::Number(6)),
            Some(handles) => Ok(handles.clone()),
        };
        let entries = found.as_ref().map_or(0, Vec::len);
        let room = self.room(entries);
        let answered = ours(self, room);
        let said = match view {
            View::All => self.finds_beside_tl(&found, &paper, all, tl),
            View::Finished => None,
        };
        check(&mut self.found, &ask, answered, &paper, said);
        self.found.covered.unlike_all += (paper.is_ok() && found != in_all) as u64;
        if paper.is_ok() && self.try_short(entries) {
            let short = ours(self, entries - 1);
            self.refused_as_7(ask, short);
        }
    }

    /// What tl finds of all nodes, if it is asked, and what it is expected to find.
    fn finds_beside_tl<T: Clone + PartialEq, U: PartialEq>(
        &mut self,
        found: &Option<T>,
        paper: &Answer<U>,
        finds: impl Fn(&Self, Way) -> Option<T>,
        tl: impl Fn(&TlPage) -> Option<T>,
    ) -> Option<(Option<T>, Option<T>)> {
        if *paper == Err(Refusal::Number(5)) && found.is_some() {
            self.found.depart(Departure::SelectorTooLong);
        }
        let departure = self.departure_of(found, &finds);
        self.beside_tl(found, departure, finds, tl)
    }

    /// Which departure it would be: the repeated name, unless the class alone makes the finds differ.
    fn departure_of<T: PartialEq>(&self, paper: &T, finds: impl Fn(&Self, Way) -> T) -> Departure {
        let only_class = Way {
            last_of_three: false,
            ..TL
        };
        if self.departs && finds(self, only_class) != *paper {
            Departure::ClassNotUtf8
        } else {
            Departure::RepeatedAttribute
        }
    }

    /// A handle that is not below the count, and one that is no tag's, are refused as 4 by every call that takes one,
    /// before anything is said of the selector or the buffer.
    fn no_tag(&mut self) {
        const SELECTORS: [&[u8]; 3] = [b"*", b"a,", &[b'a'; SELECTOR_LIMIT + 1]];
        let rows = self.asked.rows;
        let other = rows.iter().position(|row| !row.is_tag());
        let beyond = rows.len() + self.random.below(2) * self.random.below(usize::MAX / 2);
        for handle in other.into_iter().chain([beyond]) {
            let paper = Err(Refusal::Number(self.refusal.unwrap_or(4)));
            let answered = match self.random.below(4) {
                0 => self.ours.range(handle).map(|_| ()),
                1 => self.ours.attribute(handle, b"a").map(|_| ()),
                2 => self.ours.text(handle, self.random.below(3)).map(|_| ()),
                _ => {
                    let selector = self.random.pick(&SELECTORS);
                    let room = self.random.below(3);
                    let view = numbers::any(self.random);
                    let answered = self.ours.query_below(handle, view, selector, room);
                    answered.map(|_| ())
                }
            };
            check_ours(
                &mut self.found,
                || Question::NoTag(handle),
                answered,
                &paper,
            );
        }
    }
}

/// What tl can say of a row.
fn as_tl_has_it(row: &Row) -> TlRow {
    let unfinished = row.kind == model::Kind::Comment && row.start == row.end;
    TlRow {
        kind: row.kind,
        place: (!unfinished).then_some((row.start, row.end)),
        name: row.name,
        parent: row.parent,
    }
}
