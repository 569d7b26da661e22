//! What the cut theorem compares (`CutOff` in crates/cut/specs/Cut.antt), the one on a tag's text (`TextPrefix` in
//! crates/cut/specs/Text.antt) and those on the finished tags (crates/cut/specs/View.antt), asked of the compiled calls.

mod view;

use std::fmt;

use common::Random;
use tl_rattle::calls::HeldAt;
use tl_rattle::{max_nodes, words_for, Profile, Refusal, View, HEADER_WORDS, ROW_WORDS};

use crate::ended::EndedCounts;
use crate::fallback::{fallbacks, handed_back, same, FallbackCounts};
use crate::lookup::{alike, lent, Answer, Lookup};
use crate::questions::Questions;
use crate::reader::{Asked, Reader};
use crate::rows::Rows;
use crate::view_counts::ViewCounts;

/// The parts of the statement.
#[derive(Clone, Copy, Debug, PartialEq, Eq)]
pub enum Clause {
    /// both readings are accepted, or refused as 1 where the bytes are more than the profile's limit
    Reading,
    /// the beginning's tags are the whole page's that are opened before the cut
    Tags,
    Start,
    Name,
    Parent,
    /// words 3 to 5
    Places,
    /// what a tag answers for an attribute name: which of the three is held, with the value's places
    Attribute,
    /// and the bytes handed back, with every fallback
    Value,
    Query,
    Below,
    /// a tag's descendants are the handles after its own up to its last, in the beginning
    Descendants,
    /// and in the whole page
    DescendantsWhole,
    /// a tag's text is given, and is the texts after it up to its last, in the beginning and in the whole page
    Text,
    /// the beginning's text is a beginning of the whole page's
    TextBegins,
    /// and the same, if nothing descends from the whole page's tag, or the last that does ends at the cut or before it
    TextSame,
    /// of one page: the finished view finds what the view of all does, with the rows left out that are not finished
    ShownClass,
    ShownQuery,
    ShownBelow,
    /// a finished tag of the beginning is one of the whole page, with the same nine words
    StaysRow,
    /// and the same text
    StaysText,
    /// the finished view finds in the beginning what it does in the whole page, with the rows left out that are not
    /// finished in the beginning
    StaysClass,
    StaysQuery,
    StaysBelow,
}

/// Where the two pages' answers differ.
#[derive(Debug)]
pub struct Difference {
    pub clause: Clause,
    pub cut: usize,
    pub handle: Option<u32>,
    pub what: String,
}

impl fmt::Display for Difference {
    fn fmt(&self, f: &mut fmt::Formatter<'_>) -> fmt::Result {
        write!(f, "{:?}, cut at {}", self.clause, self.cut)?;
        if let Some(handle) = self.handle {
            write!(f, ", handle {handle}")?;
        }
        write!(f, ": {}", self.what)
    }
}

/// How much was compared.
#[derive(Default)]
pub struct Counts {
    pub pages: usize,
    pub bytes: usize,
    pub cuts: usize,
    /// of pages over their profile's limit, which are refused: only the beginning's reading was tried
    pub over_limit: usize,
    /// tags of beginnings, each with its start, name and parent
    pub tags: usize,
    pub absent: usize,
    pub bare: usize,
    pub values: usize,
    /// with which the bytes handed back were compared
    pub fallbacks: FallbackCounts,
    pub queries: usize,
    pub queries_below: usize,
    pub too_long: usize,
    pub unread: usize,
    pub finds: usize,
    pub finds_below: usize,
    /// tags whose descendants were compared, and these
    pub ranges: usize,
    pub descendants: usize,
    /// texts of tags of beginnings
    pub texts: usize,
    /// equal as they must be, and of these: the tag's last descendant is an unfinished comment
    pub texts_same: usize,
    pub texts_unfinished: usize,
    /// equal although they need not be
    pub texts_besides: usize,
    /// shorter than in the whole page
    pub texts_begun: usize,
    pub differences: usize,
    /// the finished view and its tags
    pub view: ViewCounts,
    /// no part of the statement
    pub ended: EndedCounts,
}

/// The differences that are kept; all are counted.
const KEPT: usize = 50;

/// A tag's text: as the call gives it, and by the table.
struct Text {
    given: Result<Vec<u8>, Refusal>,
    by_table: Option<Vec<u8>>,
}

impl Text {
    fn ask<R: Reader>(reader: &R, asked: Asked<'_>, handle: u32) -> Text {
        // no text is longer than its page
        let mut out = vec![0; asked.page.len()];
        let many = reader.text(asked, handle, &mut out);
        Text {
            given: many.map(|many| {
                out.truncate(many);
                out
            }),
            by_table: Rows(asked.table).text(asked.page, handle),
        }
    }
}

/// A whole page, with its answers so far. All that is asked of it and of its beginnings goes by one profile.
pub struct Whole<'p, R> {
    profile: &'p Profile,
    page: &'p [u8],
    table: Vec<u32>,
    questions: &'p Questions,
    reader: &'p R,
    held: Vec<Option<Result<HeldAt, Refusal>>>,
    // in each view
    found: [Vec<Option<Answer>>; 2],
    // of the selectors, those that tell something of the finished view, and whether each is asked in it at a cut
    telling: Vec<usize>,
    in_view: Vec<bool>,
    texts: Vec<Option<Text>>,
    // lent to the beginning's calls, and to those in the finished view
    lent: Vec<u32>,
    out: Vec<u32>,
    other: Vec<u32>,
    pub differences: Vec<Difference>,
    /// where word 8 differs as no cut can make it
    pub contradictions: Vec<String>,
}

impl<'p, R: Reader> Whole<'p, R> {
    /// Reads the page, and compares what it answers in either view.
    pub fn new(
        profile: &'p Profile,
        page: &'p [u8],
        questions: &'p Questions,
        reader: &'p R,
        counts: &mut Counts,
    ) -> Self {
        let room = max_nodes(page.len());
        let mut whole = Whole {
            profile,
            page,
            table: vec![0; words_for(room)],
            questions,
            reader,
            held: Vec::new(),
            found: [Vec::new(), Vec::new()],
            telling: Vec::new(),
            in_view: Vec::new(),
            texts: Vec::new(),
            lent: vec![0; words_for(room)],
            out: vec![0; room],
            other: vec![0; room],
            differences: Vec::new(),
            contradictions: Vec::new(),
        };
        counts.pages += 1;
        counts.bytes += page.len();
        whole.read(counts);
        whole.telling = whole.telling();
        whole.shown_whole(counts);
        let table = whole.table.clone();
        whole.descendants(counts, Clause::DescendantsWhole, page.len(), &table);
        whole
    }

    /// Reads the page. One that is refused is as one without nodes.
    fn read(&mut self, counts: &mut Counts) {
        let (page, reader) = (self.page, self.reader);
        let said = reader.parse(self.profile, page, &mut self.table);
        self.reading(counts, "whole page", page.len(), said);
        match said {
            Ok(count) => self.table.truncate(words_for(count)),
            Err(_) => {
                let [first, width] = [HEADER_WORDS as u32, ROW_WORDS as u32];
                self.table = vec![0, 0, page.len() as u32, first, width, 0, 0, 0];
            }
        }
        let count = Rows(&self.table).count() as usize;
        self.held = vec![None; count * self.questions.names.len()];
        self.texts.resize_with(count, || None);
    }

    /// Whether so many bytes are more than the profile's limit.
    fn is_over(&self, n: usize) -> bool {
        n > self.profile.limit()
    }

    /// The whole page, or its first `n` bytes, must be accepted or refused as the profile's limit says.
    fn reading(
        &mut self,
        counts: &mut Counts,
        which: &str,
        n: usize,
        said: Result<usize, Refusal>,
    ) {
        let due = self.is_over(n).then_some(Refusal::PageTooLong);
        let said = said.err();
        if said != due {
            self.differ(counts, Clause::Reading, n, None, || {
                format!("refusal of the {which}: {said:?}, due is {due:?}")
            });
        }
    }

    fn differ(
        &mut self,
        counts: &mut Counts,
        clause: Clause,
        cut: usize,
        handle: Option<u32>,
        what: impl FnOnce() -> String,
    ) {
        counts.differences += 1;
        if self.differences.len() < KEPT {
            self.differences.push(Difference {
                clause,
                cut,
                handle,
                what: what(),
            });
        }
    }

    fn asked(&self) -> Asked<'_> {
        Asked {
            profile: self.profile,
            page: self.page,
            table: &self.table,
        }
    }

    /// What the whole page's tag holds for the questions' name of this number.
    fn held(&mut self, handle: u32, name: usize) -> Result<HeldAt, Refusal> {
        let names = &self.questions.names;
        let at = handle as usize * names.len() + name;
        match self.held.get(at) {
            Some(Some(held)) => *held,
            slot => {
                let kept = slot.is_some();
                let held = self.reader.attribute(self.asked(), handle, &names[name]);
                if kept {
                    self.held[at] = Some(held);
                }
                held
            }
        }
    }

    /// What a lookup finds in the whole page.
    fn found(&mut self, view: View, lookup: Lookup) -> &Answer {
        let (questions, at) = (self.questions, self.place(lookup));
        if self.found[view as usize]
            .get(at)
            .is_none_or(Option::is_none)
        {
            let answer = lookup.answer(questions, self.reader, self.asked(), view);
            let found = &mut self.found[view as usize];
            found.resize(found.len().max(at + 1), None);
            found[at] = Some(answer);
        }
        self.found[view as usize][at]
            .as_ref()
            .expect("it was asked")
    }

    /// Where the finds of a lookup are kept.
    fn place(&self, lookup: Lookup) -> usize {
        let classes = self.questions.classes.len();
        let selectors = self.questions.selectors.len();
        match lookup {
            Lookup::Class(number) => number,
            Lookup::Query(number) => classes + number,
            Lookup::Below(handle, number) => classes + (handle as usize + 1) * selectors + number,
        }
    }

    /// The text of the whole page's tag: where in `texts` it is kept.
    fn text(&mut self, handle: u32) -> Option<usize> {
        let at = handle as usize;
        if self.texts.get(at)?.is_none() {
            self.texts[at] = Some(Text::ask(self.reader, self.asked(), handle));
        }
        Some(at)
    }

    /// Compares the page's first `n` bytes, read by `reader`, with the whole page.
    pub fn cut<B: Reader>(
        &mut self,
        n: usize,
        reader: &B,
        random: &mut Random,
        counts: &mut Counts,
    ) {
        counts.cuts += 1;
        let page = &self.page[..n];
        let mut lent = std::mem::take(&mut self.lent);
        let said = reader.parse(self.profile, page, &mut lent);
        self.reading(counts, "beginning", n, said);
        // the statement is on two readings that are accepted
        if self.is_over(self.page.len()) {
            counts.over_limit += 1;
        } else if let Ok(count) = said {
            let asked = Asked {
                profile: self.profile,
                page,
                table: &lent[..words_for(count)],
            };
            self.beginning(asked, reader, random, counts);
        }
        self.lent = lent;
    }

    /// Asks a beginning that was read, and compares.
    fn beginning<B: Reader>(
        &mut self,
        asked: Asked<'_>,
        reader: &B,
        random: &mut Random,
        counts: &mut Counts,
    ) {
        self.in_view = self.turn(asked.page.len());
        let tags = self.tags(counts, asked);
        self.ended(counts, asked, &tags);
        self.rows_stay(counts, asked, &tags);
        self.descendants(counts, Clause::Descendants, asked.page.len(), asked.table);
        let some = some_of(&tags, self.questions.tags, random);
        self.attributes(counts, asked, reader, &some);
        self.texts(counts, asked, reader, &some);
        self.queries(counts, asked, reader);
        self.finished_besides(counts, asked, reader);
        let some = some_of(&tags, self.questions.below, random);
        self.queries_below(counts, asked, reader, &some);
    }

    /// Part 1: the beginning's tags are the whole page's whose opening `>` lies before the cut, each with the same start,
    /// name, parent and words 3 to 5.
    fn tags(&mut self, counts: &mut Counts, asked: Asked<'_>) -> Vec<u32> {
        let n = asked.page.len();
        let rows = Rows(asked.table);
        let table = std::mem::take(&mut self.table);
        let whole = Rows(&table);
        let mut tags = Vec::new();
        for h in 0..rows.count().max(whole.count()) {
            let is = rows.is_tag(h);
            let opened = whole.is_tag(h) && whole.opened(h) as usize <= n;
            if is {
                tags.push(h);
            }
            if is != opened {
                self.differ(counts, Clause::Tags, n, Some(h), || {
                    let said = |tag| if tag { "a tag" } else { "no tag" };
                    let (one, other) = (said(is), said(opened));
                    format!(
                        "{one} in the beginning, {other} opened before the cut in the whole page"
                    )
                });
            }
            if is && h < whole.count() {
                counts.tags += 1;
                self.same(counts, asked, whole, h);
            }
        }
        self.table = table;
        tags
    }

    /// A tag's start, name, parent and words 3 to 5 are the same in the whole page.
    fn same(&mut self, counts: &mut Counts, asked: Asked<'_>, whole: Rows<'_>, h: u32) {
        let n = asked.page.len();
        let rows = Rows(asked.table);
        let (one, other) = (rows.start(h), whole.start(h));
        if one != other {
            self.differ(counts, Clause::Start, n, Some(h), || {
                format!("{one} in the beginning, {other} in the whole page")
            });
        }
        let (one, other) = (rows.name(asked.page, h), whole.name(self.page, h));
        if one.is_none() || one != other {
            self.differ(counts, Clause::Name, n, Some(h), || {
                let said = |name: Option<&[u8]>| name.map(|name| name.escape_ascii().to_string());
                format!("{:?} and {:?}", said(one), said(other))
            });
        }
        let (one, other) = (rows.parent(h), whole.parent(h));
        if one != other {
            self.differ(counts, Clause::Parent, n, Some(h), || {
                format!("word 6 is {one} and {other}")
            });
        }
        let (one, other) = (rows.places(h), whole.places(h));
        if one != other {
            self.differ(counts, Clause::Places, n, Some(h), || {
                format!("words 3 to 5 are {one:?} and {other:?}")
            });
        }
    }

    /// No part of the statement: word 8 of the tags that both pages have.
    fn ended(&mut self, counts: &mut Counts, asked: Asked<'_>, tags: &[u32]) {
        let (rows, whole) = (Rows(asked.table), Rows(&self.table));
        for &h in tags.iter().filter(|h| whole.is_tag(**h)) {
            let (from, to) = (whole.ended(h), rows.ended(h));
            if !counts.ended.observe(from, to) && self.contradictions.len() < KEPT {
                self.contradictions.push(format!(
                    "cut at {}, handle {h}: word 8 is {from} in the whole page, {to} in the beginning",
                    asked.page.len()
                ));
            }
        }
    }

    /// Part 2: the same answer for every attribute name, and with every fallback the same bytes handed back.
    fn attributes<B: Reader>(
        &mut self,
        counts: &mut Counts,
        asked: Asked<'_>,
        reader: &B,
        tags: &[u32],
    ) {
        for &h in tags {
            for number in 0..self.questions.names.len() {
                self.attribute(counts, asked, reader, h, number);
            }
        }
    }

    /// Of a tag, for the questions' name of this number.
    fn attribute<B: Reader>(
        &mut self,
        counts: &mut Counts,
        asked: Asked<'_>,
        reader: &B,
        h: u32,
        number: usize,
    ) {
        let n = asked.page.len();
        let name = &self.questions.names[number];
        let held = reader.attribute(asked, h, name);
        let whole = self.held(h, number);
        match held {
            Ok(HeldAt::Absent) => counts.absent += 1,
            Ok(HeldAt::Bare) => counts.bare += 1,
            Ok(HeldAt::Value(..)) => counts.values += 1,
            Err(_) => {}
        }
        if held != whole || held.is_err() {
            self.differ(counts, Clause::Attribute, n, Some(h), || {
                format!("{} holds {held:?} and {whole:?}", name.escape_ascii())
            });
        }
        if let Some(what) = self.handed_back(counts, asked, reader, (held, whole)) {
            self.differ(counts, Clause::Value, n, Some(h), || {
                format!("{} hands back {what}", name.escape_ascii())
            });
        }
    }

    /// With every fallback that is lent the same bytes are handed back; or what with the first where they are not.
    fn handed_back<B: Reader>(
        &self,
        counts: &mut Counts,
        asked: Asked<'_>,
        reader: &B,
        (held, whole): (Result<HeldAt, Refusal>, Result<HeldAt, Refusal>),
    ) -> Option<String> {
        // a copy, so that this fallback lies elsewhere than the value
        let value = match whole {
            Ok(HeldAt::Value(..)) => handed_back(self.page, whole, b"").map(Vec::from),
            _ => None,
        };
        let lent = fallbacks(asked.page, value.as_deref());
        for (sort, fallback) in lent.into_iter().enumerate() {
            let Some(fallback) = fallback else { continue };
            counts.fallbacks.observe(sort);
            let one = reader.handed_back(asked.page, held, fallback);
            let other = self.reader.handed_back(self.page, whole, fallback);
            if !same(one, other) {
                let said = |part: Option<&[u8]>| part.map(|part| part.escape_ascii().to_string());
                let (one, other) = (said(one), said(other));
                let fallback = fallback.escape_ascii();
                return Some(format!("{one:?} and {other:?} with \"{fallback}\""));
            }
        }
        None
    }

    /// Request U14: each call gives the text by its own table; the beginning's is a beginning of the whole page's, and
    /// the same if nothing descends from the whole page's tag, or if the last that does ends at the cut or before it.
    fn texts<B: Reader>(
        &mut self,
        counts: &mut Counts,
        asked: Asked<'_>,
        reader: &B,
        tags: &[u32],
    ) {
        let n = asked.page.len();
        for &h in tags {
            let text = Text::ask(reader, asked, h);
            counts.texts += 1;
            let Some(at) = self.text(h) else {
                self.differ(counts, Clause::Text, n, Some(h), || {
                    "the whole page has no such row".to_owned()
                });
                continue;
            };
            let whole = self.texts[at].as_ref().expect("it was asked");
            let rows = Rows(&self.table);
            let last = rows.last(h);
            let same = last == h || last < rows.count() && rows.end(last) as usize <= n;
            match (&text.given, &whole.given) {
                (Ok(one), Ok(other)) if one == other => {
                    let unfinished = rows.is_unfinished_comment(last);
                    counts.texts_same += usize::from(same);
                    counts.texts_unfinished += usize::from(same && unfinished);
                    counts.texts_besides += usize::from(!same);
                }
                (Ok(one), Ok(other)) if other.starts_with(one) => counts.texts_begun += 1,
                _ => {}
            }
            let finished = Rows(asked.table).is_finished(h);
            counts.view.text(finished);
            for (clause, what) in unlike(&text, whole, same, finished) {
                self.differ(counts, clause, n, Some(h), || what);
            }
        }
    }

    /// Part 3: refused alike, or the same finds among the beginning's tags, over the page.
    fn queries<B: Reader>(&mut self, counts: &mut Counts, asked: Asked<'_>, reader: &B) {
        for number in 0..self.questions.selectors.len() {
            let lookup = Lookup::Query(number);
            let (finds, refusal) = self.query(counts, Clause::Query, asked, reader, lookup);
            counts.queries += 1;
            counts.finds += finds;
            match refusal {
                Some(Refusal::SelectorTooLong) => counts.too_long += 1,
                Some(Refusal::SelectorNotRead) => counts.unread += 1,
                _ => {}
            }
        }
    }

    /// And below some of the beginning's tags.
    fn queries_below<B: Reader>(
        &mut self,
        counts: &mut Counts,
        asked: Asked<'_>,
        reader: &B,
        tags: &[u32],
    ) {
        for &h in tags {
            for number in 0..self.questions.selectors.len() {
                let lookup = Lookup::Below(h, number);
                let (finds, _) = self.query(counts, Clause::Below, asked, reader, lookup);
                counts.queries_below += 1;
                counts.finds_below += finds;
            }
        }
    }

    /// A query in the view of all, and where it is asked there, in the finished view: how many finds are the same in the
    /// view of all, and the refusal.
    fn query<B: Reader>(
        &mut self,
        counts: &mut Counts,
        clause: Clause,
        asked: Asked<'_>,
        reader: &B,
        lookup: Lookup,
    ) -> (usize, Option<Refusal>) {
        let n = asked.page.len();
        let mut out = std::mem::take(&mut self.out);
        let all = lookup.ask(self.questions, reader, asked, View::All, &mut out);
        let is_tag = |handle| Rows(asked.table).is_tag(handle);
        let whole = lent(self.found(View::All, lookup));
        let said = alike((all, is_tag), (whole, is_tag));
        let finds = self.said(counts, clause, n, lookup, said);
        if self.in_view[lookup.number()] {
            self.finished(counts, asked, reader, lookup, all);
        }
        let refusal = all.err();
        self.out = out;
        (finds, refusal)
    }

    /// How many finds two answers share; or reports in what they differ.
    fn said(
        &mut self,
        counts: &mut Counts,
        clause: Clause,
        cut: usize,
        lookup: Lookup,
        said: Result<usize, String>,
    ) -> usize {
        let text = lookup.text(self.questions);
        said.unwrap_or_else(|what| {
            self.differ(counts, clause, cut, lookup.handle(), || {
                format!("{}: {what}", text.escape_ascii())
            });
            0
        })
    }

    /// Part 4: a tag's descendants, by going from parent to parent, are the handles after its own up to its last.
    fn descendants(&mut self, counts: &mut Counts, clause: Clause, cut: usize, table: &[u32]) {
        let rows = Rows(table);
        // of each row: how many descend from it, the lowest and the highest of them
        let mut below = vec![(0u32, u32::MAX, 0u32); rows.count() as usize];
        for d in (0..rows.count()).rev() {
            let (many, lowest, highest) = below[d as usize];
            let Some(parent) = rows.parent(d).checked_sub(1) else {
                continue;
            };
            if parent >= d {
                // then one of the two would descend from itself, or from a row that comes after it
                self.differ(counts, clause, cut, Some(d), || {
                    format!("its parent is {parent}")
                });
                continue;
            }
            let above = &mut below[parent as usize];
            above.0 += many + 1;
            above.1 = above.1.min(lowest).min(d);
            above.2 = above.2.max(highest).max(d);
        }
        for h in 0..rows.count() {
            if !rows.is_tag(h) {
                continue;
            }
            let (many, lowest, highest) = below[h as usize];
            let last = rows.last(h);
            counts.ranges += 1;
            counts.descendants += many as usize;
            // as many rows as lie between the lowest and the highest are all of these
            let range = u64::from(h) + u64::from(many) == u64::from(last);
            if !range || many > 0 && (lowest != h + 1 || highest != last) {
                self.differ(counts, clause, cut, Some(h), || {
                    format!("last is {last}; {many} descend, from {lowest} to {highest}")
                });
            }
        }
    }
}

/// All tags; or so many of them, the latest and others by chance.
fn some_of(tags: &[u32], many: usize, random: &mut Random) -> Vec<u32> {
    if tags.len() <= many {
        return tags.to_vec();
    }
    let latest = tags[tags.len() - many.div_ceil(4)..].iter().copied();
    let others = (0..many - many.div_ceil(4)).map(|_| *random.of(tags));
    latest.chain(others).collect()
}

/// What is wrong with a tag's text in the beginning and in the whole page, where they must be the `same` or need not be, and must be
/// if the tag is `finished` in the beginning.
fn unlike(text: &Text, whole: &Text, same: bool, finished: bool) -> Vec<(Clause, String)> {
    let mut wrong = Vec::new();
    for (page, text) in [("beginning", text), ("whole page", whole)] {
        let said = |text: &[u8]| text.escape_ascii().to_string();
        let given = text.given.as_deref();
        let by_table = text.by_table.as_deref();
        if given.is_err() || given.ok() != by_table {
            let (given, by_table) = (given.map(said), by_table.map(said));
            let what = format!("{given:?} in the {page}, {by_table:?} by its table");
            wrong.push((Clause::Text, what));
        }
    }
    if let (Ok(one), Ok(other)) = (&text.given, &whole.given) {
        let (said, whole) = (one.escape_ascii(), other.escape_ascii());
        let what = || format!("\"{said}\" in the beginning, \"{whole}\" in the whole page");
        if !other.starts_with(one) {
            wrong.push((Clause::TextBegins, what()));
        }
        if same && one != other {
            wrong.push((Clause::TextSame, what()));
        }
        if finished && one != other {
            wrong.push((Clause::StaysText, what()));
        }
    }
    wrong
}

#[cfg(test)]
mod tests {
    use super::*;
    use crate::altered::{Alteration, Altered, AnyLength};
    use crate::profiles::limited;
    use crate::reader::Compiled;

    static ONLY_TEXTS: Questions = Questions {
        names: Vec::new(),
        classes: Vec::new(),
        selectors: Vec::new(),
        tags: usize::MAX,
        below: 0,
        in_view: false,
    };

    fn asked_at_every_cut(page: &[u8], questions: &Questions) -> Counts {
        let tl = Profile::TL;
        let mut counts = Counts::default();
        let mut whole = Whole::new(&tl, page, questions, &Compiled, &mut counts);
        for n in 0..=page.len() {
            whole.cut(n, &Compiled, &mut Random::for_page(0, 0), &mut counts);
        }
        assert_eq!(counts.differences, 0);
        counts
    }

    fn at_every_cut(page: &[u8]) -> Counts {
        asked_at_every_cut(page, &ONLY_TEXTS)
    }

    /// A page's texts at every cut: equal by the rule, before an unfinished comment, equal besides, begun.
    fn texts(page: &[u8]) -> [usize; 4] {
        let counts = at_every_cut(page);
        let all = counts.texts_same + counts.texts_besides + counts.texts_begun;
        assert_eq!(counts.texts, all);
        [
            counts.texts_same,
            counts.texts_unfinished,
            counts.texts_besides,
            counts.texts_begun,
        ]
    }

    #[test]
    fn texts_are_of_every_sort() {
        assert_eq!(texts(b"x <a"), [0, 0, 0, 0]);
        assert_eq!(texts(b"<a>"), [1, 0, 0, 0]);
        assert_eq!(texts(b"<a>xy</a>"), [5, 0, 0, 2]);
        // a comment ends later than the text before it
        assert_eq!(texts(b"<a>x<!--y-->"), [1, 0, 8, 1]);
        // an unfinished one ends where it starts
        assert_eq!(texts(b"<a>x<!--y"), [6, 6, 0, 1]);
    }

    #[test]
    fn fallbacks_are_of_every_sort() {
        let questions = Questions {
            names: [&b"k"[..], b"j", b"x"].map(Vec::from).into(),
            ..ONLY_TEXTS.clone()
        };
        // the tag is there at two cuts
        let counts = asked_at_every_cut(b"<a k=v j>x", &questions);
        assert_eq!([counts.absent, counts.bare, counts.values], [2; 3]);
        assert_eq!(
            counts.fallbacks.to_string(),
            "26: empty 6, outside of the page 6, equal to the value 2, a part of the beginning 6, \
             the beginning itself 6"
        );
    }

    #[test]
    fn word_8_differs_in_every_way() {
        let ended = |page: &[u8]| at_every_cut(page).ended.to_string();
        let none = "1 to 0 0, 1 to 2 0, 0 to 2 0, 2 to 0 0, any other 0";
        assert_eq!(ended(b"<br>x<p />y<p>z"), none);
        let closed = "1 to 0 3, 1 to 2 1, 0 to 2 0, 2 to 0 0, any other 0";
        assert_eq!(ended(b"<a></a>"), closed);
        // closed only where the other name is cut
        let open = "1 to 0 0, 1 to 2 0, 0 to 2 1, 2 to 0 0, any other 0";
        assert_eq!(ended(b"<a></ab>"), open);
        let cut_short = "1 to 0 0, 1 to 2 0, 0 to 2 0, 2 to 0 7, any other 0";
        assert_eq!(ended(b"<a></ab></a"), cut_short);
    }

    #[test]
    fn a_wrong_text_of_the_whole_page_is_reported() {
        let page = b"<a>x<b></b></a>y";
        let reader = Altered::new(Alteration::TextShortened);
        let tl = Profile::TL;
        let mut whole = Whole::new(&tl, page, &ONLY_TEXTS, &reader, &mut Counts::default());
        for n in 0..=page.len() {
            let mut counts = Counts::default();
            whole.cut(n, &Compiled, &mut Random::for_page(0, 0), &mut counts);
            let reported = whole.differences.drain(..);
            let clauses: Vec<Clause> = reported.map(|difference| difference.clause).collect();
            let expected: &[Clause] = match n {
                0..=2 => &[],
                3 => &[Clause::Text],
                4..=10 => &[Clause::Text, Clause::TextBegins],
                11..=14 => &[Clause::Text, Clause::TextBegins, Clause::TextSame],
                _ => &[
                    Clause::Text,
                    Clause::TextBegins,
                    Clause::TextSame,
                    Clause::StaysText,
                ],
            };
            assert_eq!(clauses, expected, "cut at {n}");
        }
    }

    #[test]
    fn a_page_over_the_limit() {
        let (page, profile) = (b"<a>xy", limited(&Profile::TL, 3));
        let at_every_cut = |reader: &dyn Fn(&mut Whole<'_, Compiled>, usize, &mut Counts)| {
            let mut counts = Counts::default();
            let mut whole = Whole::new(&profile, page, &ONLY_TEXTS, &Compiled, &mut counts);
            (0..=page.len()).for_each(|n| reader(&mut whole, n, &mut counts));
            let cuts: Vec<usize> = whole.differences.iter().map(|it| it.cut).collect();
            (counts.cuts, counts.over_limit, counts.tags, cuts)
        };
        let random = || Random::for_page(0, 0);
        let right =
            at_every_cut(&|whole, n, counts| whole.cut(n, &Compiled, &mut random(), counts));
        assert_eq!(right, (6, 6, 0, vec![]));
        let wrong =
            at_every_cut(&|whole, n, counts| whole.cut(n, &AnyLength, &mut random(), counts));
        assert_eq!(wrong, (6, 6, 0, vec![4, 5]));
    }
}
