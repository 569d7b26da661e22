//! What is compared of the finished tags (`Shown` and `Stays` in crates/cut/specs/View.antt).

use std::cmp::Reverse;

use tl_rattle::{Profile, View};

use super::{Clause, Counts, Whole};
use crate::lookup::{alike, lent, Answer, Finds, Lookup, VIEWS};
use crate::profiles::limited;
use crate::reader::{Asked, Reader};
use crate::rows::Rows;

impl Lookup {
    /// What is said of its finds in one page, and of those in a beginning and the whole page.
    fn clauses(self) -> [Clause; 2] {
        match self {
            Lookup::Class(_) => [Clause::ShownClass, Clause::StaysClass],
            Lookup::Query(_) => [Clause::ShownQuery, Clause::StaysQuery],
            Lookup::Below(..) => [Clause::ShownBelow, Clause::StaysBelow],
        }
    }
}

/// The finished tags of the second answer's finds are those of the first.
fn keeps(table: &[u32], one: Finds<'_>, other: Finds<'_>) -> Result<usize, String> {
    alike((one, |_| true), (other, |h| Rows(table).is_finished(h)))
}

impl<R: Reader> Whole<'_, R> {
    /// The selectors that find a finished tag of the whole page, or if there are none, anything; the one that finds most first.
    pub(super) fn telling(&mut self) -> Vec<usize> {
        let all = self.questions.selectors.len();
        for view in [View::Finished, View::All] {
            let many =
                |number| lent(self.found(view, Lookup::Query(number))).map_or(0, <[u32]>::len);
            let finds: Vec<usize> = (0..all).map(many).collect();
            let mut numbers: Vec<usize> = (0..finds.len()).filter(|it| finds[*it] > 0).collect();
            numbers.sort_by_key(|number| Reverse(finds[*number]));
            if !numbers.is_empty() {
                return numbers;
            }
        }
        Vec::new()
    }

    /// Which selectors are asked in the finished view at a place: the one that finds most, one that finds something and
    /// one of all, the last two in turn.
    pub(super) fn turn(&self, place: usize) -> Vec<bool> {
        let all = self.questions.selectors.len();
        let mut turn = vec![self.questions.in_view; all];
        let most = self.telling.first().copied();
        let some = place.checked_rem(self.telling.len());
        let some = some.map(|at| self.telling[at]);
        for number in [most, some, place.checked_rem(all)].into_iter().flatten() {
            turn[number] = true;
        }
        turn
    }

    /// `Shown`, of the whole page: by class, over the page, below each row and the handle after the last.
    pub(super) fn shown_whole(&mut self, counts: &mut Counts) {
        let lookups = self.lookups();
        for &lookup in &lookups {
            let [all, finished] = VIEWS.map(|view| self.found(view, lookup).clone());
            counts.view.whole(lent(&finished), lent(&all));
            self.shown(counts, lookup, &finished, &all);
        }
        self.shown_refused(counts, &lookups);
    }

    /// The lookups that are asked of the whole page in both views.
    fn lookups(&self) -> Vec<Lookup> {
        let classes = (0..self.questions.classes.len()).map(Lookup::Class);
        let queries = (0..self.questions.selectors.len()).map(Lookup::Query);
        let handles = 0..=Rows(&self.table).count();
        let below = handles.flat_map(|handle| {
            let turn = self.turn(handle as usize).into_iter().enumerate();
            turn.filter_map(move |(number, is)| is.then_some(Lookup::Below(handle, number)))
        });
        classes.chain(queries).chain(below).collect()
    }

    /// The first lookup of each kind, by a profile that is not fine, and with a table that is not sound.
    fn shown_refused(&mut self, counts: &mut Counts, lookups: &[Lookup]) {
        let unfine = limited(self.profile, 0);
        let table = self.table.clone();
        let mut unsound = table.clone();
        unsound[2] += 1;
        let firsts = [Lookup::Class(0), Lookup::Query(0), Lookup::Below(0, 0)];
        for lookup in firsts.into_iter().filter(|it| lookups.contains(it)) {
            self.shown_by(counts, lookup, &unfine, &table);
            self.shown_by(counts, lookup, self.profile, &unsound);
        }
    }

    fn shown_by(&mut self, counts: &mut Counts, lookup: Lookup, profile: &Profile, table: &[u32]) {
        let asked = Asked {
            profile,
            page: self.page,
            table,
        };
        let [all, finished] =
            VIEWS.map(|view| lookup.answer(self.questions, self.reader, asked, view));
        counts.view.refused(lent(&finished), lent(&all));
        self.shown(counts, lookup, &finished, &all);
    }

    fn shown(&mut self, counts: &mut Counts, lookup: Lookup, finished: &Answer, all: &Answer) {
        let said = keeps(&self.table, lent(finished), lent(all));
        let [clause, _] = lookup.clauses();
        self.said(counts, clause, self.page.len(), lookup, said);
    }

    /// `Stays`: a tag that is finished in the beginning is one in the whole page, with all nine words the same.
    pub(super) fn rows_stay(&mut self, counts: &mut Counts, asked: Asked<'_>, tags: &[u32]) {
        let n = asked.page.len();
        let rows = Rows(asked.table);
        let table = std::mem::take(&mut self.table);
        let whole = Rows(&table);
        for &h in tags {
            counts.view.tag(asked, h);
            let other = (h < whole.count()).then(|| whole.row(h));
            if rows.is_finished(h) && Some(rows.row(h)) != other {
                self.differ(counts, Clause::StaysRow, n, Some(h), || {
                    format!("its words are {:?} and {other:?}", rows.row(h))
                });
            }
        }
        self.table = table;
    }

    /// Both, of a lookup in the beginning that answers `all` in the view of all.
    pub(super) fn finished<B: Reader>(
        &mut self,
        counts: &mut Counts,
        asked: Asked<'_>,
        reader: &B,
        lookup: Lookup,
        all: Finds<'_>,
    ) {
        let mut out = std::mem::take(&mut self.other);
        let finished = lookup.ask(self.questions, reader, asked, View::Finished, &mut out);
        counts.view.beginning(asked, lookup, finished, all);
        let shown = keeps(asked.table, finished, all);
        // `Stays` speaks of tags alone
        let is_tag = |handle| Rows(asked.table).is_tag(handle);
        let stays = if lookup.handle().is_none_or(is_tag) {
            let whole = self.found(View::Finished, lookup);
            keeps(asked.table, finished, lent(whole))
        } else {
            Ok(0)
        };
        self.other = out;
        for (clause, said) in lookup.clauses().into_iter().zip([shown, stays]) {
            self.said(counts, clause, asked.page.len(), lookup, said);
        }
    }

    /// By a class in turn, and below a row that is no tag, or the handle after the last row.
    pub(super) fn finished_besides<B: Reader>(
        &mut self,
        counts: &mut Counts,
        asked: Asked<'_>,
        reader: &B,
    ) {
        let n = asked.page.len();
        let classes = self.questions.classes.len();
        let is_asked = |number: &usize| self.questions.in_view || *number == n % classes;
        let classes: Vec<usize> = (0..classes).filter(is_asked).collect();
        let classes = classes.into_iter().map(Lookup::Class);
        for lookup in classes.chain(self.below_no_tag(asked)) {
            let mut out = std::mem::take(&mut self.out);
            let all = lookup.ask(self.questions, reader, asked, View::All, &mut out);
            self.finished(counts, asked, reader, lookup, all);
            self.out = out;
        }
    }

    /// A selector and a handle that is no tag's, in turn.
    fn below_no_tag(&self, asked: Asked<'_>) -> Option<Lookup> {
        let (n, rows) = (asked.page.len(), Rows(asked.table));
        let number = n.checked_rem(self.questions.selectors.len())?;
        let from = n as u32 % (rows.count() + 1);
        let handle = (from..).find(|handle| !rows.is_tag(*handle))?;
        Some(Lookup::Below(handle, number))
    }
}

#[cfg(test)]
mod tests {
    use super::*;
    use crate::altered::{Alteration, Altered, Asking, How};
    use crate::questions::Questions;
    use crate::reader::Compiled;
    use common::Random;

    /// `b` is closed at 19, `br` is never open from 23 on, `p` is closed at 27.
    const PAGE: &[u8] = b"<p><b class=c>x</b><br></p>y";

    fn asked() -> Questions {
        Questions {
            names: Vec::new(),
            classes: vec![b"c".to_vec()],
            selectors: vec![b"*".to_vec()],
            tags: 0,
            below: usize::MAX,
            in_view: true,
        }
    }

    /// The clauses that are reported of a page, and then at each cut.
    fn reported<R: Reader>(page: &[u8], reader: &R, counts: &mut Counts) -> Vec<Vec<Clause>> {
        let (tl, questions) = (Profile::TL, asked());
        let mut whole = Whole::new(&tl, page, &questions, reader, counts);
        let mut all = vec![clauses(&mut whole)];
        for n in 0..=page.len() {
            whole.cut(n, &Compiled, &mut Random::for_page(0, 0), counts);
            all.push(clauses(&mut whole));
        }
        all
    }

    fn clauses<R>(whole: &mut Whole<'_, R>) -> Vec<Clause> {
        let mut clauses: Vec<Clause> = whole.differences.drain(..).map(|it| it.clause).collect();
        clauses.dedup();
        clauses
    }

    /// What is said of a page's tags.
    fn counted(page: &[u8]) -> String {
        let mut counts = Counts::default();
        reported(page, &Compiled, &mut counts);
        assert_eq!(counts.differences, 0);
        let said = counts.view.to_string();
        said.lines().next().unwrap_or_default().to_owned()
    }

    #[test]
    fn tags_are_counted() {
        let said = "finished tags 18, each with all nine words: closed 12, never opened 6, of these with a `/` 0; \
                    ending at the cut 3; not finished: open 27, cut short 2; texts of finished tags 0";
        assert_eq!(counted(PAGE), said);
        let said = "finished tags 2, each with all nine words: closed 0, never opened 2, of these with a `/` 2; \
                    ending at the cut 1; not finished: open 0, cut short 0; texts of finished tags 0";
        assert_eq!(counted(b"<a />x"), said);
    }

    #[test]
    fn a_wrong_find_of_the_whole_page_is_reported() {
        for (asking, how, from) in [
            (Asking::Class, How::FindDropped, 19),
            (Asking::Query, How::FindDropped, 23),
            (Asking::Below, How::FindDropped, 23),
            (Asking::Class, How::Refused, 0),
            (Asking::Query, How::Refused, 0),
            (Asking::Below, How::Refused, 3),
        ] {
            let [shown, stays] = match asking {
                Asking::Class => Lookup::Class(0),
                Asking::Query => Lookup::Query(0),
                Asking::Below => Lookup::Below(0, 0),
            }
            .clauses();
            let reader = Altered::new(Alteration::InView(asking, how));
            let all = reported(PAGE, &reader, &mut Counts::default());
            assert_eq!(all[0], [shown]);
            for (n, clauses) in all[1..].iter().enumerate() {
                let due: &[Clause] = if n < from { &[] } else { &[stays] };
                assert_eq!(clauses, due, "{asking:?}, {how:?}, cut at {n}");
            }
        }
    }
}
