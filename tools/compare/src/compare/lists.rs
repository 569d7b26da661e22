//! The calls on a list of handles, beside the model's answers and what tl says of one tag after the other.
use super::{check, check_ours, Run};
use crate::findings::Departure;
use crate::lists::List;
use crate::model::{Held, PAPER};
use crate::ours::{Answer, Refusal};
use crate::question::Question;
use std::fmt::Debug;

impl Run<'_, '_> {
    pub(super) fn list(&mut self, list: &List) {
        let List {
            handles,
            name,
            names,
        } = list;
        let before = self.found.answers;
        self.held(
            || Question::Attributes(handles.clone(), name.clone()),
            handles,
            &[name],
            |run, room| run.ours.attributes(handles, name, room),
        );
        self.held(
            || Question::AttributesForNames(handles.clone(), names.clone()),
            handles,
            &names.each(),
            |run, room| run.ours.attributes_for_names(handles, names, room),
        );
        self.texts(handles);
        let lists = self.found.answers - before;
        self.found.covered.lists += lists;
        self.found.covered.listed += lists * handles.len() as u64;
    }

    /// A handle that is no tag's is refused as 4, whatever room there is.
    fn refused_as_4<T: PartialEq + Debug>(&mut self, ask: impl Fn() -> Question, ours: Answer<T>) {
        let paper = Err(Refusal::Number(self.refusal.unwrap_or(4)));
        check_ours(&mut self.found, ask, ours, &paper);
    }

    /// What the tags of a list hold for each of some names, three words each.
    fn held(
        &mut self,
        ask: impl Fn() -> Question,
        handles: &[u32],
        names: &[&[u8]],
        ours: impl Fn(&Self, usize) -> Answer<Vec<Held>>,
    ) {
        let words = 3 * handles.len() * names.len();
        if !self.asked.all_tags(handles) {
            let room = self.random.below(words + 2);
            let answered = ours(self, room);
            return self.refused_as_4(ask, answered);
        }
        let held = self.asked.attributes(handles, names, PAPER);
        let room = self.room(words);
        let answered = ours(self, room);
        let paper = self.expect(held.clone());
        let tl = self.beside_tl(
            &held,
            Departure::RepeatedAttribute,
            |run, way| run.asked.attributes(handles, names, way),
            |tl| tl.attributes(handles, names),
        );
        check(&mut self.found, &ask, answered, &paper, tl);
        if self.try_short(words) {
            let short = ours(self, words - 1);
            self.refused_as_7(ask, short);
        }
    }

    fn texts(&mut self, handles: &[u32]) {
        let ask = || Question::Texts(handles.to_vec());
        if !self.asked.all_tags(handles) {
            let places = self.random.below(handles.len() + 2);
            let answered = self.ours.texts(handles, places, self.random.below(40));
            return self.refused_as_4(ask, answered);
        }
        let texts = self.asked.texts(handles);
        let places = self.room(texts.ends.len());
        let room = self.room(texts.bytes.len());
        let answered = self.ours.texts(handles, places, room);
        let paper = self.expect(texts.clone());
        let tl = self.tl.as_ref();
        let tl = tl.map(|tl| (tl.texts(handles), texts.clone()));
        check(&mut self.found, ask, answered, &paper, tl);
        // either of the two buffers one short
        if self.try_short(texts.ends.len()) {
            let short = self.ours.texts(handles, texts.ends.len() - 1, room);
            self.refused_as_7(ask, short);
        }
        if self.try_short(texts.bytes.len()) {
            let short = self.ours.texts(handles, places, texts.bytes.len() - 1);
            self.refused_as_7(ask, short);
        }
    }
}
