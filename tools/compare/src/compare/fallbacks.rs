//! The lookup of an attribute with a fallback. Neither tl nor a C function takes one: it is the caller's, who has the value where there is
//! one and the fallback elsewhere.
use super::{check, Run};
use crate::asks::VENUE;
use crate::findings::Departure;
use crate::model::{Held, PAPER};
use crate::ours::Answer;
use crate::question::Question;

/// What such a lookup hands back, of a page and with a fallback.
pub(super) type Rule = for<'b> fn(Held, &'b [u8], &'b [u8]) -> &'b [u8];

/// One that lies outside the page, an empty one, one inside the page, the page, and one equal to the value.
fn fallbacks(page: &[u8], held: Held) -> [&[u8]; 5] {
    let inside = &page[page.len() / 2..];
    [VENUE, b"", inside, page, held.or(page, b"")]
}

impl Run<'_, '_> {
    /// The library's caller goes by its answer, which has been compared, and by the page; tl's by tl's value.
    pub(super) fn attribute_or(&mut self, tag: usize, name: &[u8], ours: Answer<Held>, rule: Rule) {
        let page = self.asked.page;
        let held = self.asked.attribute(tag, name, PAPER);
        let with = fallbacks(page, held);
        let ours = ours.map(|held| with.map(|fallback| self.ours.value(held).unwrap_or(fallback)));
        let back = with.map(|fallback| rule(held, page, fallback));
        let paper = self.expect(back);
        let tl = self.beside_tl(
            &back,
            Departure::RepeatedAttribute,
            |run, way| {
                let held = run.asked.attribute(tag, name, way);
                with.map(|fallback| rule(held, page, fallback))
            },
            |tl| with.map(|fallback| tl.value(tag, name).unwrap_or(fallback)),
        );
        let ask = || Question::AttributeOr(tag, name.to_vec());
        check(&mut self.found, ask, ours, &paper, tl);
        self.count_fallbacks(held);
    }

    fn count_fallbacks(&mut self, held: Held) {
        let covered = &mut self.found.covered;
        covered.with_fallbacks += 1;
        if self.refusal.is_none() {
            covered.fell_back += matches!(held, Held::Absent | Held::Bare) as u64;
            covered.empty_values +=
                matches!(held, Held::Value((start, end)) if start == end) as u64;
        }
    }
}
