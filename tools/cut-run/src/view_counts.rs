//! How much was compared of the finished tags and of what the view of them finds.

use std::fmt;

use crate::lookup::{Finds, Lookup};
use crate::reader::Asked;
use crate::rows::Rows;

/// Tags by word 8: open, closed, cut short, never opened.
type ByEnd = [usize; 4];

#[derive(Default)]
pub struct ViewCounts {
    /// tags of beginnings
    tags: ByEnd,
    /// texts of finished tags
    texts: usize,
    /// of the finished ones: that end at the cut
    at_cut: usize,
    /// of those that were never opened: that have a `/` before their `>`
    slash: usize,
    /// lookups in beginnings, held to the view of all and to the whole page
    class: Asks,
    query: Asks,
    below: Asks,
    /// the tags below which was asked
    above: ByEnd,
    /// held to the view of all alone: below a row that is no tag, or the handle after the last row
    no_tag: Asks,
    /// in whole pages
    whole: Asks,
    /// by a profile that is not fine, or with a table that is not sound
    refused: Asks,
}

/// Lookups in the finished view.
#[derive(Default)]
struct Asks {
    many: usize,
    refused: usize,
    finds: usize,
    /// what the same lookups find in the view of all
    of: usize,
}

impl Asks {
    fn observe(&mut self, finished: Finds<'_>, all: Finds<'_>) {
        let many = |finds: Finds<'_>| finds.map_or(0, <[u32]>::len);
        self.many += 1;
        self.refused += usize::from(finished.is_err());
        self.finds += many(finished);
        self.of += many(all);
    }
}

impl ViewCounts {
    /// Counts a tag of a beginning.
    pub fn tag(&mut self, asked: Asked<'_>, handle: u32) {
        let rows = Rows(asked.table);
        count_end(&mut self.tags, rows, handle);
        if rows.is_finished(handle) {
            self.at_cut += usize::from(rows.end(handle) as usize == asked.page.len());
            let before = rows.opened(handle).checked_sub(2);
            let slash = before.and_then(|at| asked.page.get(at as usize)) == Some(&b'/');
            self.slash += usize::from(rows.ended(handle) == 3 && slash);
        }
    }

    /// Counts the text of a tag of a beginning.
    pub fn text(&mut self, finished: bool) {
        self.texts += usize::from(finished);
    }

    /// The finished tags so far.
    pub fn finished_tags(&self) -> usize {
        let [_, closed, _, never] = self.tags;
        closed + never
    }

    /// Counts a lookup in a beginning.
    pub fn beginning(
        &mut self,
        asked: Asked<'_>,
        lookup: Lookup,
        finished: Finds<'_>,
        all: Finds<'_>,
    ) {
        let rows = Rows(asked.table);
        let asks = match lookup {
            Lookup::Class(_) => &mut self.class,
            Lookup::Query(_) => &mut self.query,
            Lookup::Below(handle, _) if rows.is_tag(handle) => {
                count_end(&mut self.above, rows, handle);
                &mut self.below
            }
            Lookup::Below(..) => &mut self.no_tag,
        };
        asks.observe(finished, all);
    }

    /// Counts a lookup in a whole page.
    pub fn whole(&mut self, finished: Finds<'_>, all: Finds<'_>) {
        self.whole.observe(finished, all);
    }

    /// Counts one that must be refused.
    pub fn refused(&mut self, finished: Finds<'_>, all: Finds<'_>) {
        self.refused.observe(finished, all);
    }
}

/// Counts a tag by its word 8.
fn count_end(counts: &mut ByEnd, rows: Rows<'_>, handle: u32) {
    if let Some(count) = counts.get_mut(rows.ended(handle) as usize) {
        *count += 1;
    }
}

impl fmt::Display for Asks {
    fn fmt(&self, f: &mut fmt::Formatter<'_>) -> fmt::Result {
        let Asks {
            many,
            refused,
            finds,
            of,
        } = self;
        write!(f, "{many}, refused {refused}; finds {finds} of {of}")
    }
}

impl fmt::Display for ViewCounts {
    fn fmt(&self, f: &mut fmt::Formatter<'_>) -> fmt::Result {
        let [open, closed, cut_short, never] = self.tags;
        writeln!(
            f,
            "finished tags {}, each with all nine words: closed {closed}, never opened {never}, of these with a `/` {}; \
             ending at the cut {}; not finished: open {open}, cut short {cut_short}; texts of finished tags {}",
            self.finished_tags(),
            self.slash,
            self.at_cut,
            self.texts
        )?;
        let [open, closed, cut_short, never] = self.above;
        writeln!(
            f,
            "in the finished view, each held to the view of all and to the whole page:"
        )?;
        writeln!(f, "  by class {}", self.class)?;
        writeln!(f, "  over the page {}", self.query)?;
        writeln!(
            f,
            "  below a tag {}; the tag open {open}, closed {closed}, cut short {cut_short}, never opened {never}",
            self.below
        )?;
        writeln!(
            f,
            "in the finished view, each held to the view of all alone:"
        )?;
        writeln!(f, "  below no tag {}", self.no_tag)?;
        writeln!(f, "  of whole pages {}", self.whole)?;
        write!(f, "  of no fine profile or no sound table {}", self.refused)
    }
}
