use std::borrow::Cow;

use crate::calls::{self, HeldAt};
use crate::{max_nodes, sys, words_for};
use crate::{Children, Finished, Handle, Kind, Node, Nodes, Profile, Refusal, MAX_PAGE};

/// The version that a page's document type names.
#[derive(Debug, Clone, Copy, PartialEq, Eq, Hash)]
#[non_exhaustive]
pub enum HTMLVersion {
    /// HTML 5.
    HTML5,
}

/// Which tags a lookup by id or class goes over, and in which order.
#[derive(Debug, Clone, Copy, PartialEq, Eq, Hash)]
pub enum Manner {
    /// All tags, in handle order: tl without tracking.
    Scan,
    /// The tags that a closing tag closed, in closing order: tl with tracking.
    Closed,
}

impl Manner {
    pub(crate) const fn number(self) -> u32 {
        match self {
            Manner::Scan => sys::TL_SCAN,
            Manner::Closed => sys::TL_CLOSED,
        }
    }
}

/// Which nodes a lookup in the scan, or a query, goes over. [`calls`] take it; a [`Dom`] looks at all nodes, and its
/// [`Dom::finished`] at the finished tags.
#[derive(Debug, Clone, Copy, PartialEq, Eq, Hash)]
pub enum View {
    /// All nodes.
    All,
    /// The finished tags alone ([`Node::is_finished`]): those that a closing tag with its `>` closed, and those that were
    /// never open.
    Finished,
}

impl View {
    pub(crate) const fn number(self) -> u32 {
        match self {
            View::All => sys::TL_VIEW_ALL,
            View::Finished => sys::TL_VIEW_FINISHED,
        }
    }
}

/// What a tag holds for an attribute name.
#[derive(Debug, Clone, Copy, PartialEq, Eq, Hash)]
pub enum Held<'a> {
    /// The tag does not have the attribute.
    Absent,
    /// It has the attribute without a value.
    Bare,
    /// It has the attribute with this value, which is a part of the page.
    Value(&'a [u8]),
}

impl<'a> Held<'a> {
    /// The value, if there is one.
    pub fn value(self) -> Option<&'a [u8]> {
        match self {
            Held::Value(value) => Some(value),
            Held::Absent | Held::Bare => None,
        }
    }

    /// Whether the tag has the attribute, with or without a value.
    pub fn is_present(self) -> bool {
        self != Held::Absent
    }
}

/// A page with its table, and the profile that it was read with: every lookup asks under it, and goes over all nodes. Those
/// that go over the finished tags alone are at [`Dom::finished`].
pub struct Dom<'a> {
    profile: &'a Profile,
    page: &'a [u8],
    // sound for the page, and not a word longer than its rows
    table: Cow<'a, [u32]>,
}

/// Reads a page into a table of its own, as tl reads it: under [`Profile::TL`].
///
/// ```
/// let dom = tl_rattle::parse("<br><p>Hello</p>")?;
/// let names: Vec<_> = dom.nodes().map(|node| node.name()).collect();
/// assert_eq!(names, [Some(&b"br"[..]), Some(b"p"), None]);
/// # Ok::<(), tl_rattle::Refusal>(())
/// ```
///
/// # Errors
/// [`Refusal::PageTooLong`].
pub fn parse<P>(page: &P) -> Result<Dom<'_>, Refusal>
where
    P: AsRef<[u8]> + ?Sized,
{
    parse_with(&Profile::TL, page)
}

/// Reads a page under a profile into a table of its own.
///
/// ```
/// use tl_rattle::{parse_with, Profile, Refusal};
/// let short = Profile::default().with_limit(16)?;
/// assert_eq!(parse_with(&short, "<br><p>Hello</p>")?.len(), 3);
/// let refused = parse_with(&short, "<br><p>Hello!</p>");
/// assert_eq!(refused.err(), Some(Refusal::PageTooLong));
/// # Ok::<(), Box<dyn std::error::Error>>(())
/// ```
///
/// # Errors
/// [`Refusal::ProfileNotFine`], [`Refusal::PageTooLong`].
pub fn parse_with<'a, P>(profile: &'a Profile, page: &'a P) -> Result<Dom<'a>, Refusal>
where
    P: AsRef<[u8]> + ?Sized,
{
    let page = page.as_ref();
    // Room for the most nodes that such a page has, so that the table is never too small. The room is not zeroed, and what
    // the page's rows do not reach is never touched. Measured, this takes as long as reading into a lent table does. To
    // zero all of it took up to 2.7 times as long, on pages of much text; to begin with a row for 8 bytes, zeroed, and to
    // double it when refused up to 2.4 times, on pages of many tags.
    let nodes = if page.len() <= profile.limit().min(MAX_PAGE) {
        max_nodes(page.len())
    } else {
        0
    };
    let mut table = Vec::with_capacity(words_for(nodes));
    calls::parse_spare(profile, page, &mut table)?;
    Ok(Dom {
        profile,
        page,
        table: Cow::Owned(table),
    })
}

/// Reads a page into a table that the caller lends, `8 + 9 * n` words for `n` nodes ([`words_for`]), as tl reads it: under
/// [`Profile::TL`].
///
/// A refusal leaves the table all zeros. Otherwise the words after the last row stay as they were.
///
/// ```
/// let mut table = [0; tl_rattle::words_for(3)];
/// let dom = tl_rattle::parse_into("<br><p>Hello</p>", &mut table)?;
/// assert_eq!(dom.len(), 3);
/// # Ok::<(), tl_rattle::Refusal>(())
/// ```
///
/// # Errors
/// [`Refusal::PageTooLong`], [`Refusal::TableTooSmall`].
pub fn parse_into<'a, P>(page: &'a P, table: &'a mut [u32]) -> Result<Dom<'a>, Refusal>
where
    P: AsRef<[u8]> + ?Sized,
{
    parse_into_with(&Profile::TL, page, table)
}

/// Reads a page under a profile into a table that the caller lends. Otherwise as [`parse_into`].
///
/// # Errors
/// [`Refusal::ProfileNotFine`], [`Refusal::PageTooLong`], [`Refusal::TableTooSmall`].
pub fn parse_into_with<'a, P>(
    profile: &'a Profile,
    page: &'a P,
    table: &'a mut [u32],
) -> Result<Dom<'a>, Refusal>
where
    P: AsRef<[u8]> + ?Sized,
{
    let page = page.as_ref();
    let count = calls::parse(profile, page, table)?;
    let table: &'a [u32] = table;
    Ok(Dom {
        profile,
        page,
        table: Cow::Borrowed(&table[..words_for(count)]),
    })
}

impl<'a> Dom<'a> {
    /// Takes a page with a table that was written before, here or elsewhere, to be asked under [`Profile::TL`]. The table
    /// may be any words: it is looked at once, and refused if it is not sound for the page.
    ///
    /// To ask such a table without this first look, use [`calls`]: every call there looks for itself.
    ///
    /// ```
    /// use tl_rattle::{Dom, Refusal};
    /// let dom = tl_rattle::parse("<p>a")?;
    /// let again = Dom::from_table("<p>a", dom.table())?;
    /// assert_eq!(again.len(), 2);
    /// assert_eq!(Dom::from_table("<p>ab", dom.table()).err(), Some(Refusal::TableNotSound));
    /// # Ok::<(), Refusal>(())
    /// ```
    ///
    /// # Errors
    /// [`Refusal::PageTooLong`], [`Refusal::TableNotSound`].
    pub fn from_table<P>(page: &'a P, table: &'a [u32]) -> Result<Dom<'a>, Refusal>
    where
        P: AsRef<[u8]> + ?Sized,
    {
        Dom::from_table_with(&Profile::TL, page, table)
    }

    /// Takes a page with a table that was written before, to be asked under a profile, which should be the one that the page
    /// was read with. Otherwise as [`Dom::from_table`].
    ///
    /// ```
    /// use tl_rattle::{parse_with, Dom, Handle, Profile};
    /// let tabs = Profile::default().with_white(" \n\t")?;
    /// let table = parse_with(&tabs, "<p k=1\tj=2>")?.table().to_vec();
    /// let dom = Dom::from_table_with(&tabs, "<p k=1\tj=2>", &table)?;
    /// assert_eq!(dom.attribute(Handle::new(0), "j")?.value(), Some(&b"2"[..]));
    /// # Ok::<(), Box<dyn std::error::Error>>(())
    /// ```
    ///
    /// # Errors
    /// [`Refusal::ProfileNotFine`], [`Refusal::PageTooLong`], [`Refusal::TableNotSound`].
    pub fn from_table_with<P>(
        profile: &'a Profile,
        page: &'a P,
        table: &'a [u32],
    ) -> Result<Dom<'a>, Refusal>
    where
        P: AsRef<[u8]> + ?Sized,
    {
        let page = page.as_ref();
        calls::check(profile, page, table)?;
        // a sound table holds its header and all its rows
        let words = words_for(table[0] as usize);
        Ok(Dom {
            profile,
            page,
            table: Cow::Borrowed(&table[..words]),
        })
    }

    /// The profile under which the page was read, and every lookup asks.
    #[inline]
    pub fn profile(&self) -> &'a Profile {
        self.profile
    }

    /// The page's bytes.
    #[inline]
    pub fn page(&self) -> &'a [u8] {
        self.page
    }

    /// The page's table: 8 words of header, then 9 words a node ([`words_for`]).
    #[inline]
    pub fn table(&self) -> &[u32] {
        &self.table
    }

    /// How many nodes the page has.
    #[inline]
    pub fn len(&self) -> usize {
        self.table()[0] as usize
    }

    /// Whether the page has no nodes.
    #[inline]
    pub fn is_empty(&self) -> bool {
        self.len() == 0
    }

    /// The version that the page's document type names.
    pub fn version(&self) -> Option<HTMLVersion> {
        (self.table()[1] == 5).then_some(HTMLVersion::HTML5)
    }

    /// All nodes, in handle order.
    #[inline]
    pub fn nodes(&self) -> Nodes<'_, 'a> {
        Nodes::new(self, 0, self.len() as u32)
    }

    /// The nodes that no tag holds, in order.
    #[inline]
    pub fn children(&self) -> Children<'_, 'a> {
        Children::new(self, 0, self.len() as u32)
    }

    /// The node of a handle, if the page has as many.
    #[inline]
    pub fn node(&self, handle: Handle) -> Option<Node<'_, 'a>> {
        (handle.index() < self.len()).then(|| Node::new(self, handle))
    }

    /// The finished tags, and the lookups that find them alone. What a query finds there in a page that broke off it finds
    /// in the whole page too: see [`Finished`].
    ///
    /// ```
    /// let dom = tl_rattle::parse("<tr class=fill><td>120</td></tr><tr class=fill><td>80")?;
    /// assert_eq!(dom.query_selector("tr.fill")?.len(), 2);
    /// assert_eq!(dom.finished().query_selector("tr.fill")?.len(), 1);
    /// # Ok::<(), tl_rattle::Refusal>(())
    /// ```
    #[inline]
    pub fn finished(&self) -> Finished<'_, 'a> {
        Finished::new(self)
    }

    /// The handles below a tag: the first and the last, if there are any.
    ///
    /// # Errors
    /// [`Refusal::NotATag`].
    pub fn range(&self, handle: Handle) -> Result<Option<(Handle, Handle)>, Refusal> {
        let ends = calls::range(self.profile, self.page, self.table(), handle.index())?;
        Ok(ends.map(|(first, last)| (row(first), row(last))))
    }

    /// What a tag holds for an attribute name. For `id` and `class` the last one counts, and only with a value; for any
    /// other name the first. Names compare byte for byte.
    ///
    /// ```
    /// use tl_rattle::{Handle, Held};
    /// let dom = tl_rattle::parse("<td data-venue=XLON late>")?;
    /// let cell = Handle::new(0);
    /// assert_eq!(dom.attribute(cell, "data-venue")?, Held::Value(b"XLON"));
    /// assert_eq!(dom.attribute(cell, "late")?, Held::Bare);
    /// assert_eq!(dom.attribute(cell, "Late")?, Held::Absent);
    /// # Ok::<(), tl_rattle::Refusal>(())
    /// ```
    ///
    /// # Errors
    /// [`Refusal::NotATag`].
    pub fn attribute<N>(&self, handle: Handle, name: N) -> Result<Held<'a>, Refusal>
    where
        N: AsRef<[u8]>,
    {
        let (_, held) = self.attribute_or(handle, name, b"")?;
        Ok(held)
    }

    /// The value that a tag holds for an attribute name, or the whole fallback where the tag does not have the attribute or
    /// has it without a value; and which of the three it holds. An empty value is a value. What counts is as for
    /// [`Dom::attribute`].
    ///
    /// ```
    /// use tl_rattle::{Handle, Held};
    /// let dom = tl_rattle::parse("<td data-venue=XLON><td data-venue><td><td data-venue=''>")?;
    /// let venue = |cell| dom.attribute_or(Handle::new(cell), "data-venue", "XNYS");
    /// assert_eq!(venue(0)?, (&b"XLON"[..], Held::Value(b"XLON")));
    /// assert_eq!(venue(1)?, (&b"XNYS"[..], Held::Bare));
    /// assert_eq!(venue(2)?, (&b"XNYS"[..], Held::Absent));
    /// assert_eq!(venue(3)?, (&b""[..], Held::Value(b"")));
    /// # Ok::<(), tl_rattle::Refusal>(())
    /// ```
    ///
    /// # Errors
    /// [`Refusal::NotATag`].
    pub fn attribute_or<'f, N, F>(
        &self,
        handle: Handle,
        name: N,
        fallback: &'f F,
    ) -> Result<(&'f [u8], Held<'a>), Refusal>
    where
        'a: 'f,
        N: AsRef<[u8]>,
        F: AsRef<[u8]> + ?Sized,
    {
        let (part, at) = calls::attribute_or(
            self.profile,
            self.page,
            self.table(),
            handle.index(),
            name.as_ref(),
            fallback.as_ref(),
        )?;
        Ok((part, self.held(at)))
    }

    pub(crate) fn held(&self, at: HeldAt) -> Held<'a> {
        match at {
            HeldAt::Absent => Held::Absent,
            HeldAt::Bare => Held::Bare,
            HeldAt::Value(start, end) => Held::Value(&self.page[start..end]),
        }
    }

    /// The text below a tag: its text nodes' bytes, joined in order. In a page that broke off it is a beginning of the tag's
    /// text in the whole page.
    ///
    /// ```
    /// let page = "<td>sold 400 of 900</td>";
    /// let cell = |dom: &tl_rattle::Dom<'_>| dom.inner_text(dom.query_selector("td")?[0]);
    /// let whole = cell(&tl_rattle::parse(page)?)?;
    /// let broken_off = cell(&tl_rattle::parse(&page[..12])?)?;
    /// assert_eq!(broken_off, b"sold 400");
    /// assert!(whole.starts_with(&broken_off));
    /// # Ok::<(), tl_rattle::Refusal>(())
    /// ```
    ///
    /// # Errors
    /// [`Refusal::NotATag`].
    pub fn inner_text(&self, handle: Handle) -> Result<Vec<u8>, Refusal> {
        grown(self.text_len(handle), |out| {
            calls::inner_text(self.profile, self.page, self.table(), handle.index(), out)
        })
    }

    /// The bytes of the text below a node.
    fn text_len(&self, handle: Handle) -> usize {
        self.node(handle).map_or(0, |node| {
            let texts = node.descendants().filter(|node| node.kind() == Kind::Text);
            texts.map(|text| text.end() - text.start()).sum()
        })
    }

    /// The tag with an id: in the scan the lowest handle, among the closed tags the one closed last.
    ///
    /// ```
    /// use tl_rattle::{Handle, Manner};
    /// let dom = tl_rattle::parse("<p id=a></p><q id=a></q>")?;
    /// assert_eq!(dom.get_element_by_id(Manner::Scan, "a")?, Some(Handle::new(0)));
    /// assert_eq!(dom.get_element_by_id(Manner::Closed, "a")?, Some(Handle::new(1)));
    /// # Ok::<(), tl_rattle::Refusal>(())
    /// ```
    ///
    /// # Errors
    /// None on a page that was read.
    pub fn get_element_by_id<I>(&self, manner: Manner, id: I) -> Result<Option<Handle>, Refusal>
    where
        I: AsRef<[u8]>,
    {
        self.find_by_id(manner, View::All, id.as_ref())
    }

    /// The same in a view, which the closed manner ignores.
    pub(crate) fn find_by_id(
        &self,
        manner: Manner,
        view: View,
        id: &[u8],
    ) -> Result<Option<Handle>, Refusal> {
        let (profile, page, table) = (self.profile, self.page, self.table());
        let found = calls::get_element_by_id(profile, page, table, manner, view, id)?;
        Ok(found.map(row))
    }

    /// The tags with a class: in the scan each once, in handle order; among the closed tags in closing order, once for
    /// each time that the class value holds it.
    ///
    /// # Errors
    /// None on a page that was read.
    pub fn get_elements_by_class_name<C>(
        &self,
        manner: Manner,
        class: C,
    ) -> Result<Vec<Handle>, Refusal>
    where
        C: AsRef<[u8]>,
    {
        self.find_by_class(manner, View::All, class.as_ref())
    }

    /// The same in a view, which the closed manner ignores.
    pub(crate) fn find_by_class(
        &self,
        manner: Manner,
        view: View,
        class: &[u8],
    ) -> Result<Vec<Handle>, Refusal> {
        let (profile, page, table) = (self.profile, self.page, self.table());
        // a class value may hold the class more than once, so there may be more finds than nodes
        let found = grown(self.len(), |out| {
            calls::get_elements_by_class_name(profile, page, table, manner, view, class, out)
        })?;
        Ok(rows(found))
    }

    /// The nodes that a selector finds, in handle order.
    ///
    /// # Errors
    /// [`Refusal::SelectorTooLong`], [`Refusal::SelectorNotRead`].
    pub fn query_selector<S>(&self, selector: S) -> Result<Vec<Handle>, Refusal>
    where
        S: AsRef<[u8]>,
    {
        self.find(View::All, selector.as_ref())
    }

    /// The same in a view.
    pub(crate) fn find(&self, view: View, selector: &[u8]) -> Result<Vec<Handle>, Refusal> {
        let (profile, page, table) = (self.profile, self.page, self.table());
        let found = grown(self.len(), |out| {
            calls::query_selector(profile, page, table, view, selector, out)
        })?;
        Ok(rows(found))
    }

    /// The nodes below a tag that a selector finds, in handle order.
    ///
    /// # Errors
    /// [`Refusal::NotATag`], [`Refusal::SelectorTooLong`], [`Refusal::SelectorNotRead`].
    pub fn query_selector_below<S>(
        &self,
        handle: Handle,
        selector: S,
    ) -> Result<Vec<Handle>, Refusal>
    where
        S: AsRef<[u8]>,
    {
        self.find_below(handle, View::All, selector.as_ref())
    }

    /// The same in a view, which need not show the tag.
    pub(crate) fn find_below(
        &self,
        handle: Handle,
        view: View,
        selector: &[u8],
    ) -> Result<Vec<Handle>, Refusal> {
        let (profile, page, table) = (self.profile, self.page, self.table());
        let below = self.node(handle).map_or(0, |node| node.descendants().len());
        let found = grown(below, |out| {
            let handle = handle.index();
            calls::query_selector_below(profile, page, table, handle, view, selector, out)
        })?;
        Ok(rows(found))
    }
}

impl std::fmt::Debug for Dom<'_> {
    fn fmt(&self, f: &mut std::fmt::Formatter<'_>) -> std::fmt::Result {
        f.debug_list().entries(self.nodes()).finish()
    }
}

/// The handle of a row of a table.
fn row(row: usize) -> Handle {
    // a page of 65,536 bytes has fewer rows, and a header's count is one word
    Handle::new(row as u32)
}

fn rows(found: Vec<u32>) -> Vec<Handle> {
    found.into_iter().map(Handle::new).collect()
}

/// What a call writes into a buffer of `room` entries, or of as many more as it needs.
pub(crate) fn grown<T, F>(room: usize, mut call: F) -> Result<Vec<T>, Refusal>
where
    T: Clone + Default,
    F: FnMut(&mut [T]) -> Result<usize, Refusal>,
{
    let mut out = vec![T::default(); room];
    loop {
        match call(&mut out) {
            Ok(count) => {
                out.truncate(count);
                return Ok(out);
            }
            Err(Refusal::BufferTooShort) => {
                let more = out.len().max(4) * 2;
                out.resize(more, T::default());
            }
            Err(refusal) => return Err(refusal),
        }
    }
}

#[cfg(test)]
mod tests {
    use super::*;

    #[test]
    fn a_buffer_grows_until_it_has_room() {
        let mut tried = Vec::new();
        let got = grown(3, |out: &mut [u32]| {
            tried.push(out.len());
            if out.len() < 20 {
                return Err(Refusal::BufferTooShort);
            }
            out[..20].fill(7);
            Ok(20)
        });
        assert_eq!(got, Ok(vec![7; 20]));
        assert_eq!(tried, [3, 8, 16, 32]);
        assert_eq!(
            grown(0, |_: &mut [u8]| Err(Refusal::NotATag)),
            Err(Refusal::NotATag)
        );
    }
}
