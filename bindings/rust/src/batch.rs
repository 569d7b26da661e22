//! One attribute or several, or the text, of many tags in one call, which looks at the table once for all of them.

use crate::calls::HeldAt;
use crate::refusal::outcome;
use crate::{sys, Dom, Handle, Held, Kind, Node, Profile, Refusal};

/// The words of one answer of [`attributes`].
const ANSWER: usize = 3;

/// Writes what each tag of a list holds for an attribute name, 3 words each: 0 absent, 1 without a value, 2 with a value;
/// where that starts in the page, and ends. Answers how many tags there are.
///
/// # Errors
/// [`Refusal::ProfileNotFine`], [`Refusal::PageTooLong`], [`Refusal::TableNotSound`], [`Refusal::NotATag`],
/// [`Refusal::BufferTooShort`].
pub fn attributes(
    profile: &Profile,
    page: &[u8],
    table: &[u32],
    handles: &[Handle],
    name: &[u8],
    out: &mut [u32],
) -> Result<usize, Refusal> {
    let mut count = 0;
    // SAFETY: each pointer is a profile's, or a slice's, given with its length, and a Handle is one u32; `out` is
    // borrowed mutably, so nothing overlaps it; `count` is one usize.
    let number = unsafe {
        sys::tl_attributes(
            profile.as_raw(),
            page.as_ptr(),
            page.len(),
            table.as_ptr(),
            table.len(),
            handles.as_ptr().cast::<u32>(),
            handles.len(),
            name.as_ptr(),
            name.len(),
            out.as_mut_ptr(),
            out.len(),
            &mut count,
        )
    };
    outcome(number)?;
    Ok(count)
}

/// Writes what each tag of a list holds for each of several names, 3 words a name, a tag's words together. The names stand one
/// after the other in `names`, and end at the places `ends`. Answers how many tags there are.
///
/// # Errors
/// [`Refusal::ProfileNotFine`], [`Refusal::PageTooLong`], [`Refusal::TableNotSound`], [`Refusal::NotATag`],
/// [`Refusal::BufferTooShort`].
pub fn attributes_for_names(
    profile: &Profile,
    page: &[u8],
    table: &[u32],
    handles: &[Handle],
    names: &[u8],
    ends: &[usize],
    out: &mut [u32],
) -> Result<usize, Refusal> {
    let mut count = 0;
    // SAFETY: as in `attributes`.
    let number = unsafe {
        sys::tl_attributes_for_names(
            profile.as_raw(),
            page.as_ptr(),
            page.len(),
            table.as_ptr(),
            table.len(),
            handles.as_ptr().cast::<u32>(),
            handles.len(),
            names.as_ptr(),
            names.len(),
            ends.as_ptr(),
            ends.len(),
            out.as_mut_ptr(),
            out.len(),
            &mut count,
        )
    };
    outcome(number)?;
    Ok(count)
}

/// Writes the text below each tag of a list, one after the other, and where each ends. Answers how many tags there are.
/// A refusal leaves both buffers all zeros.
///
/// # Errors
/// [`Refusal::ProfileNotFine`], [`Refusal::PageTooLong`], [`Refusal::TableNotSound`], [`Refusal::NotATag`],
/// [`Refusal::BufferTooShort`].
pub fn inner_texts(
    profile: &Profile,
    page: &[u8],
    table: &[u32],
    handles: &[Handle],
    ends: &mut [usize],
    out: &mut [u8],
) -> Result<usize, Refusal> {
    let mut count = 0;
    // SAFETY: each pointer is a profile's, or a slice's, given with its length, and a Handle is one u32; `ends` and
    // `out` are borrowed mutably, so nothing overlaps them; `count` is one usize.
    let number = unsafe {
        sys::tl_inner_texts(
            profile.as_raw(),
            page.as_ptr(),
            page.len(),
            table.as_ptr(),
            table.len(),
            handles.as_ptr().cast::<u32>(),
            handles.len(),
            ends.as_mut_ptr(),
            ends.len(),
            out.as_mut_ptr(),
            out.len(),
            &mut count,
        )
    };
    outcome(number)?;
    Ok(count)
}

/// The texts below the tags of a list, in its order.
#[derive(Debug, Clone, PartialEq, Eq)]
pub struct Texts {
    bytes: Vec<u8>,
    ends: Vec<usize>,
}

impl Texts {
    /// How many texts there are.
    pub fn len(&self) -> usize {
        self.ends.len()
    }

    /// Whether there are no texts.
    pub fn is_empty(&self) -> bool {
        self.ends.is_empty()
    }

    /// The text of the list's tag number `index`.
    pub fn get(&self, index: usize) -> Option<&[u8]> {
        let end = *self.ends.get(index)?;
        let start = match index.checked_sub(1) {
            Some(before) => self.ends[before],
            None => 0,
        };
        Some(&self.bytes[start..end])
    }

    /// All texts.
    pub fn iter(&self) -> impl Iterator<Item = &[u8]> + '_ {
        (0..self.len()).filter_map(|index| self.get(index))
    }
}

impl<'a> Dom<'a> {
    /// What each tag of a list holds for an attribute name.
    ///
    /// ```
    /// use tl_rattle::Held;
    /// let dom = tl_rattle::parse("<td k=1><td k><td>")?;
    /// let cells = dom.query_selector("td")?;
    /// assert_eq!(dom.attributes(&cells, "k")?, [Held::Value(b"1"), Held::Bare, Held::Absent]);
    /// # Ok::<(), tl_rattle::Refusal>(())
    /// ```
    ///
    /// # Errors
    /// [`Refusal::NotATag`].
    pub fn attributes<N>(&self, handles: &[Handle], name: N) -> Result<Vec<Held<'a>>, Refusal>
    where
        N: AsRef<[u8]>,
    {
        let mut words = vec![0; ANSWER * handles.len()];
        attributes(
            self.profile(),
            self.page(),
            self.table(),
            handles,
            name.as_ref(),
            &mut words,
        )?;
        Ok(self.all_held(&words))
    }

    /// What each tag of a list holds for each of several names: the first tag's answers in the order of the names, then
    /// the next one's. Each tag's attributes are read once for all names.
    ///
    /// ```
    /// use tl_rattle::Held;
    /// let dom = tl_rattle::parse("<td k=1 j><td j=2>")?;
    /// let cells = dom.query_selector("td")?;
    /// let held = dom.attributes_for_names(&cells, &["j", "k"])?;
    /// assert_eq!(held, [Held::Bare, Held::Value(b"1"), Held::Value(b"2"), Held::Absent]);
    /// # Ok::<(), tl_rattle::Refusal>(())
    /// ```
    ///
    /// # Errors
    /// [`Refusal::NotATag`].
    pub fn attributes_for_names<N>(
        &self,
        handles: &[Handle],
        names: &[N],
    ) -> Result<Vec<Held<'a>>, Refusal>
    where
        N: AsRef<[u8]>,
    {
        let mut text = Vec::new();
        let mut ends = Vec::new();
        for name in names {
            text.extend(name.as_ref());
            ends.push(text.len());
        }
        let mut words = vec![0; ANSWER * names.len() * handles.len()];
        let (profile, page, table) = (self.profile(), self.page(), self.table());
        attributes_for_names(profile, page, table, handles, &text, &ends, &mut words)?;
        Ok(self.all_held(&words))
    }

    fn all_held(&self, words: &[u32]) -> Vec<Held<'a>> {
        let answers = words.chunks_exact(ANSWER).map(|words| {
            HeldAt::from_words([words[0] as usize, words[1] as usize, words[2] as usize])
        });
        answers.map(|at| self.held(at)).collect()
    }

    /// The text below each tag of a list.
    ///
    /// ```
    /// let dom = tl_rattle::parse("<tr><td>120</td><td></td><td>XLON</td></tr>")?;
    /// let cells = dom.query_selector("td")?;
    /// let texts = dom.inner_texts(&cells)?;
    /// assert!(texts.iter().eq([&b"120"[..], b"", b"XLON"]));
    /// # Ok::<(), tl_rattle::Refusal>(())
    /// ```
    ///
    /// # Errors
    /// [`Refusal::NotATag`].
    pub fn inner_texts(&self, handles: &[Handle]) -> Result<Texts, Refusal> {
        let mut bytes = vec![0; self.texts_len(handles)];
        let mut ends = vec![0; handles.len()];
        let (profile, page, table) = (self.profile(), self.page(), self.table());
        inner_texts(profile, page, table, handles, &mut ends, &mut bytes)?;
        Ok(Texts { bytes, ends })
    }

    /// How many bytes the texts of a list have, by one pass over the nodes: tags may lie in each other.
    fn texts_len(&self, handles: &[Handle]) -> usize {
        let mut before = vec![0];
        let mut size = 0;
        for node in self.nodes() {
            if node.kind() == Kind::Text {
                size += node.raw().len();
            }
            before.push(size);
        }
        let nodes = handles.iter().filter_map(|handle| self.node(*handle));
        let text = |node: Node| before[node.last().index() + 1] - before[node.handle().index() + 1];
        nodes.map(text).sum()
    }
}

#[cfg(test)]
mod tests {
    use super::*;

    #[test]
    fn as_one_by_one() {
        let dom = crate::parse("<a k=1>x<b k>y</b><!--c--></a>z<c>").unwrap();
        let tags: Vec<Handle> = dom
            .nodes()
            .filter(|node| node.is_tag())
            .map(|node| node.handle())
            .collect();
        let list: Vec<Handle> = tags.iter().chain(&tags).copied().collect();
        let held = dom.attributes(&list, "k").unwrap();
        let texts = dom.inner_texts(&list).unwrap();
        let names = ["k", "j", "k"];
        let both = dom.attributes_for_names(&list, &names).unwrap();
        assert_eq!(both.len(), names.len() * list.len());
        assert_eq!(held.len(), list.len());
        assert_eq!(texts.len(), list.len());
        for (index, handle) in list.iter().enumerate() {
            assert_eq!(Ok(held[index]), dom.attribute(*handle, "k"));
            assert_eq!(
                both[3 * index..][..3],
                [held[index], Held::Absent, held[index]]
            );
            let text = dom.inner_text(*handle).unwrap();
            assert_eq!(texts.get(index), Some(&text[..]));
        }
        assert_eq!(texts.get(list.len()), None);
    }

    #[test]
    fn an_empty_list() {
        let dom = crate::parse("").unwrap();
        assert_eq!(dom.attributes(&[], "k"), Ok(vec![]));
        assert!(dom.inner_texts(&[]).unwrap().is_empty());
    }

    #[test]
    fn refused_with_zeroed_buffers() {
        let dom = crate::parse("<p>a").unwrap();
        let (profile, page, table) = (dom.profile(), dom.page(), dom.table());
        let tag = Handle::new(0);
        let text = Handle::new(1);
        let mut out = [7; 6];
        let said = attributes(profile, page, table, &[tag, text], b"k", &mut out);
        assert_eq!((said, out), (Err(Refusal::NotATag), [0; 6]));
        let mut out = [7; 5];
        let said = attributes(profile, page, table, &[tag, tag], b"k", &mut out);
        assert_eq!((said, out), (Err(Refusal::BufferTooShort), [0; 5]));
        let mut out = [7; 8];
        let said = attributes(profile, page, table, &[tag, tag], b"k", &mut out);
        assert_eq!((said, out), (Ok(2), [0, 0, 0, 0, 0, 0, 7, 7]));
        let said = attributes(profile, b"<p>ab", table, &[tag], b"k", &mut out);
        assert_eq!((said, out), (Err(Refusal::TableNotSound), [0; 8]));

        let (mut ends, mut out) = ([7; 2], [7; 2]);
        let said = inner_texts(profile, page, table, &[tag, text], &mut ends, &mut out);
        assert_eq!((said, ends, out), (Err(Refusal::NotATag), [0; 2], [0; 2]));
        let (mut ends, mut out) = ([7; 2], [7; 1]);
        let said = inner_texts(profile, page, table, &[tag, tag], &mut ends, &mut out);
        assert_eq!(
            (said, ends, out),
            (Err(Refusal::BufferTooShort), [0; 2], [0; 1])
        );
        let (mut ends, mut out) = ([7; 1], [7; 2]);
        let said = inner_texts(profile, page, table, &[tag, tag], &mut ends, &mut out);
        assert_eq!(
            (said, ends, out),
            (Err(Refusal::BufferTooShort), [0; 1], [0; 2])
        );
        let (mut ends, mut out) = ([7; 3], [7; 3]);
        let said = inner_texts(profile, page, table, &[tag, tag], &mut ends, &mut out);
        assert_eq!((said, ends, &out), (Ok(2), [1, 2, 7], b"aa\x07"));
    }
}
