//! A table's rows, by their words.

use tl_rattle::ROW_WORDS;

/// A table, which holds its header and its rows.
#[derive(Clone, Copy)]
pub struct Rows<'t>(pub &'t [u32]);

impl<'t> Rows<'t> {
    /// A row's nine words.
    pub fn row(self, handle: u32) -> &'t [u32] {
        &self.0[Rows::at(handle)..][..ROW_WORDS]
    }
}

impl Rows<'_> {
    /// Where the row of a handle starts.
    pub fn at(handle: u32) -> usize {
        tl_rattle::words_for(handle as usize)
    }

    pub fn count(self) -> u32 {
        self.0[0]
    }

    /// The last row of those that are so.
    pub fn last_with(self, with: impl Fn(u32) -> bool) -> Option<u32> {
        (0..self.count()).rev().find(|handle| with(*handle))
    }

    pub fn word(self, handle: u32, word: usize) -> u32 {
        self.0[Rows::at(handle) + word]
    }

    pub fn is_tag(self, handle: u32) -> bool {
        handle < self.count() && self.word(handle, 0) == 1
    }

    pub fn is_text(self, handle: u32) -> bool {
        handle < self.count() && self.word(handle, 0) == 2
    }

    /// A comment without its `-->` ends where it starts.
    pub fn is_unfinished_comment(self, handle: u32) -> bool {
        let is = handle < self.count() && self.word(handle, 0) == 3;
        is && self.start(handle) == self.end(handle)
    }

    pub fn start(self, handle: u32) -> u32 {
        self.word(handle, 1)
    }

    pub fn end(self, handle: u32) -> u32 {
        self.word(handle, 2)
    }

    /// The name's bytes, if they lie in the page.
    pub fn name(self, page: &[u8], handle: u32) -> Option<&[u8]> {
        page.get(self.word(handle, 3) as usize..self.word(handle, 4) as usize)
    }

    /// The place after the opening `>`.
    pub fn opened(self, handle: u32) -> u32 {
        self.word(handle, 5)
    }

    /// Words 3 to 5: where a tag's name starts and ends, and the place after its opening `>`.
    pub fn places(self, handle: u32) -> [u32; 3] {
        [3, 4, 5].map(|word| self.word(handle, word))
    }

    /// The parent's handle plus 1; 0 at the root.
    pub fn parent(self, handle: u32) -> u32 {
        self.word(handle, 6)
    }

    pub fn last(self, handle: u32) -> u32 {
        self.word(handle, 7)
    }

    /// 0 open at the end of the page, 1 closed by a closing tag with its `>`, 2 by one that the page's end cut short, 3 never
    /// opened.
    pub fn ended(self, handle: u32) -> u32 {
        self.word(handle, 8)
    }

    /// A tag that the view of the finished tags shows: a closing tag with its `>` closed it, or it was never opened.
    pub fn is_finished(self, handle: u32) -> bool {
        self.is_tag(handle) && matches!(self.ended(handle), 1 | 3)
    }

    /// The bytes of the texts after a tag up to its last, if they lie in the page.
    pub fn text(self, page: &[u8], handle: u32) -> Option<Vec<u8>> {
        let mut text = Vec::new();
        for below in handle + 1..=self.last(handle) {
            if self.is_text(below) {
                let (start, end) = (self.start(below), self.end(below));
                text.extend_from_slice(page.get(start as usize..end as usize)?);
            }
        }
        Some(text)
    }
}
