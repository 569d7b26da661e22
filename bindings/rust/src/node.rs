use crate::{sys, Dom, HEADER_WORDS, ROW_WORDS};

/// A node's place in the table of its page.
///
/// A handle says nothing of the page that it came from. Asked of another, it names the row of the same number there, if
/// there is one.
#[derive(Debug, Clone, Copy, PartialEq, Eq, PartialOrd, Ord, Hash)]
#[repr(transparent)]
pub struct Handle(u32);

impl Handle {
    /// The handle of a row, counted from 0.
    #[inline]
    pub const fn new(row: u32) -> Handle {
        Handle(row)
    }

    /// The row's number.
    #[inline]
    pub const fn get_inner(self) -> u32 {
        self.0
    }

    /// The row's number, as an index.
    #[inline]
    pub const fn index(self) -> usize {
        self.0 as usize
    }

    /// The node in a page, if the page has as many.
    #[inline]
    pub fn get<'d, 'a>(self, dom: &'d Dom<'a>) -> Option<Node<'d, 'a>> {
        dom.node(self)
    }
}

/// What a node is.
#[derive(Debug, Clone, Copy, PartialEq, Eq, Hash)]
pub enum Kind {
    /// A tag.
    Tag,
    /// A text; tl's `Raw`.
    Text,
    /// A comment.
    Comment,
}

/// How a tag ended.
#[derive(Debug, Clone, Copy, PartialEq, Eq, Hash)]
pub enum Ended {
    /// It did not: it is open at the end of the page.
    Open,
    /// A closing tag with its `>` closed it.
    Closed,
    /// A closing tag without its `>`, which the page's end cut short, closed it.
    CutShort,
    /// It was never open: its name is void, or a `/` follows its name and attributes.
    NeverOpened,
}

/// A node of a page.
#[derive(Clone, Copy)]
pub struct Node<'d, 'a> {
    dom: &'d Dom<'a>,
    handle: Handle,
}

impl<'d, 'a> Node<'d, 'a> {
    /// `handle` must be below the count.
    #[inline]
    pub(crate) fn new(dom: &'d Dom<'a>, handle: Handle) -> Self {
        Node { dom, handle }
    }

    #[inline]
    fn word(&self, word: usize) -> usize {
        self.dom.table()[HEADER_WORDS + ROW_WORDS * self.handle.index() + word] as usize
    }

    /// The node's handle.
    #[inline]
    pub fn handle(&self) -> Handle {
        self.handle
    }

    /// What the node is.
    #[inline]
    pub fn kind(&self) -> Kind {
        match self.word(0) {
            1 => Kind::Tag,
            2 => Kind::Text,
            _ => Kind::Comment,
        }
    }

    /// Whether the node is a tag.
    #[inline]
    pub fn is_tag(&self) -> bool {
        self.kind() == Kind::Tag
    }

    /// Where the node's bytes start in the page.
    #[inline]
    pub fn start(&self) -> usize {
        self.word(1)
    }

    /// Where the node's bytes end, exclusive. For a tag that is the end of its closing tag, or of its opening one where it
    /// was not closed.
    #[inline]
    pub fn end(&self) -> usize {
        self.word(2)
    }

    /// The node's bytes.
    #[inline]
    pub fn raw(&self) -> &'a [u8] {
        &self.dom.page()[self.start()..self.end()]
    }

    /// A tag's name, which may be empty.
    #[inline]
    pub fn name(&self) -> Option<&'a [u8]> {
        self.is_tag()
            .then(|| &self.dom.page()[self.word(3)..self.word(4)])
    }

    /// The place after a tag's opening `>`.
    #[inline]
    pub fn opened(&self) -> Option<usize> {
        self.is_tag().then(|| self.word(5))
    }

    /// How a tag ended. Of a page that broke off this may differ from the whole page's: closed may become open or cut
    /// short, and these two each other.
    ///
    /// ```
    /// use tl_rattle::Ended;
    /// let dom = tl_rattle::parse("<tr><td>120</td><td>XLON</td")?;
    /// let ended: Vec<_> = dom.nodes().filter_map(|node| node.ended()).collect();
    /// assert_eq!(ended, [Ended::Open, Ended::Closed, Ended::CutShort]);
    /// # Ok::<(), tl_rattle::Refusal>(())
    /// ```
    #[inline]
    pub fn ended(&self) -> Option<Ended> {
        self.is_tag().then(|| match self.word(8) as u32 {
            sys::TL_ENDED_OPEN => Ended::Open,
            sys::TL_ENDED_CLOSED => Ended::Closed,
            sys::TL_ENDED_CUT_SHORT => Ended::CutShort,
            _ => Ended::NeverOpened,
        })
    }

    /// Whether the node is a finished tag: a closing tag with its `>` closed it, or it was never open. A finished tag of a
    /// page that broke off is one of the whole page too, read under the same profile, with the same row: the same places,
    /// parent and last descendant.
    ///
    /// ```
    /// let page = "<tr><td>120</td><td>XLON</td></tr>";
    /// let finished = |page| -> Result<Vec<bool>, tl_rattle::Refusal> {
    ///     let dom = tl_rattle::parse(page)?;
    ///     let tags = dom.nodes().filter(|node| node.is_tag());
    ///     Ok(tags.map(|tag| tag.is_finished()).collect())
    /// };
    /// assert_eq!(finished(&page[..28])?, [false, true, false]);
    /// assert_eq!(finished(page)?, [true, true, true]);
    /// # Ok::<(), tl_rattle::Refusal>(())
    /// ```
    #[inline]
    pub fn is_finished(&self) -> bool {
        matches!(self.ended(), Some(Ended::Closed | Ended::NeverOpened))
    }

    /// Whether the node is a tag that a closing tag closed, with its `>` or cut short.
    #[inline]
    pub fn is_closed(&self) -> bool {
        self.opened().is_some_and(|opened| opened < self.end())
    }

    /// The tag that holds the node; none at the root.
    #[inline]
    pub fn parent(&self) -> Option<Node<'d, 'a>> {
        let above = self.word(6).checked_sub(1)?;
        Some(Node::new(self.dom, Handle(above as u32)))
    }

    /// The last of the nodes below; the node itself if there are none.
    #[inline]
    pub fn last(&self) -> Handle {
        Handle(self.word(7) as u32)
    }

    /// The nodes that the node holds directly, in order.
    #[inline]
    pub fn children(&self) -> Children<'d, 'a> {
        Children::new(self.dom, self.handle.0 + 1, self.last().0 + 1)
    }

    /// All nodes below, in handle order: those after the node up to its last.
    #[inline]
    pub fn descendants(&self) -> Nodes<'d, 'a> {
        Nodes::new(self.dom, self.handle.0 + 1, self.last().0 + 1)
    }
}

impl std::fmt::Debug for Node<'_, '_> {
    fn fmt(&self, f: &mut std::fmt::Formatter<'_>) -> std::fmt::Result {
        f.debug_struct("Node")
            .field("handle", &self.handle.0)
            .field("kind", &self.kind())
            .field("start", &self.start())
            .field("end", &self.end())
            .field("name", &self.name().map(String::from_utf8_lossy))
            .field("opened", &self.opened())
            .field("parent", &self.parent().map(|node| node.handle.0))
            .field("last", &self.last().0)
            .field("ended", &self.ended())
            .finish()
    }
}

/// The nodes of a run of handles, in order.
#[derive(Clone)]
pub struct Nodes<'d, 'a> {
    dom: &'d Dom<'a>,
    next: u32,
    end: u32,
}

impl<'d, 'a> Nodes<'d, 'a> {
    /// `end` must not be above the count.
    #[inline]
    pub(crate) fn new(dom: &'d Dom<'a>, next: u32, end: u32) -> Self {
        Nodes { dom, next, end }
    }
}

impl<'d, 'a> Iterator for Nodes<'d, 'a> {
    type Item = Node<'d, 'a>;

    #[inline]
    fn next(&mut self) -> Option<Node<'d, 'a>> {
        if self.next >= self.end {
            return None;
        }
        let node = Node::new(self.dom, Handle(self.next));
        self.next += 1;
        Some(node)
    }

    #[inline]
    fn size_hint(&self) -> (usize, Option<usize>) {
        let left = self.end.saturating_sub(self.next) as usize;
        (left, Some(left))
    }
}

impl DoubleEndedIterator for Nodes<'_, '_> {
    #[inline]
    fn next_back(&mut self) -> Option<Self::Item> {
        if self.next >= self.end {
            return None;
        }
        self.end -= 1;
        Some(Node::new(self.dom, Handle(self.end)))
    }
}

impl ExactSizeIterator for Nodes<'_, '_> {}

/// The nodes that a tag, or a page, holds directly, in order.
#[derive(Clone)]
pub struct Children<'d, 'a> {
    dom: &'d Dom<'a>,
    next: u32,
    end: u32,
}

impl<'d, 'a> Children<'d, 'a> {
    /// `end` must not be above the count.
    #[inline]
    pub(crate) fn new(dom: &'d Dom<'a>, next: u32, end: u32) -> Self {
        Children { dom, next, end }
    }
}

impl<'d, 'a> Iterator for Children<'d, 'a> {
    type Item = Node<'d, 'a>;

    #[inline]
    fn next(&mut self) -> Option<Node<'d, 'a>> {
        if self.next >= self.end {
            return None;
        }
        let node = Node::new(self.dom, Handle(self.next));
        // the next sibling comes after all that lies below this one
        self.next = node.last().0 + 1;
        Some(node)
    }
}
