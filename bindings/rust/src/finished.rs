use crate::{Dom, Handle, Manner, Node, Refusal, View};

/// The finished tags of a page ([`Node::is_finished`]), and the lookups that find them alone: [`Dom::finished`].
///
/// Its finds by class or query are the [`Dom`]'s in the scan with the others removed, and its find by id is the lowest
/// handle among the finished tags. Neither texts nor comments are finished tags, so `*` finds tags alone.
///
/// What a class or query finds here in a page that broke off it also finds in the whole page, read under the same profile:
/// the same tags, with the same rows. So what was counted is never taken back:
///
/// ```
/// let page = "<tr class=fill><td>120</td></tr><tr class=fill><td>80</td></tr>";
/// let whole = tl_rattle::parse(page)?;
/// let broken_off = tl_rattle::parse(&page[..53])?;
/// // all rows, to look at
/// let rows = broken_off.query_selector("tr.fill")?;
/// assert_eq!(rows, whole.query_selector("tr.fill")?);
/// assert_eq!(broken_off.inner_text(rows[1])?, b"80");
/// // the finished ones, to count: the last is none yet
/// let counted = broken_off.finished().query_selector("tr.fill")?;
/// assert_eq!(counted, rows[..1]);
/// assert_eq!(whole.finished().query_selector("tr.fill")?, rows);
/// for row in counted {
///     assert!(whole.finished().contains(row));
///     assert_eq!(whole.inner_text(row)?, broken_off.inner_text(row)?);
/// }
/// # Ok::<(), tl_rattle::Refusal>(())
/// ```
#[derive(Clone, Copy)]
pub struct Finished<'d, 'a> {
    dom: &'d Dom<'a>,
}

impl<'d, 'a> Finished<'d, 'a> {
    #[inline]
    pub(crate) fn new(dom: &'d Dom<'a>) -> Self {
        Finished { dom }
    }

    /// The page, with all its nodes.
    #[inline]
    pub fn dom(self) -> &'d Dom<'a> {
        self.dom
    }

    /// The finished tags, in handle order.
    ///
    /// ```
    /// let dom = tl_rattle::parse("<tr><td>120</td><br><td>80</td")?;
    /// let names: Vec<_> = dom.finished().nodes().map(|tag| tag.name()).collect();
    /// assert_eq!(names, [Some(&b"td"[..]), Some(b"br")]);
    /// # Ok::<(), tl_rattle::Refusal>(())
    /// ```
    pub fn nodes(self) -> impl DoubleEndedIterator<Item = Node<'d, 'a>> + Clone {
        self.dom.nodes().filter(Node::is_finished)
    }

    /// The finished tag of a handle, if it is one's.
    #[inline]
    pub fn node(self, handle: Handle) -> Option<Node<'d, 'a>> {
        self.dom.node(handle).filter(Node::is_finished)
    }

    /// Whether a handle is a finished tag's.
    #[inline]
    pub fn contains(self, handle: Handle) -> bool {
        self.node(handle).is_some()
    }

    /// The finished tag with an id: the lowest handle. In the whole page a lower one may be found, of a tag that was still
    /// open where the page broke off.
    ///
    /// ```
    /// use tl_rattle::Handle;
    /// let page = "<tr id=a><td id=a>120</td></tr>";
    /// let found = |page| tl_rattle::parse(page)?.finished().get_element_by_id("a");
    /// assert_eq!(found(&page[..26])?, Some(Handle::new(1)));
    /// assert_eq!(found(page)?, Some(Handle::new(0)));
    /// # Ok::<(), tl_rattle::Refusal>(())
    /// ```
    ///
    /// # Errors
    /// None on a page that was read.
    pub fn get_element_by_id<I>(self, id: I) -> Result<Option<Handle>, Refusal>
    where
        I: AsRef<[u8]>,
    {
        self.dom
            .find_by_id(Manner::Scan, View::Finished, id.as_ref())
    }

    /// The finished tags with a class, each once, in handle order.
    ///
    /// # Errors
    /// None on a page that was read.
    pub fn get_elements_by_class_name<C>(self, class: C) -> Result<Vec<Handle>, Refusal>
    where
        C: AsRef<[u8]>,
    {
        self.dom
            .find_by_class(Manner::Scan, View::Finished, class.as_ref())
    }

    /// The finished tags that a selector finds, in handle order.
    ///
    /// # Errors
    /// [`Refusal::SelectorTooLong`], [`Refusal::SelectorNotRead`].
    pub fn query_selector<S>(self, selector: S) -> Result<Vec<Handle>, Refusal>
    where
        S: AsRef<[u8]>,
    {
        self.dom.find(View::Finished, selector.as_ref())
    }

    /// The finished tags below a tag that a selector finds, in handle order. The tag itself need not be finished.
    ///
    /// ```
    /// let dom = tl_rattle::parse("<tr><td>120</td><td>80")?;
    /// let row = dom.query_selector("tr")?[0];
    /// assert!(!dom.finished().contains(row));
    /// assert_eq!(dom.finished().query_selector_below(row, "td")?.len(), 1);
    /// # Ok::<(), tl_rattle::Refusal>(())
    /// ```
    ///
    /// # Errors
    /// [`Refusal::NotATag`], [`Refusal::SelectorTooLong`], [`Refusal::SelectorNotRead`].
    pub fn query_selector_below<S>(
        self,
        handle: Handle,
        selector: S,
    ) -> Result<Vec<Handle>, Refusal>
    where
        S: AsRef<[u8]>,
    {
        self.dom
            .find_below(handle, View::Finished, selector.as_ref())
    }
}

impl std::fmt::Debug for Finished<'_, '_> {
    fn fmt(&self, f: &mut std::fmt::Formatter<'_>) -> std::fmt::Result {
        f.debug_list().entries(self.nodes()).finish()
    }
}
