//! tl's answers, in the form in which they are compared. Places are worked out from where tl's parts lie in the page.
use crate::model::{Held, Kind, Manner, Piece, Span, Texts};
use tl::queryselector::{Parser as SelectorParser, QuerySelectorIterator, Selector};
use tl::{Bytes, HTMLTag, HTMLVersion, Node, NodeHandle, ParserOptions, VDom};

/// What tl says of a node. An unfinished comment is empty in tl and lies nowhere, so it has no place.
#[derive(Clone, Debug, PartialEq, Eq)]
pub struct TlRow {
    pub kind: Kind,
    pub place: Option<Span>,
    pub name: Span,
    pub parent: Option<usize>,
}

/// A page as tl reads it: once plainly, for the scan, and once with its tracking on, for the closed manner.
pub struct TlPage<'p> {
    page: &'p str,
    plain: VDom<'p>,
    tracked: VDom<'p>,
}

impl<'p> TlPage<'p> {
    pub fn read(page: &'p str) -> Self {
        let tracking = ParserOptions::new().track_ids().track_classes();
        TlPage {
            page,
            plain: parse(page, ParserOptions::default()),
            tracked: parse(page, tracking),
        }
    }

    pub fn version(&self) -> u32 {
        match self.plain.version() {
            None => 0,
            Some(HTMLVersion::HTML5) => 5,
            Some(_) => u32::MAX,
        }
    }

    pub fn rows(&self) -> Vec<TlRow> {
        let nodes = self.plain.nodes();
        let parents = parents(&self.plain);
        let row = |(node, parent): (&Node, _)| TlRow {
            kind: kind(node),
            place: self.place(node),
            name: node.as_tag().map_or((0, 0), |tag| self.span(tag.name())),
            parent,
        };
        nodes.iter().zip(parents).map(row).collect()
    }

    fn place(&self, node: &Node) -> Option<Span> {
        match node {
            Node::Comment(bytes) if bytes.as_bytes().is_empty() => None,
            Node::Comment(bytes) | Node::Raw(bytes) => Some(self.span(bytes)),
            Node::Tag(tag) => {
                let (start, last) = tag.boundaries(self.plain.parser());
                Some((start, last + 1))
            }
        }
    }

    fn span(&self, part: &Bytes) -> Span {
        let start = part.as_ptr() as usize - self.page.as_ptr() as usize;
        (start, start + part.as_bytes().len())
    }

    fn tag(&self, handle: usize) -> &HTMLTag<'p> {
        let tag = self.plain.nodes()[handle].as_tag();
        tag.expect("only tags are asked")
    }

    pub fn range(&self, handle: usize) -> Option<(usize, usize)> {
        let children = self.tag(handle).children();
        let ends = children.boundaries(self.plain.parser())?;
        Some((ends.0 as usize, ends.1 as usize))
    }

    pub fn text(&self, handle: usize) -> String {
        let node = &self.plain.nodes()[handle];
        node.inner_text(self.plain.parser()).into_owned()
    }

    /// The texts below a tag as bytes, before tl makes a string of each.
    pub fn text_parts(&self, handle: usize) -> Vec<&[u8]> {
        let mut parts = Vec::new();
        let mut left = self.children_backwards(self.tag(handle));
        while let Some(next) = left.pop() {
            match next.get(self.plain.parser()) {
                Some(Node::Raw(part)) => parts.push(part.as_bytes()),
                Some(Node::Tag(tag)) => left.extend(self.children_backwards(tag)),
                _ => {}
            }
        }
        parts
    }

    fn children_backwards(&self, tag: &HTMLTag) -> Vec<NodeHandle> {
        let mut children = tag.children().top().to_vec();
        children.reverse();
        children
    }

    pub fn attribute(&self, handle: usize, name: &[u8]) -> Held {
        match self.tag(handle).attributes().get(name) {
            None => Held::Absent,
            Some(None) => Held::Bare,
            Some(Some(value)) => Held::Value(self.span(value)),
        }
    }

    /// The value's bytes; they live as long as page and name, since tl takes both for one lifetime.
    pub fn value<'n>(&self, handle: usize, name: &'n [u8]) -> Option<&'n [u8]>
    where
        'p: 'n,
    {
        let value = self.tag(handle).attributes().get(name).flatten()?;
        value.as_bytes_borrowed()
    }

    /// What each tag of a list holds for each name. tl has no call on a list, so it is asked tag by tag.
    pub fn attributes(&self, tags: &[u32], names: &[&[u8]]) -> Vec<Held> {
        let of_tag = |&tag: &u32| {
            let held = move |name: &&[u8]| self.attribute(tag as usize, name);
            names.iter().map(held)
        };
        tags.iter().flat_map(of_tag).collect()
    }

    /// The texts below each tag of a list, as bytes.
    pub fn texts(&self, tags: &[u32]) -> Texts {
        let text = |&tag: &u32| self.text_parts(tag as usize).concat();
        Texts::of(tags.iter().map(text))
    }

    /// tl has no views: whatever the view of a scan, it goes over all nodes.
    fn manner(&self, manner: Manner) -> &VDom<'p> {
        match manner {
            Manner::Scan(_) => &self.plain,
            Manner::Closed => &self.tracked,
        }
    }

    pub fn by_id(&self, manner: Manner, id: &[u8]) -> Option<usize> {
        let found = self.manner(manner).get_element_by_id(id)?;
        Some(found.get_inner() as usize)
    }

    pub fn by_class(&self, manner: Manner, class: &[u8]) -> Vec<usize> {
        let page = self.manner(manner);
        handles(page.get_elements_by_class_name(as_str(class)))
    }

    /// What a selector finds in the page; nothing if tl cannot read it.
    pub fn query(&self, selector: &[u8]) -> Option<Vec<usize>> {
        let Ok(text) = std::str::from_utf8(selector) else {
            let selector = SelectorParser::new(selector).selector()?;
            let iter = QuerySelectorIterator::new(selector, self.plain.parser(), &self.plain);
            return Some(handles(iter));
        };
        self.plain.query_selector(text).map(handles)
    }

    /// What a selector finds below a tag.
    pub fn query_below(&self, handle: usize, selector: &[u8]) -> Option<Vec<usize>> {
        let parser = self.plain.parser();
        let tag = self.tag(handle);
        let Ok(text) = std::str::from_utf8(selector) else {
            let selector = SelectorParser::new(selector).selector()?;
            return Some(handles(QuerySelectorIterator::new(selector, parser, tag)));
        };
        tag.query_selector(parser, text).map(handles)
    }
}

/// Bytes as the string type that tl's calls ask for.
///
/// tl takes a page or a class name as `&str`, at once goes over to its bytes, and from there on tests every part that it
/// needs as a string. So it can be asked about bytes that are not UTF-8 as well, which no safe call allows; that is done here
/// only, to have tl's word on such pages too.
pub fn as_str(bytes: &[u8]) -> &str {
    // SAFETY: the string is handed to tl alone, which calls nothing but `as_bytes` on it (lib.rs, parser/base.rs, vdom.rs,
    // parser/tag.rs).
    unsafe { std::str::from_utf8_unchecked(bytes) }
}

/// Whether tl, given these bytes as a page, has a tag of this handle.
pub fn has_tag(page: &str, handle: usize) -> bool {
    let page = parse(page, ParserOptions::default());
    page.nodes()
        .get(handle)
        .is_some_and(|node| node.as_tag().is_some())
}

fn parse(page: &str, options: ParserOptions) -> VDom<'_> {
    tl::parse(page, options).expect("the page is shorter than 2^32 bytes")
}

fn kind(node: &Node) -> Kind {
    match node {
        Node::Tag(_) => Kind::Tag,
        Node::Raw(_) => Kind::Text,
        Node::Comment(_) => Kind::Comment,
    }
}

/// The parent of each node, from the lists of children. A node in no list or in two would be tl's mistake.
fn parents(page: &VDom) -> Vec<Option<usize>> {
    let nodes = page.nodes();
    let mut parents = vec![None; nodes.len()];
    let mut listed = page.children().len();
    for (handle, node) in nodes.iter().enumerate() {
        for child in node.children().iter().flat_map(|c| c.top().iter()) {
            parents[child.get_inner() as usize] = Some(handle);
            listed += 1;
        }
    }
    let roots = page.children().iter();
    let all_roots = roots
        .clone()
        .all(|h| parents[h.get_inner() as usize].is_none());
    assert!(
        listed == nodes.len() && all_roots,
        "tl lists a node twice or not at all"
    );
    parents
}

fn handles(found: impl Iterator<Item = NodeHandle>) -> Vec<usize> {
    found.map(|handle| handle.get_inner() as usize).collect()
}

/// A selector as tl reads it, in the written form of pieces.
pub fn read_selector(selector: &[u8]) -> Option<Vec<Piece>> {
    let read = match std::str::from_utf8(selector) {
        Ok(text) => tl::parse_query_selector(text)?,
        Err(_) => SelectorParser::new(selector).selector()?,
    };
    let mut chain = Vec::new();
    let mut rest = &read;
    loop {
        let (piece, joiner, next) = match rest {
            Selector::And(piece, next) => (&**piece, 1, Some(&**next)),
            Selector::Or(piece, next) => (&**piece, 2, Some(&**next)),
            Selector::Descendant(piece, next) => (&**piece, 3, Some(&**next)),
            Selector::Parent(piece, next) => (&**piece, 4, Some(&**next)),
            last => (last, 0, None),
        };
        chain.push(written(selector, piece, joiner));
        match next {
            Some(next) => rest = next,
            None => return Some(chain),
        }
    }
}

fn written(selector: &[u8], piece: &Selector, joiner: u32) -> Piece {
    let span = |part: &[u8]| {
        let start = part.as_ptr() as usize - selector.as_ptr() as usize;
        (start, start + part.len())
    };
    const NONE: Span = (0, 0);
    let (kind, first, second) = match piece {
        Selector::Tag(name) => (1, span(name), NONE),
        Selector::Id(name) => (2, span(name), NONE),
        Selector::Class(name) => (3, span(name), NONE),
        Selector::All => (4, NONE, NONE),
        Selector::Attribute(name) => (5, span(name), NONE),
        Selector::AttributeValue(name, value) => (6, span(name), span(value)),
        Selector::AttributeValueWhitespacedContains(name, value) => (7, span(name), span(value)),
        Selector::AttributeValueStartsWith(name, value) => (8, span(name), span(value)),
        Selector::AttributeValueEndsWith(name, value) => (9, span(name), span(value)),
        Selector::AttributeValueSubstring(name, value) => (10, span(name), span(value)),
        joined => panic!("tl joins on the left: {joined:?}"),
    };
    Piece {
        kind,
        first,
        second,
        joiner,
    }
}
