//! The checked pages of document 01, and what the crate adds to the calls, through the safe interface.

use tl_rattle::{
    calls, max_nodes, parse, parse_into, parse_query_selector, sys, words_for, Dom, Ended,
    HTMLVersion, Handle, Held, Joiner, Kind, Manner, Node, Piece, Refusal, Simple, HEADER_WORDS,
    MAX_PAGE, ROW_WORDS,
};

/// A node's kind, start, end, and parent.
fn seen(node: Node<'_, '_>) -> (Kind, usize, usize, Option<u32>) {
    let parent = node.parent().map(|node| node.handle().get_inner());
    (node.kind(), node.start(), node.end(), parent)
}

fn nodes(page: &str) -> Vec<(Kind, usize, usize, Option<u32>)> {
    parse(page).unwrap().nodes().map(seen).collect()
}

/// How each node of a page ended: word 8 of its row, and what the node answers.
fn ended(page: &str) -> Vec<(u32, Option<Ended>)> {
    let dom = parse(page).unwrap();
    let rows = dom.table()[HEADER_WORDS..].chunks_exact(ROW_WORDS);
    rows.zip(dom.nodes())
        .map(|(row, node)| (row[8], node.ended()))
        .collect()
}

fn handles(numbers: &[u32]) -> Vec<Handle> {
    numbers.iter().copied().map(Handle::new).collect()
}

#[test]
fn no_nodes_one_text_only_text() {
    assert!(parse("").unwrap().is_empty());
    assert_eq!(nodes("a"), [(Kind::Text, 0, 1, None)]);
    assert_eq!(nodes("a < b"), [(Kind::Text, 0, 2, None)]);
}

#[test]
fn br_with_a_slash_and_in_capitals_is_open() {
    for (page, name) in [("<br/>x", &b"br/"[..]), ("<BR>x", b"BR")] {
        let dom = parse(page).unwrap();
        let tag = dom.node(Handle::new(0)).unwrap();
        assert_eq!(tag.name(), Some(name));
        assert_eq!(tag.opened(), Some(page.len() - 1));
        assert!(!tag.is_closed());
        let held: Vec<_> = tag.children().map(seen).collect();
        assert_eq!(held, [(Kind::Text, page.len() - 1, page.len(), Some(0))]);
        assert_eq!(dom.inner_text(tag.handle()).unwrap(), b"x");
    }
}

#[test]
fn comments() {
    assert_eq!(nodes("<!---->"), [(Kind::Comment, 0, 0, None)]);
    assert_eq!(nodes("<!--a-->"), [(Kind::Comment, 0, 8, None)]);
    let dom = parse("<!--a-->").unwrap();
    let comment = dom.node(Handle::new(0)).unwrap();
    assert_eq!(comment.raw(), b"<!--a-->");
    assert_eq!(comment.name(), None);
    assert_eq!(comment.opened(), None);
    assert_eq!(comment.last(), comment.handle());
}

#[test]
fn a_bare_attribute_takes_the_next_byte() {
    let dom = parse("<i b cd>").unwrap();
    let tag = Handle::new(0);
    assert_eq!(dom.attribute(tag, "b"), Ok(Held::Bare));
    assert_eq!(dom.attribute(tag, "d"), Ok(Held::Bare));
    assert_eq!(dom.attribute(tag, "cd"), Ok(Held::Absent));
    assert_eq!(dom.attribute(tag, "c"), Ok(Held::Absent));
}

#[test]
fn values() {
    let page = "<p k=1 k=2 id=a id=b class='x y' j e=\"\">";
    let dom = parse(page).unwrap();
    let held = |name: &str| dom.attribute(Handle::new(0), name).unwrap();
    assert_eq!(held("k"), Held::Value(b"1"));
    assert_eq!(held("id"), Held::Value(b"b"));
    assert_eq!(held("class"), Held::Value(b"x y"));
    assert_eq!(held("class").value(), Some(&b"x y"[..]));
    assert!(held("j").is_present());
    assert_eq!(held("j").value(), None);
    assert_eq!(held("K"), Held::Absent);
    assert!(!held("K").is_present());
    // the value is a part of the page that was lent
    let value = held("k").value().unwrap();
    assert!(std::ptr::eq(value, &page.as_bytes()[5..6]));
    assert_eq!(
        calls::attribute(dom.profile(), dom.page(), dom.table(), 0, b"k"),
        Ok(calls::HeldAt::Value(5, 6))
    );
}

#[test]
fn lookups_by_id() {
    let dom = parse("<p id=a>").unwrap();
    let zero = Some(Handle::new(0));
    assert_eq!(dom.get_element_by_id(Manner::Scan, "a"), Ok(zero));
    assert_eq!(dom.get_element_by_id(Manner::Closed, "a"), Ok(None));
    assert_eq!(dom.get_element_by_id(Manner::Scan, "b"), Ok(None));
    let dom = parse("<p id=a></p><q id=a></q>").unwrap();
    let one = Some(Handle::new(1));
    assert_eq!(dom.get_element_by_id(Manner::Scan, "a"), Ok(zero));
    assert_eq!(dom.get_element_by_id(Manner::Closed, "a"), Ok(one));
}

#[test]
fn lookups_by_class() {
    let dom = parse("<a class='x y'><b class=x></b></a><c class='y x'>").unwrap();
    let found = |manner, class: &str| dom.get_elements_by_class_name(manner, class).unwrap();
    assert_eq!(found(Manner::Scan, "x"), handles(&[0, 1, 2]));
    assert_eq!(found(Manner::Scan, "y"), handles(&[0, 2]));
    assert_eq!(found(Manner::Closed, "x"), handles(&[1, 0]));
    assert_eq!(found(Manner::Closed, ""), []);
}

#[test]
fn a_class_held_more_often_than_there_are_nodes() {
    let page = format!("<p class='{}'></p>", "x ".repeat(1000));
    let dom = parse(&page).unwrap();
    assert_eq!(dom.len(), 1);
    let found = |manner| dom.get_elements_by_class_name(manner, "x").unwrap();
    assert_eq!(found(Manner::Scan), handles(&[0]));
    assert_eq!(found(Manner::Closed), handles(&[0; 1000]));
}

#[test]
fn a_closing_tag_closes_the_innermost_only() {
    let dom = parse("<a><b></a>x").unwrap();
    let text = dom.node(Handle::new(2)).unwrap();
    assert_eq!(text.raw(), b"x");
    assert_eq!(text.parent().unwrap().name(), Some(&b"b"[..]));
    assert!(text.parent().unwrap().parent().unwrap().parent().is_none());
}

#[test]
fn a_cut_may_close_a_tag() {
    let page = "<a></ab>";
    let dom = parse(page).unwrap();
    let tag = dom.node(Handle::new(0)).unwrap();
    assert!(!tag.is_closed());
    assert_eq!(tag.ended(), Some(Ended::Open));
    let dom = parse(&page[..6]).unwrap();
    let tag = dom.node(Handle::new(0)).unwrap();
    assert!(tag.is_closed());
    assert_eq!(tag.ended(), Some(Ended::CutShort));
    assert_eq!((tag.start(), tag.end()), (0, 6));
}

#[test]
fn how_a_tag_ended() {
    let open = (sys::TL_ENDED_OPEN, Some(Ended::Open));
    let closed = (sys::TL_ENDED_CLOSED, Some(Ended::Closed));
    let cut_short = (sys::TL_ENDED_CUT_SHORT, Some(Ended::CutShort));
    let never_opened = (sys::TL_ENDED_NEVER_OPENED, Some(Ended::NeverOpened));
    let text = (0, None);
    assert_eq!(ended("<p>"), [open]);
    assert_eq!(ended("<p></p>"), [closed]);
    assert_eq!(ended("<p></p"), [cut_short]);
    assert_eq!(ended("<br>"), [never_opened]);
    assert_eq!(ended("<p />"), [never_opened]);
    // the slash belongs to the name
    assert_eq!(ended("<br/>x"), [open, text]);
    // `</a>` closes neither
    assert_eq!(ended("<a><b></a>x"), [open, open, text]);
}

#[test]
fn a_text_and_a_comment_do_not_end_as_tags_do() {
    // a text; a comment with its end, an empty one, and one that the page's end cut short
    for page in ["a", "<!--a-->", "<!---->", "<!--a"] {
        assert_eq!(ended(page), [(0, None)], "{page}");
    }
    let closed = (sys::TL_ENDED_CLOSED, Some(Ended::Closed));
    let page = "<p>a<!--b--></p>";
    assert_eq!(ended(page), [closed, (0, None), (0, None)]);
}

#[test]
fn a_document_type() {
    let dom = parse("<!doctype html public>y").unwrap();
    assert_eq!(dom.version(), Some(HTMLVersion::HTML5));
    let seen: Vec<_> = dom.nodes().map(seen).collect();
    assert_eq!(seen, [(Kind::Text, 16, 23, None)]);
    assert_eq!(parse("<!doctype x>").unwrap().version(), None);
}

#[test]
fn selectors() {
    assert_eq!(
        parse_query_selector("a+b"),
        Ok(vec![Piece {
            simple: Simple::Tag(b"a+b"),
            joiner: Joiner::End
        }])
    );
    let unread = Err(Refusal::SelectorNotRead);
    assert_eq!(parse_query_selector("[k=\"x y\"]"), unread);
    assert_eq!(parse_query_selector(""), unread);
    assert_eq!(parse_query_selector(&"a".repeat(128)).unwrap().len(), 1);
}

#[test]
fn queries() {
    let dom = parse("<a id=i class='c d'><b k=v1></b>x<!--y--></a><a>").unwrap();
    let found = |selector: &str| dom.query_selector(selector).unwrap();
    assert_eq!(found("a"), handles(&[0, 4]));
    assert_eq!(found("*"), handles(&[0, 1, 2, 3, 4]));
    assert_eq!(found("a#i.c.d"), handles(&[0]));
    assert_eq!(found("[k],#i"), handles(&[0, 1]));
    assert_eq!(found("[k=v1]"), handles(&[1]));
    assert_eq!(found("[k^=v][k$='1'][k*=\"v1\"]"), handles(&[1]));
    assert_eq!(found("[class~=d]"), handles(&[0]));
    // never a match, as in tl
    assert_eq!(found("a b"), []);
    assert_eq!(found("a > b"), []);
    // from the right: b, or (a descendant b)
    assert_eq!(found("b,a b"), handles(&[1]));
    let below = |handle, selector: &str| dom.query_selector_below(Handle::new(handle), selector);
    assert_eq!(below(0, "*"), Ok(handles(&[1, 2, 3])));
    assert_eq!(below(0, "a"), Ok(vec![]));
    assert_eq!(below(4, "*"), Ok(vec![]));
    assert_eq!(below(2, "*"), Err(Refusal::NotATag));
    assert_eq!(below(5, "*"), Err(Refusal::NotATag));
    assert_eq!(below(u32::MAX, "*"), Err(Refusal::NotATag));
}

#[test]
fn the_listed_page() {
    let dom = parse("<br><p>Hello</p>").unwrap();
    assert_eq!(dom.len(), 3);
    assert_eq!(dom.version(), None);
    let seen: Vec<_> = dom
        .nodes()
        .map(|node| {
            let parent = node.parent().map(|node| node.handle().get_inner());
            let last = node.last().get_inner();
            (node.kind(), parent, node.start(), node.end(), last)
        })
        .collect();
    assert_eq!(
        seen,
        [
            (Kind::Tag, None, 0, 4, 0),
            (Kind::Tag, None, 4, 16, 2),
            (Kind::Text, Some(1), 7, 12, 2),
        ]
    );
    assert_eq!(dom.range(Handle::new(0)), Ok(None));
    let two = Handle::new(2);
    assert_eq!(dom.range(Handle::new(1)), Ok(Some((two, two))));
    assert_eq!(dom.range(two), Err(Refusal::NotATag));
}

#[test]
fn children_are_the_rows_that_name_the_tag() {
    let page = "<a>1<b>2<c>3</c></b><br>4</a>5<d><e>";
    let dom = parse(page).unwrap();
    for holder in std::iter::once(None).chain(dom.nodes().map(Some)) {
        let children: Vec<Handle> = match holder {
            None => dom.children().map(|node| node.handle()).collect(),
            Some(node) => node.children().map(|node| node.handle()).collect(),
        };
        let named: Vec<Handle> = dom
            .nodes()
            .filter(|node| {
                node.parent().map(|node| node.handle()) == holder.map(|node| node.handle())
            })
            .map(|node| node.handle())
            .collect();
        assert_eq!(children, named);
    }
    let first = dom.children().next().unwrap();
    assert_eq!(first.descendants().len(), 7);
    assert_eq!(first.descendants().next_back().unwrap().raw(), b"4");
    assert_eq!(dom.inner_text(first.handle()).unwrap(), b"1234");
    assert_eq!(Handle::new(10).get(&dom).unwrap().name(), Some(&b"e"[..]));
    assert!(Handle::new(11).get(&dom).is_none());
}

#[test]
fn bytes_that_are_no_text() {
    let page = b"\xff<\xfe a=\xc3>\x80<b k=\xc3>\x00</b>";
    let dom = parse(page).unwrap();
    assert_eq!(dom.page(), page);
    let tag = dom.query_selector("b").unwrap()[0];
    assert_eq!(dom.attribute(tag, "k"), Ok(Held::Value(b"\xc3")));
    assert_eq!(dom.inner_text(tag).unwrap(), b"\x00");
}

#[test]
fn the_longest_page() {
    let page = "a".repeat(MAX_PAGE);
    assert_eq!(nodes(&page), [(Kind::Text, 0, MAX_PAGE, None)]);
}

#[test]
fn a_table_of_its_own_is_never_too_small() {
    for length in (0..100).chain([1000, MAX_PAGE - 2, MAX_PAGE - 1, MAX_PAGE]) {
        let page: Vec<u8> = b"a<>".iter().copied().cycle().take(length).collect();
        let dom = parse(&page).unwrap();
        // `<` alone at the end makes no node
        let expected = max_nodes(length);
        assert_eq!(dom.len(), expected, "of {length} bytes");
    }
}

#[test]
fn nested_as_deep_as_a_page_allows() {
    let mut page = "<a>".repeat(21_844);
    page.push_str("xyz");
    let dom = parse(&page).unwrap();
    assert_eq!(dom.len(), 21_845);
    assert_eq!(dom.inner_text(Handle::new(0)).unwrap(), b"xyz");
    let text = dom.nodes().next_back().unwrap();
    assert_eq!(
        std::iter::successors(text.parent(), |node| node.parent()).count(),
        21_844
    );
}

#[test]
fn a_lent_table() {
    let mut table = [9; words_for(4)];
    let dom = parse_into("<br><p>Hello</p>", &mut table).unwrap();
    assert_eq!(dom.table().len(), words_for(3));
    assert_eq!(dom.query_selector("p"), Ok(handles(&[1])));
    // behind the last row nothing was written
    assert_eq!(table[words_for(3)..], [9; ROW_WORDS]);
    let again = Dom::from_table("<br><p>Hello</p>", &table).unwrap();
    assert_eq!(again.query_selector("p"), Ok(handles(&[1])));
    let other = Dom::from_table("<br><p>Hello</p", &table);
    assert_eq!(other.err(), Some(Refusal::TableNotSound));
    let mut short = [9; words_for(2)];
    let refused = parse_into("<br><p>Hello</p>", &mut short);
    assert_eq!(refused.err(), Some(Refusal::TableTooSmall));
    assert_eq!(short, [0; words_for(2)]);
}

#[test]
fn a_sound_table_that_no_reading_made() {
    // texts that overlap: the text below is longer than the page
    let page = b"<a>xyz";
    let mut table = vec![4, 0, 6, 8, 9, 0, 0, 0, 1, 0, 3, 1, 2, 3, 0, 3, 0];
    for handle in 1..4 {
        table.extend([2, 0, 6, 0, 0, 0, 1, handle, 0]);
    }
    let dom = Dom::from_table(page, &table).unwrap();
    let text = dom.inner_text(Handle::new(0)).unwrap();
    assert_eq!(text, b"<a>xyz<a>xyz<a>xyz");
}

#[test]
fn sent_between_threads() {
    fn both<T: Send + Sync>(_: &T) {}
    let dom = parse("<p>").unwrap();
    both(&dom);
    let found = std::thread::scope(|scope| scope.spawn(|| dom.query_selector("p")).join().unwrap());
    assert_eq!(found, Ok(handles(&[0])));
}

#[test]
fn what_the_table_held_before_makes_no_difference() {
    let page = "<!doctype html><a>1<b k=v>2<!--3--></b><br>4</a>5<d><e>";
    let dom = parse(page).unwrap();
    let words = dom.table().len();
    for before in [0, 1, 2, 8, 9, u32::MAX] {
        let mut table = vec![before; words + ROW_WORDS + 1];
        let said = calls::parse(dom.profile(), page.as_bytes(), &mut table);
        assert_eq!(said, Ok(dom.len()));
        assert_eq!(table[..words], *dom.table());
        assert_eq!(table[words..], [before; ROW_WORDS + 1]);
    }
}
