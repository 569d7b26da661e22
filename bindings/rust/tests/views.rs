//! The view of the finished tags: what each call finds in it, through the safe interface and by the number of the view; and
//! that what it finds in a page that broke off is found in the whole page too.

mod common;

use common::{below, class, id, query, Lent, VIEWS};
use tl_rattle::{
    calls, parse, parse_with, sys, words_for, Dom, Ended, Handle, Manner, Node, Profile, Refusal,
    View, ROW_WORDS,
};

/// `b` is open, `br` was never open, `i` is closed, and the closing tag of `u` is cut short.
const PAGE: &str = "<b class=f id=a>x<br class=f><i class=f id=a></i><u class=f></u";

fn handles(numbers: &[u32]) -> Vec<Handle> {
    numbers.iter().copied().map(Handle::new).collect()
}

// ---- one page

#[test]
fn how_the_tags_of_the_page_ended() {
    let dom = parse(PAGE).unwrap();
    let ended: Vec<_> = dom.nodes().map(|node| node.ended()).collect();
    let expected = [
        Some(Ended::Open),
        None,
        Some(Ended::NeverOpened),
        Some(Ended::Closed),
        Some(Ended::CutShort),
    ];
    assert_eq!(ended, expected);
    let finished: Vec<_> = dom.nodes().map(|node| node.is_finished()).collect();
    assert_eq!(finished, [false, false, true, true, false]);
}

#[test]
fn the_finished_tags() {
    let dom = parse(PAGE).unwrap();
    let finished = dom.finished();
    assert!(std::ptr::eq(finished.dom(), &dom));
    let seen = |node: Node<'_, '_>| node.handle().get_inner();
    assert!(finished.nodes().map(seen).eq([2, 3]));
    assert!(finished.nodes().rev().map(seen).eq([3, 2]));
    for number in [0, 1, 2, 3, 4, 5, u32::MAX] {
        let handle = Handle::new(number);
        let is_one = number == 2 || number == 3;
        assert_eq!(finished.contains(handle), is_one, "{number}");
        assert_eq!(finished.node(handle).map(seen), is_one.then_some(number));
    }
    let names: Vec<_> = finished.nodes().map(|node| format!("{node:?}")).collect();
    assert_eq!(format!("{finished:?}"), format!("[{}]", names.join(", ")));
    assert_eq!(parse("").unwrap().finished().nodes().count(), 0);
}

#[test]
fn what_each_view_finds() {
    let dom = parse(PAGE).unwrap();
    let finished = dom.finished();
    let said = dom.get_elements_by_class_name(Manner::Scan, "f");
    assert_eq!(said, Ok(handles(&[0, 2, 3, 4])));
    let said = finished.get_elements_by_class_name("f");
    assert_eq!(said, Ok(handles(&[2, 3])));
    assert_eq!(dom.query_selector("*"), Ok(handles(&[0, 1, 2, 3, 4])));
    assert_eq!(finished.query_selector("*"), Ok(handles(&[2, 3])));
    assert_eq!(dom.query_selector("u,i,b"), Ok(handles(&[0, 3, 4])));
    assert_eq!(finished.query_selector("u,i,b"), Ok(handles(&[3])));
    let said = dom.get_element_by_id(Manner::Scan, "a");
    assert_eq!(said, Ok(Some(Handle::new(0))));
    let said = finished.get_element_by_id("a");
    assert_eq!(said, Ok(Some(Handle::new(3))));
    assert_eq!(finished.get_element_by_id("b"), Ok(None));
    assert_eq!(finished.get_elements_by_class_name("g"), Ok(vec![]));
    assert_eq!(finished.query_selector("b"), Ok(vec![]));
}

#[test]
fn below_a_tag_that_need_not_be_finished() {
    let dom = parse(PAGE).unwrap();
    let finished = dom.finished();
    let open = Handle::new(0);
    let said = dom.query_selector_below(open, ".f");
    assert_eq!(said, Ok(handles(&[2, 3, 4])));
    let said = finished.query_selector_below(open, ".f");
    assert_eq!(said, Ok(handles(&[2, 3])));
    for none_below in [2, 3, 4] {
        let said = finished.query_selector_below(Handle::new(none_below), "*");
        assert_eq!(said, Ok(vec![]), "{none_below}");
    }
    for no_tag in [1, 5, u32::MAX] {
        let refused = Err(Refusal::NotATag);
        let no_tag = Handle::new(no_tag);
        assert_eq!(dom.query_selector_below(no_tag, ".f"), refused);
        assert_eq!(finished.query_selector_below(no_tag, ".f"), refused);
    }
}

#[test]
fn a_selector_is_refused_in_both_views() {
    let dom = parse(PAGE).unwrap();
    let tag = Handle::new(0);
    let cases = [
        ("a".repeat(129), Refusal::SelectorTooLong),
        ("a,".to_owned(), Refusal::SelectorNotRead),
    ];
    for (selector, refusal) in cases {
        assert_eq!(dom.query_selector(&selector), Err(refusal));
        assert_eq!(dom.finished().query_selector(&selector), Err(refusal));
        let said = dom.finished().query_selector_below(tag, &selector);
        assert_eq!(said, Err(refusal));
    }
}

#[test]
fn on_slices_that_are_lent() {
    let dom = parse(PAGE).unwrap();
    let (profile, page, table) = (dom.profile(), dom.page(), dom.table());
    for (view, found) in [(View::All, 0), (View::Finished, 3)] {
        let said = calls::get_element_by_id(profile, page, table, Manner::Scan, view, b"a");
        assert_eq!(said, Ok(Some(found)));
        let said = calls::get_element_by_id(profile, page, table, Manner::Closed, view, b"a");
        assert_eq!(said, Ok(Some(3)));
    }
    let in_class = |manner, view, out: &mut [u32]| {
        calls::get_elements_by_class_name(profile, page, table, manner, view, b"f", out)
    };
    let mut out = [7; 5];
    assert_eq!(in_class(Manner::Scan, View::All, &mut out), Ok(4));
    assert_eq!(out, [0, 2, 3, 4, 7]);
    let mut out = [7; 5];
    assert_eq!(in_class(Manner::Scan, View::Finished, &mut out), Ok(2));
    assert_eq!(out, [2, 3, 7, 7, 7]);
    for view in [View::All, View::Finished] {
        let mut out = [7; 5];
        assert_eq!(in_class(Manner::Closed, view, &mut out), Ok(2));
        assert_eq!(out, [3, 4, 7, 7, 7]);
    }
    let mut out = [7; 5];
    let said = calls::query_selector(profile, page, table, View::Finished, b"*", &mut out);
    assert_eq!((said, out), (Ok(2), [2, 3, 7, 7, 7]));
    let mut out = [7; 5];
    let said = calls::query_selector_below(profile, page, table, 0, View::All, b"*", &mut out);
    assert_eq!((said, out), (Ok(4), [1, 2, 3, 4, 7]));
}

// ---- the number of a view

/// A lookup in the view of a number, into the room that it is lent.
type Lookup = fn(&Lent, u32, &mut [u32]) -> (u32, usize);

/// Lookups in the page, with their finds among all nodes, and among the finished tags.
const LOOKUPS: [(Lookup, &[u32], &[u32]); 4] = [
    (
        |lent, view, out| class(lent, sys::TL_SCAN, view, b"f", out),
        &[0, 2, 3, 4],
        &[2, 3],
    ),
    (
        |lent, view, out| query(lent, view, b".f", out),
        &[0, 2, 3, 4],
        &[2, 3],
    ),
    (
        |lent, view, out| query(lent, view, b"*", out),
        &[0, 1, 2, 3, 4],
        &[2, 3],
    ),
    (
        |lent, view, out| below(lent, 0, view, b".f", out),
        &[2, 3, 4],
        &[2, 3],
    ),
];

/// A lookup with room for its finds leaves the rest as it was; with less it is refused, and leaves zeros.
fn needs_its_room(lookup: Lookup, lent: &Lent, view: u32, finds: &[u32]) {
    for more in 0..3 {
        let mut out = vec![7; finds.len() + more];
        assert_eq!(lookup(lent, view, &mut out), (0, finds.len()), "{view}");
        assert_eq!(out[..finds.len()], *finds, "{view}");
        assert_eq!(out[finds.len()..], vec![7; more], "{view}");
    }
    for room in 0..finds.len() {
        let mut out = vec![7; room];
        assert_eq!(lookup(lent, view, &mut out), (7, 0), "{view} {room}");
        assert_eq!(out, vec![0; room], "{view} {room}");
    }
}

#[test]
fn every_number_but_0_is_the_view_of_the_finished() {
    let lent = Lent::read(PAGE);
    for (lookup, all, finished) in LOOKUPS {
        for view in VIEWS {
            let finds = if view == 0 { all } else { finished };
            needs_its_room(lookup, &lent, view, finds);
        }
    }
    for view in VIEWS {
        let found = if view == 0 { 0 } else { 3 };
        assert_eq!(id(&lent, sys::TL_SCAN, view, b"a"), (0, [1, found]));
        assert_eq!(id(&lent, sys::TL_SCAN, view, b"b"), (0, [0, 0]));
    }
}

#[test]
fn below_a_text_by_every_number() {
    let lent = Lent::read(PAGE);
    for view in VIEWS {
        let mut out = [7; 5];
        assert_eq!(below(&lent, 1, view, b".f", &mut out), (4, 0), "{view}");
        assert_eq!(out, [0; 5], "{view}");
    }
}

#[test]
fn the_closed_manner_has_no_view() {
    let lent = Lent::read(PAGE);
    // with the one that is cut short, and so not finished
    let in_class: Lookup = |lent, view, out| class(lent, sys::TL_CLOSED, view, b"f", out);
    for view in VIEWS {
        needs_its_room(in_class, &lent, view, &[3, 4]);
        assert_eq!(id(&lent, sys::TL_CLOSED, view, b"a"), (0, [1, 3]), "{view}");
    }
    // found by any number but that of the scan, in which it is none of the finished tags
    let lent = Lent::read("<u id=a></u");
    for view in VIEWS {
        for closed in [sys::TL_CLOSED, 2, u32::MAX] {
            assert_eq!(id(&lent, closed, view, b"a"), (0, [1, 0]), "{view}");
        }
    }
    let not_finished = id(&lent, sys::TL_SCAN, sys::TL_VIEW_FINISHED, b"a");
    assert_eq!(not_finished, (0, [0, 0]));
}

// ---- pages that broke off

/// What the pages are made of: rows, cells, tags that are never open, closing tags of which a cut may leave a part, a text
/// and a comment.
const PARTS: [&str; 10] = [
    "<tr class=fill id=f7>",
    "</tr>",
    "<td class='late fill' id=\"f7\">",
    "</td>",
    "<br class=fill id=f7>",
    "<td class=fill/>",
    "<tr/>",
    "</ tr >",
    "120",
    "<!--</tr>-->",
];

const CLASSES: [&str; 2] = ["fill", "late"];

const SELECTORS: [&str; 6] = ["*", "tr.fill", "td", "[class~=late],br", "#f7", ".fill,tr"];

/// Every page of at most so many parts.
fn pages(parts: usize) -> Vec<String> {
    let mut pages = vec![String::new()];
    let mut longest = pages.clone();
    for _ in 0..parts {
        let longer = longest
            .iter()
            .flat_map(|page| PARTS.map(|part| format!("{page}{part}")));
        longest = longer.collect();
        pages.extend_from_slice(&longest);
    }
    pages
}

/// A page of some rows, each with cells in it.
fn report(rows: usize) -> String {
    let row = |row| {
        let late = ["fill", "'fill late'"][row % 2];
        format!("<tr class={late} id=f{row}><td class=fill>{row}<br><td k=v />VOD</td></tr>")
    };
    let rows: String = (0..rows).map(row).collect();
    format!("<!doctype html><table id=f7>{rows}</table>")
}

/// The words of a node's row.
fn row<'d>(dom: &'d Dom<'_>, handle: Handle) -> &'d [u32] {
    &dom.table()[words_for(handle.index())..][..ROW_WORDS]
}

/// What a lookup goes by.
#[derive(Debug, Clone, Copy)]
enum Sought {
    Class(&'static str),
    Query(&'static str),
    Below(Handle, &'static str),
}

impl Sought {
    /// The classes and selectors, over the page and below each of its tags.
    fn in_page(dom: &Dom<'_>) -> Vec<Sought> {
        let tags = dom.nodes().filter(Node::is_tag);
        let below = tags.flat_map(|tag| ["*", ".fill"].map(|s| Sought::Below(tag.handle(), s)));
        let classes = CLASSES.map(Sought::Class).into_iter();
        let queries = SELECTORS.map(Sought::Query).into_iter();
        classes.chain(queries).chain(below).collect()
    }

    fn found(self, dom: &Dom<'_>, view: View) -> Vec<Handle> {
        let finished = dom.finished();
        let said = match (self, view) {
            (Sought::Class(c), View::All) => dom.get_elements_by_class_name(Manner::Scan, c),
            (Sought::Class(c), View::Finished) => finished.get_elements_by_class_name(c),
            (Sought::Query(s), View::All) => dom.query_selector(s),
            (Sought::Query(s), View::Finished) => finished.query_selector(s),
            (Sought::Below(tag, s), View::All) => dom.query_selector_below(tag, s),
            (Sought::Below(tag, s), View::Finished) => finished.query_selector_below(tag, s),
        };
        said.expect("it is not refused")
    }
}

/// Finds without those that are no finished tags of a page.
fn only_finished(mut found: Vec<Handle>, dom: &Dom<'_>) -> Vec<Handle> {
    found.retain(|handle| dom.finished().contains(*handle));
    found
}

/// A whole page, and where it broke off.
fn place(broken_off: &Dom<'_>, whole: &Dom<'_>) -> String {
    let page = String::from_utf8_lossy(whole.page());
    format!("in {page:?} up to {}", broken_off.page().len())
}

/// What was seen of pages that broke off.
#[derive(Default)]
struct Seen {
    /// Finds among the finished tags, and those of the whole page that came later.
    kept: usize,
    came: usize,
    /// Finds among all nodes whose row is another in the whole page.
    moved: usize,
}

impl Seen {
    /// Each lookup in a page that broke off, beside the whole one.
    fn lookups(&mut self, broken_off: &Dom<'_>, whole: &Dom<'_>) {
        for sought in Sought::in_page(broken_off) {
            let all = sought.found(broken_off, View::All);
            self.moved += all
                .iter()
                .filter(|handle| row(broken_off, **handle) != row(whole, **handle))
                .count();
            let shown = only_finished(all, broken_off);
            let found = sought.found(broken_off, View::Finished);
            assert_eq!(found, shown, "{sought:?} {}", place(broken_off, whole));
            let later = sought.found(whole, View::Finished);
            let many = later.len();
            let kept = only_finished(later, broken_off);
            assert_eq!(found, kept, "{sought:?} {}", place(broken_off, whole));
            self.kept += kept.len();
            self.came += many - kept.len();
        }
    }

    /// A page and each of its beginnings.
    fn cuts(&mut self, profile: &Profile, page: &str) {
        let whole = parse_with(profile, page).unwrap();
        for length in 0..=page.len() {
            let broken_off = parse_with(profile, &page.as_bytes()[..length]).unwrap();
            stays_finished(&broken_off, &whole);
            lowest_of_the_finished(&broken_off, &whole);
            self.lookups(&broken_off, &whole);
        }
    }
}

/// Each finished tag of a page that broke off is one of the whole page, with the same row.
fn stays_finished(broken_off: &Dom<'_>, whole: &Dom<'_>) {
    for tag in broken_off.finished().nodes() {
        let handle = tag.handle();
        let place = || place(broken_off, whole);
        assert!(whole.finished().contains(handle), "{tag:?} {}", place());
        let rows = [broken_off, whole].map(|dom| row(dom, handle));
        assert_eq!(rows[0], rows[1], "{tag:?} {}", place());
    }
}

/// By id the lowest of those that a query finds. A lower one may come, but what was found is not lost.
fn lowest_of_the_finished(broken_off: &Dom<'_>, whole: &Dom<'_>) {
    let by_id = |dom: &Dom<'_>| dom.finished().get_element_by_id("f7").unwrap();
    let found = by_id(broken_off);
    let by_query = Sought::Query("#f7").found(broken_off, View::Finished);
    let place = || place(broken_off, whole);
    assert_eq!(found, by_query.first().copied(), "{}", place());
    if let Some(found) = found {
        let of_whole = by_id(whole);
        assert!(of_whole.is_some_and(|id| id <= found), "{}", place());
    }
}

/// tl's profile, and one under which cells are never opened and `br` is.
fn profiles() -> [Profile; 2] {
    [
        Profile::TL,
        Profile::TL.with_void_names(["td"]).expect("it is a name"),
    ]
}

#[test]
fn found_in_every_beginning_and_in_the_whole_page() {
    for profile in profiles() {
        let mut seen = Seen::default();
        for page in pages(3) {
            seen.cuts(&profile, &page);
        }
        seen.cuts(&profile, &report(5));
        // there was something to keep, and the view of all would not have kept all of it
        assert!(seen.kept > 0 && seen.came > 0 && seen.moved > 0);
    }
}
