//! docs/DIFFERENCES.md: what tl and the library answer to each input of its table.
use crate::ffi::LentProfile;
use crate::model::{
    max_nodes, name_place, set_limit, words_for, Held, Kind, Manner, ProfileBytes, View,
    PAGE_LIMIT, SELECTOR_LIMIT, TL_BYTES, WHITE_AT,
};
use crate::numbers::Numbers;
use crate::ours::{self, Answer, Ours, Refusal};
use crate::tl_side::{as_str, read_selector, TlPage};
use std::process::Command;
use std::thread;

/// The numbers of the views; and the scan over all nodes, which is tl's, with its numbers.
const ALL: u32 = 0;
const FINISHED: u32 = 1;
const SCAN: Manner = Manner::Scan(View::All);
const BY_NUMBERS: Numbers = Numbers {
    manner: 0,
    view: ALL,
};

/// A page that tl reads, and the library under a profile.
struct Both<'p> {
    page: &'p [u8],
    tl: TlPage<'p>,
    profile: LentProfile,
    table: Vec<u32>,
}

impl<'p> Both<'p> {
    fn read(page: &'p [u8]) -> Both<'p> {
        Both::under(&TL_BYTES, page)
    }

    fn under(profile: &ProfileBytes, page: &'p [u8]) -> Both<'p> {
        let profile = LentProfile::alone(profile);
        let table = read(&profile, page).expect("the page is read");
        Both {
            page,
            tl: TlPage::read(as_str(page)),
            profile,
            table,
        }
    }

    fn ours(&self) -> Ours<'_> {
        Ours {
            profile: &self.profile.raw,
            page: self.page,
            table: &self.table,
        }
    }

    /// What the first tag holds for a name, in tl and here.
    fn attribute(&self, name: &[u8]) -> (Held, Answer<Held>) {
        (self.tl.attribute(0, name), self.ours().attribute(0, name))
    }
}

/// A page read by the library under a profile.
fn read(profile: &LentProfile, page: &[u8]) -> Answer<Vec<u32>> {
    ours::read(&profile.raw, page, words_for(max_nodes(page.len())))
}

fn number<T>(number: u32) -> Answer<T> {
    Err(Refusal::Number(number))
}

fn limited(limit: u32) -> LentProfile {
    let mut profile = TL_BYTES;
    set_limit(&mut profile, limit);
    LentProfile::alone(&profile)
}

#[test]
fn a_page_over_the_limit() {
    let page = vec![b'a'; PAGE_LIMIT + 1];
    let rows = TlPage::read(as_str(&page)).rows();
    assert_eq!(
        (rows[0].kind, rows[0].place),
        (Kind::Text, Some((0, PAGE_LIMIT + 1)))
    );
    let profile = LentProfile::alone(&TL_BYTES);
    assert_eq!(read(&profile, &page), number(1));
    assert!(read(&profile, &page[1..]).is_ok());
}

#[test]
fn another_limit() {
    assert_eq!(TlPage::read("aa").rows()[0].place, Some((0, 2)));
    assert_eq!(read(&limited(1), b"aa"), number(1));
    assert_eq!(TlPage::read("").rows(), []);
    assert_eq!(read(&limited(0), b""), number(14));
}

#[test]
fn another_white_byte() {
    let mut tab = TL_BYTES;
    tab[WHITE_AT] = b'\t';
    let both = Both::under(&tab, b"<\t>");
    assert_eq!(both.attribute(b""), (Held::Bare, Ok(Held::Absent)));
}

#[test]
fn another_void_name() {
    let mut x = TL_BYTES;
    name_place(&mut x, 15)[0] = b'x';
    let both = Both::under(&x, b"<x>a");
    assert_eq!(both.tl.range(0), Some((1, 1)));
    assert_eq!(both.ours().range(0), Ok(None));
}

#[test]
fn a_table_that_is_lent() {
    let profile = LentProfile::alone(&TL_BYTES);
    let tl = TlPage::read("");
    assert_eq!(tl.rows(), []);
    assert_eq!(ours::read(&profile.raw, b"", 0), number(2));
    let ours = Ours {
        profile: &profile.raw,
        page: b"",
        table: &[],
    };
    assert_eq!(tl.by_id(SCAN, b""), None);
    assert_eq!(ours.by_id(BY_NUMBERS, b""), number(3));
}

#[test]
fn a_node_that_is_no_tag() {
    let both = Both::read(b"a");
    assert_eq!(both.tl.text(0), "a");
    assert_eq!(both.ours().text(0, 1), number(4));
}

#[test]
fn a_selector_over_the_limit() {
    let selector = [b'a'; SELECTOR_LIMIT + 1];
    assert_eq!(read_selector(&selector).map(|chain| chain.len()), Some(1));
    assert_eq!(ours::read_selector(&selector, 6), number(5));
    assert!(ours::read_selector(&selector[1..], 6).is_ok());
}

#[test]
fn a_buffer_that_is_lent() {
    let both = Both::read(b"a");
    assert_eq!(both.tl.query(b"*"), Some(vec![0]));
    assert_eq!(both.ours().query(ALL, b"*", 0), number(7));
}

#[test]
fn a_view_of_finished_tags() {
    let both = Both::read(b"<p>");
    assert_eq!(both.tl.query(b"*"), Some(vec![0]));
    assert_eq!(both.ours().query(FINISHED, b"*", 0), Ok(vec![]));
}

#[test]
fn a_repeated_attribute() {
    let both = Both::read(b"<..=>");
    let value = Held::Value((4, 4));
    assert_eq!(both.attribute(b""), (value, Ok(Held::Bare)));
    let both = Both::read(b"<p k=1 k=2 j>");
    let [first, second] = [(5, 6), (9, 10)].map(Held::Value);
    assert_eq!(both.attribute(b"k"), (second, Ok(first)));
    // of two the first counts in tl as well
    let both = Both::read(b"<p k=1 k=2>");
    assert_eq!(both.attribute(b"k"), (first, Ok(first)));
}

#[test]
fn a_class_that_is_not_utf8() {
    for (page, class) in [
        (&b"<.class=\xff>"[..], &b"\xff"[..]),
        (b"<p class='fill \xff'>", b"fill"),
    ] {
        let both = Both::read(page);
        assert_eq!(both.tl.by_class(SCAN, class), []);
        assert_eq!(both.ours().by_class(BY_NUMBERS, class, 1), Ok(vec![0]));
    }
}

#[test]
fn a_text_that_is_not_utf8() {
    for (page, string, bytes) in [
        ("<><!doctypeé", "\u{fffd}", &b"\xa9"[..]),
        ("<a><!doctype éx", "\u{fffd}x", b"\xa9x"),
    ] {
        let both = Both::read(page.as_bytes());
        assert_eq!(both.tl.text(0), string);
        assert_eq!(both.ours().text(0, 2), Ok(bytes.to_vec()));
    }
}

#[test]
fn a_page_that_is_not_utf8() {
    // no safe call of tl takes it
    assert_eq!(Both::read(b"\xff").ours().query(ALL, b"*", 1), Ok(vec![0]));
}

#[test]
fn a_comment_without_end() {
    let both = Both::read(b"<!--");
    assert_eq!(both.tl.rows()[0].place, None);
    assert_eq!(both.table[words_for(0)..][..3], [3, 0, 0]);
}

/// The stack of a thread that Rust starts, if nothing else is said.
const STACK: usize = 2 << 20;

fn on_a_small_stack<T: Send>(ask: impl FnOnce() -> T + Send) -> T {
    thread::scope(|scope| {
        let thread = thread::Builder::new().stack_size(STACK);
        let thread = thread.spawn_scoped(scope, ask).expect("it starts");
        thread.join().expect("it does not panic")
    })
}

/// Whether one of the tests that are left out, in a process of its own, ends that process.
fn ends_its_process(test: &str) -> bool {
    let itself = std::env::current_exe().expect("a test has a program");
    let test = format!("differences::{test}");
    let mut run = Command::new(itself);
    let ended = run.args(["--ignored", "--exact", &test]).output();
    // ended by a signal it has no code
    ended.expect("it runs").status.code().is_none()
}

const TEXTS: usize = 15_000;
const TAGS: usize = 27_000;

#[test]
fn texts_of_a_page_nested_deep() {
    let page = b"<>a".repeat(TEXTS);
    let text = on_a_small_stack(|| Both::read(&page).ours().text(0, TEXTS));
    assert_eq!(text, Ok(vec![b'a'; TEXTS]));
    assert!(ends_its_process("tl_texts_nested_deep"));
}

#[test]
#[ignore = "exhausts the stack; run apart"]
fn tl_texts_nested_deep() {
    let page = b"<>a".repeat(TEXTS);
    on_a_small_stack(|| TlPage::read(as_str(&page)).text(0));
}

#[test]
fn range_of_a_page_nested_deep() {
    let page = b"<>".repeat(TAGS);
    let range = on_a_small_stack(|| Both::read(&page).ours().range(0));
    assert_eq!(range, Ok(Some((1, TAGS - 1))));
    // built with optimization tl needs less
    assert!(!cfg!(debug_assertions) || ends_its_process("tl_range_nested_deep"));
}

#[test]
#[ignore = "exhausts the stack; run apart"]
fn tl_range_nested_deep() {
    let page = b"<>".repeat(TAGS);
    on_a_small_stack(|| TlPage::read(as_str(&page)).range(0));
}
