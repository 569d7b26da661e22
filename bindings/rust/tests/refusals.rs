//! The refusals of document 01, by their examples; and through `sys`, that a refused call leaves zeros in all that was
//! lent to it to be written.

mod common;

use common::{below, class, id, query, Lent, FULL, VIEWS};
use tl_rattle::{
    calls, parse, parse_into_with, parse_query_selector, parse_with, sys, words_for, Dom, Handle,
    Manner, Profile, Refusal, View, HEADER_WORDS, MAX_PAGE,
};

const TL: &Profile = &Profile::TL;

#[test]
fn the_examples() {
    let long = "a".repeat(MAX_PAGE + 1);
    assert_eq!(parse(&long).err(), Some(Refusal::PageTooLong));
    let mut table = [7; HEADER_WORDS];
    let said = calls::parse(TL, b"a", &mut table);
    let zeros = [0; HEADER_WORDS];
    assert_eq!((said, table), (Err(Refusal::TableTooSmall), zeros));
    let mut table = [0; words_for(1)];
    table[0] = 1;
    let said = calls::range(TL, b"a", &table, 0);
    assert_eq!(said, Err(Refusal::TableNotSound));
    let said = Dom::from_table("a", &table).err();
    assert_eq!(said, Some(Refusal::TableNotSound));
    let dom = parse("a").unwrap();
    assert_eq!(dom.range(Handle::new(0)), Err(Refusal::NotATag));
    let long = "a".repeat(129);
    let said = parse_query_selector(&long);
    assert_eq!(said, Err(Refusal::SelectorTooLong));
    assert_eq!(dom.query_selector(&long), Err(Refusal::SelectorTooLong));
    let said = parse_query_selector("a,");
    assert_eq!(said, Err(Refusal::SelectorNotRead));
    assert_eq!(dom.query_selector("a,"), Err(Refusal::SelectorNotRead));
    let dom = parse("<p>").unwrap();
    let said = calls::query_selector(TL, dom.page(), dom.table(), View::All, b"p", &mut []);
    assert_eq!(said, Err(Refusal::BufferTooShort));
}

#[test]
fn said_in_words() {
    let refusal: Box<dyn std::error::Error> = Box::new(Refusal::NotATag);
    assert_eq!(refusal.to_string(), "handle is no tag's");
    let words: Vec<String> = Refusal::ALL.iter().map(|r| r.to_string()).collect();
    assert_eq!(
        words,
        [
            "page over the profile's limit",
            "table too small for the page",
            "table not sound for the page",
            "handle is no tag's",
            "selector over 128 bytes",
            "selector cannot be read",
            "answer longer than the buffer",
            "profile outside its limits",
        ]
    );
}

#[test]
fn any_words_as_a_table() {
    let page = b"a";
    let mut one = [0; words_for(1)];
    one[0] = 1;
    let header = [1, 0, 1, 8, 9, 0, 0, 0];
    let (short, zeros) = ([0; HEADER_WORDS - 1], [0; HEADER_WORDS]);
    let tables: [&[u32]; 6] = [&[], &short, &zeros, &one, &header, &[u32::MAX; 40]];
    let refused = Refusal::TableNotSound;
    for table in tables {
        assert_eq!(calls::check(TL, page, table), Err(refused));
        assert_eq!(Dom::from_table(page, table).err(), Some(refused));
        assert_eq!(calls::range(TL, page, table, 0), Err(refused));
        assert_eq!(calls::attribute(TL, page, table, 0, b"k"), Err(refused));
        let said = calls::attribute_or(TL, page, table, 0, b"k", b"XNYS");
        assert_eq!(said, Err(refused));
        let mut out = [7; 2];
        let said = calls::inner_text(TL, page, table, 0, &mut out);
        assert_eq!((said, out), (Err(refused), [0; 2]));
        for view in [View::All, View::Finished] {
            lookups_refused(table, view);
        }
    }
}

/// Each lookup that has a view, in any words as the table of a page.
fn lookups_refused(table: &[u32], view: View) {
    let (page, refused) = (b"a", Refusal::TableNotSound);
    for manner in [Manner::Scan, Manner::Closed] {
        let said = calls::get_element_by_id(TL, page, table, manner, view, b"i");
        assert_eq!(said, Err(refused));
        let mut out = [7; 2];
        let said = calls::get_elements_by_class_name(TL, page, table, manner, view, b"c", &mut out);
        assert_eq!((said, out), (Err(refused), [0; 2]));
    }
    let mut out = [7; 2];
    let said = calls::query_selector(TL, page, table, view, b"a,", &mut out);
    assert_eq!((said, out), (Err(refused), [0; 2]));
    let mut out = [7; 2];
    let said = calls::query_selector_below(TL, page, table, 0, view, b"a,", &mut out);
    assert_eq!((said, out), (Err(refused), [0; 2]));
}

impl Lent {
    /// Refused as 14, as 1, as 3, and as 4 at handle 1, each by every call that can be. What is refused as 14 would be
    /// refused as 1 under another profile, and what is refused as 1 or 14 has a table that is not sound.
    fn refused() -> [(u32, Lent); 4] {
        let read = Lent::read("<p>a");
        let mut unsound = Lent::read("<p>a");
        unsound.table[HEADER_WORDS + 7] = 2;
        let long = |profile| Lent {
            profile,
            page: vec![b'a'; MAX_PAGE + 1],
            table: unsound.table.clone(),
        };
        let [over_all, over_tl] = [long(no_limit()), long(Profile::TL)];
        [(14, over_all), (1, over_tl), (3, unsound), (4, read)]
    }
}

/// tl's profile with other bytes at these places.
fn altered(changes: &[(usize, u8)]) -> Profile {
    let mut bytes = Profile::TL.to_bytes();
    for (place, byte) in changes {
        bytes[*place] = *byte;
    }
    Profile::from_bytes(&bytes)
}

/// tl's profile with a limit of 0, which is not fine.
fn no_limit() -> Profile {
    altered(&[(2, 0)])
}

/// The header's word for the words in a row.
const WORDS_IN_A_ROW: usize = 4;

/// A row's word for the node's end.
const END: usize = 2;

/// A row's word for how a tag ended.
const ENDED: usize = 8;

/// What is said of the table of a page once the word at a place, which was `from`, is `to`. The table was accepted
/// before, so that nothing but this word can be the reason.
fn with_one_changed(page: &str, place: usize, from: u32, to: u32) -> Result<(), Refusal> {
    let lent = Lent::read(page);
    let (profile, page, mut table) = (lent.profile, lent.page, lent.table);
    assert_eq!(calls::check(&profile, &page, &table), Ok(()));
    assert_eq!(table[place], from);
    table[place] = to;
    calls::check(&profile, &page, &table)
}

/// The same of a word of the first row.
fn with_row_changed(page: &str, word: usize, from: u32, to: u32) -> Result<(), Refusal> {
    with_one_changed(page, HEADER_WORDS + word, from, to)
}

const NOT_SOUND: Result<(), Refusal> = Err(Refusal::TableNotSound);

#[test]
fn no_tag_ended_in_a_fifth_way() {
    for (page, from) in [("<p>", 0), ("<p></p>", 1), ("<p></p", 2), ("<br>", 3)] {
        for to in [4, u32::MAX] {
            let said = with_row_changed(page, ENDED, from, to);
            assert_eq!(said, NOT_SOUND, "{page} {to}");
        }
    }
}

#[test]
fn a_text_or_comment_that_ended_as_a_tag() {
    // word 5 of each is 0: the end of the first two would suit 1 and 2, that of the empty comment 3
    for page in ["a", "<!--a-->", "<!---->"] {
        for to in 1..=3 {
            let said = with_row_changed(page, ENDED, 0, to);
            assert_eq!(said, NOT_SOUND, "{page} {to}");
        }
    }
}

#[test]
fn a_tag_that_is_not_closed_ends_where_it_opened() {
    for (page, from) in [("<p></p>", 1), ("<p></p", 2)] {
        for to in [0, 3] {
            let said = with_row_changed(page, ENDED, from, to);
            assert_eq!(said, NOT_SOUND, "{page} {to}");
        }
    }
    assert_eq!(with_row_changed("<p>x", END, 3, 4), NOT_SOUND);
    assert_eq!(with_row_changed("<br>x", END, 4, 5), NOT_SOUND);
}

#[test]
fn a_closed_tag_ends_behind_its_opening() {
    for (page, from) in [("<p>", 0), ("<br>", 3)] {
        for to in [1, 2] {
            let said = with_row_changed(page, ENDED, from, to);
            assert_eq!(said, NOT_SOUND, "{page} {to}");
        }
    }
    assert_eq!(with_row_changed("<p></p>", END, 7, 3), NOT_SOUND);
    assert_eq!(with_row_changed("<p></p", END, 6, 3), NOT_SOUND);
}

#[test]
fn a_tag_that_was_never_open_holds_nothing() {
    assert_eq!(with_row_changed("<p>x", ENDED, 0, 3), NOT_SOUND);
    assert_eq!(with_row_changed("<p><q>", ENDED, 0, 3), NOT_SOUND);
}

#[test]
fn another_number_of_words_in_a_row() {
    for page in ["", "a", "<p>x"] {
        let said = with_one_changed(page, WORDS_IN_A_ROW, 9, 8);
        assert_eq!(said, NOT_SOUND, "{page}");
    }
}

#[test]
fn what_the_places_leave_open_is_sound() {
    assert_eq!(with_row_changed("<p>", ENDED, 0, 3), Ok(()));
    assert_eq!(with_row_changed("<br>", ENDED, 3, 0), Ok(()));
    assert_eq!(with_row_changed("<p></p>", ENDED, 1, 2), Ok(()));
    assert_eq!(with_row_changed("<p></p", ENDED, 2, 1), Ok(()));
}

fn reading(profile: &Profile, page: &[u8], table: &mut [u32]) -> (u32, usize) {
    let mut count = FULL;
    // SAFETY: a profile, slices with their lengths, and a count of this function's own
    let said = unsafe {
        sys::tl_parse(
            profile.as_raw(),
            page.as_ptr(),
            page.len(),
            table.as_mut_ptr(),
            table.len(),
            &mut count,
        )
    };
    (said, count)
}

#[test]
fn a_reading_leaves_zeros() {
    let long = vec![b'a'; MAX_PAGE + 1];
    let no_limit = no_limit();
    let cases: [(u32, &Profile, &[u8], usize); 10] = [
        (14, &no_limit, b"a", words_for(3)),
        (14, &no_limit, b"", words_for(3)),
        (14, &no_limit, &long, words_for(3)),
        (14, &no_limit, &long, 0),
        (1, TL, &long, words_for(3)),
        (1, TL, &long, 0),
        (2, TL, b"a<>a", words_for(3) - 1),
        (2, TL, b"a<>a", words_for(2)),
        (2, TL, b"", HEADER_WORDS - 1),
        (2, TL, b"", 0),
    ];
    for (number, profile, page, words) in cases {
        let mut table = vec![7; words];
        assert_eq!(reading(profile, page, &mut table), (number, 0));
        assert_eq!(table, vec![0; words]);
    }
}

fn range(lent: &Lent, handle: usize) -> (u32, [usize; 3]) {
    let mut answer = [FULL; 3];
    // SAFETY: a profile, slices with their lengths, and an answer of three
    let said = unsafe {
        sys::tl_range(
            lent.profile.as_raw(),
            lent.page.as_ptr(),
            lent.page.len(),
            lent.table.as_ptr(),
            lent.table.len(),
            handle,
            answer.as_mut_ptr(),
        )
    };
    (said, answer)
}

fn attribute(lent: &Lent, handle: usize, name: &[u8]) -> (u32, [usize; 3]) {
    let mut answer = [FULL; 3];
    // SAFETY: a profile, slices with their lengths, and an answer of three
    let said = unsafe {
        sys::tl_attribute(
            lent.profile.as_raw(),
            lent.page.as_ptr(),
            lent.page.len(),
            lent.table.as_ptr(),
            lent.table.len(),
            handle,
            name.as_ptr(),
            name.len(),
            answer.as_mut_ptr(),
        )
    };
    (said, answer)
}

#[test]
fn a_range_and_an_attribute_leave_zeros() {
    for (number, lent) in Lent::refused() {
        assert_eq!(range(&lent, 1), (number, [0; 3]));
        assert_eq!(attribute(&lent, 1, b"k"), (number, [0; 3]));
    }
}

/// 14, 1, 3 and 4, and in this order, since each of the first three has the reasons for those behind it too.
#[test]
fn a_refusal_hands_no_fallback_back() {
    for (number, lent) in Lent::refused() {
        let (profile, page, table) = (&lent.profile, &lent.page, &lent.table);
        for fallback in [b"", &b"XNYS"[..], page] {
            let said = calls::attribute_or(profile, page, table, 1, b"k", fallback);
            assert_eq!(said.map_err(Refusal::number), Err(number));
        }
    }
}

fn text(lent: &Lent, handle: usize, out: &mut [u8]) -> (u32, usize) {
    let mut count = FULL;
    // SAFETY: a profile, slices with their lengths, and a count of this function's own
    let said = unsafe {
        sys::tl_inner_text(
            lent.profile.as_raw(),
            lent.page.as_ptr(),
            lent.page.len(),
            lent.table.as_ptr(),
            lent.table.len(),
            handle,
            out.as_mut_ptr(),
            out.len(),
            &mut count,
        )
    };
    (said, count)
}

#[test]
fn a_text_leaves_zeros() {
    for (number, lent) in Lent::refused() {
        let mut out = [7; 5];
        assert_eq!(text(&lent, 1, &mut out), (number, 0));
        assert_eq!(out, [0; 5]);
    }
    let lent = Lent::read("<p>abc");
    for handle in [1, 2, usize::MAX] {
        let mut out = [7; 5];
        assert_eq!(text(&lent, handle, &mut out), (4, 0));
        assert_eq!(out, [0; 5]);
    }
    let mut out = [7; 2];
    assert_eq!(text(&lent, 0, &mut out), (7, 0));
    assert_eq!(out, [0; 2]);
    // accepted: the rest stays
    let mut out = [7; 5];
    assert_eq!(text(&lent, 0, &mut out), (0, 3));
    assert_eq!(&out, b"abc\x07\x07");
}

#[test]
fn an_id_leaves_zeros() {
    for (number, lent) in Lent::refused() {
        if number == 4 {
            continue;
        }
        for manner in [sys::TL_SCAN, sys::TL_CLOSED, u32::MAX] {
            for view in VIEWS {
                assert_eq!(id(&lent, manner, view, b"i"), (number, [0; 2]));
            }
        }
    }
}

#[test]
fn a_class_leaves_zeros() {
    for (number, lent) in Lent::refused() {
        if number == 4 {
            continue;
        }
        for manner in [sys::TL_SCAN, sys::TL_CLOSED, u32::MAX] {
            for view in VIEWS {
                let mut out = [7; 3];
                assert_eq!(class(&lent, manner, view, b"c", &mut out), (number, 0));
                assert_eq!(out, [0; 3]);
            }
        }
    }
}

/// All tags are finished here, so the views have the same finds.
#[test]
fn a_class_with_too_little_room_leaves_zeros() {
    let lent = Lent::read("<p class='c d c'><q class=c></q></p>");
    for view in VIEWS {
        let mut out = [7; 1];
        assert_eq!(class(&lent, sys::TL_SCAN, view, b"c", &mut out), (7, 0));
        assert_eq!(out, [0; 1]);
        let mut out = [7; 2];
        assert_eq!(class(&lent, sys::TL_CLOSED, view, b"c", &mut out), (7, 0));
        assert_eq!(out, [0; 2]);
        let mut out = [7; 3];
        assert_eq!(class(&lent, sys::TL_SCAN, view, b"c", &mut out), (0, 2));
        assert_eq!(out, [0, 1, 7]);
        let mut out = [7; 4];
        assert_eq!(class(&lent, sys::TL_CLOSED, view, b"c", &mut out), (0, 3));
        assert_eq!(out, [1, 0, 0, 7]);
    }
}

fn pieces(selector: &[u8], out: &mut [u32]) -> (u32, usize) {
    let mut count = FULL;
    // SAFETY: slices with their lengths, and a count of this function's own
    let said = unsafe {
        sys::tl_parse_query_selector(
            selector.as_ptr(),
            selector.len(),
            out.as_mut_ptr(),
            out.len(),
            &mut count,
        )
    };
    (said, count)
}

#[test]
fn a_selector_leaves_zeros() {
    let unread: [&[u8]; 5] = [b"", b"a,", b"[k=\"x y\"]", b"!", b"\xff"];
    let long = [b'a'; 129];
    let cases = unread.map(|selector| (6, selector));
    for (number, selector) in cases.into_iter().chain([(5, &long[..])]) {
        let mut out = [7; 12];
        assert_eq!(pieces(selector, &mut out), (number, 0));
        assert_eq!(out, [0; 12]);
    }
    let mut out = [7; 11];
    assert_eq!(pieces(b"a.b", &mut out), (7, 0));
    assert_eq!(out, [0; 11]);
    let mut out = [7; 13];
    assert_eq!(pieces(b"a.b", &mut out), (0, 2));
    assert_eq!(out, [1, 0, 1, 0, 0, 1, 3, 2, 3, 0, 0, 0, 7]);
}

#[test]
fn a_query_leaves_zeros() {
    for view in VIEWS {
        for (number, lent) in Lent::refused() {
            queries_refused(number, &lent, view);
        }
    }
    // too little room, in any view: each `q` is finished
    let lent = Lent::read("<p><q><q></q></q>");
    for view in VIEWS {
        let mut out = [7; 1];
        assert_eq!(query(&lent, view, b"q", &mut out), (7, 0));
        assert_eq!(out, [0; 1]);
        let mut out = [7; 1];
        assert_eq!(below(&lent, 0, view, b"q", &mut out), (7, 0));
        assert_eq!(out, [0; 1]);
        // accepted: the rest stays
        let mut out = [7; 3];
        assert_eq!(query(&lent, view, b"q", &mut out), (0, 2));
        assert_eq!(out, [1, 2, 7]);
        let mut out = [7; 3];
        assert_eq!(below(&lent, 1, view, b"q", &mut out), (0, 1));
        assert_eq!(out, [2, 7, 7]);
    }
}

/// Queries below handle 1, and those over the page unless the number is 4: they are refused and leave zeros.
fn queries_refused(number: u32, lent: &Lent, view: u32) {
    // whatever else would be refused later
    for selector in [&b"a"[..], b"a,", &[b'a'; 129]] {
        let mut out = [7; 3];
        assert_eq!(below(lent, 1, view, selector, &mut out), (number, 0));
        assert_eq!(out, [0; 3]);
        if number == 4 {
            continue;
        }
        let mut out = [7; 3];
        assert_eq!(query(lent, view, selector, &mut out), (number, 0));
        assert_eq!(out, [0; 3]);
    }
}

#[test]
fn a_query_by_a_selector_that_is_refused_leaves_zeros() {
    let lent = Lent::read("<p><q><q>");
    for (number, selector) in [(5, &[b'a'; 129][..]), (6, b"a,")] {
        for view in VIEWS {
            let mut out = [7; 3];
            assert_eq!(query(&lent, view, selector, &mut out), (number, 0));
            assert_eq!(out, [0; 3]);
            let mut out = [7; 3];
            assert_eq!(below(&lent, 0, view, selector, &mut out), (number, 0));
            assert_eq!(out, [0; 3]);
        }
    }
}

fn attributes(lent: &Lent, handles: &[u32], name: &[u8], out: &mut [u32]) -> (u32, usize) {
    let mut count = FULL;
    // SAFETY: a profile, slices with their lengths, and a count of this function's own
    let said = unsafe {
        sys::tl_attributes(
            lent.profile.as_raw(),
            lent.page.as_ptr(),
            lent.page.len(),
            lent.table.as_ptr(),
            lent.table.len(),
            handles.as_ptr(),
            handles.len(),
            name.as_ptr(),
            name.len(),
            out.as_mut_ptr(),
            out.len(),
            &mut count,
        )
    };
    (said, count)
}

/// For the two names `k` and `j`.
fn attributes_for_names(lent: &Lent, handles: &[u32], out: &mut [u32]) -> (u32, usize) {
    let (names, ends) = (b"kj", [1, 2]);
    let mut count = FULL;
    // SAFETY: a profile, slices with their lengths, and a count of this function's own
    let said = unsafe {
        sys::tl_attributes_for_names(
            lent.profile.as_raw(),
            lent.page.as_ptr(),
            lent.page.len(),
            lent.table.as_ptr(),
            lent.table.len(),
            handles.as_ptr(),
            handles.len(),
            names.as_ptr(),
            names.len(),
            ends.as_ptr(),
            ends.len(),
            out.as_mut_ptr(),
            out.len(),
            &mut count,
        )
    };
    (said, count)
}

fn texts(lent: &Lent, handles: &[u32], ends: &mut [usize], out: &mut [u8]) -> (u32, usize) {
    let mut count = FULL;
    // SAFETY: a profile, slices with their lengths, and a count of this function's own
    let said = unsafe {
        sys::tl_inner_texts(
            lent.profile.as_raw(),
            lent.page.as_ptr(),
            lent.page.len(),
            lent.table.as_ptr(),
            lent.table.len(),
            handles.as_ptr(),
            handles.len(),
            ends.as_mut_ptr(),
            ends.len(),
            out.as_mut_ptr(),
            out.len(),
            &mut count,
        )
    };
    (said, count)
}

/// What the calls on a list say, each of which must refuse and leave zeros.
fn lists_refused(lent: &Lent, handles: &[u32]) -> [u32; 3] {
    let (mut few, mut many) = ([7; 7], [7; 13]);
    let (mut ends, mut bytes) = ([7; 3], [7; 5]);
    let said = [
        attributes(lent, handles, b"k", &mut few),
        attributes_for_names(lent, handles, &mut many),
        texts(lent, handles, &mut ends, &mut bytes),
    ];
    assert_eq!((few, many), ([0; 7], [0; 13]));
    assert_eq!((ends, bytes), ([0; 3], [0; 5]));
    said.map(|(number, count)| {
        assert_eq!(count, 0);
        number
    })
}

#[test]
fn a_list_leaves_zeros() {
    for (number, lent) in Lent::refused() {
        // handle 1 alone, and behind a tag's; and no handle at all
        assert_eq!(lists_refused(&lent, &[1]), [number; 3]);
        assert_eq!(lists_refused(&lent, &[0, 1]), [number; 3]);
        if number != 4 {
            assert_eq!(lists_refused(&lent, &[]), [number; 3]);
        }
    }
    let lent = Lent::read("<p k=v>abcdef<q>");
    // 7: three tags, for which each buffer is too short by one entry or more
    assert_eq!(lists_refused(&lent, &[0, 0, 2]), [7; 3]);
    // accepted: the rest stays
    let mut out = [7; 7];
    assert_eq!(attributes(&lent, &[0, 2], b"k", &mut out), (0, 2));
    assert_eq!(out, [2, 5, 6, 0, 0, 0, 7]);
    let mut out = [7; 7];
    assert_eq!(attributes_for_names(&lent, &[0], &mut out), (0, 1));
    assert_eq!(out, [2, 5, 6, 0, 0, 0, 7]);
    let (mut ends, mut out) = ([7; 3], [7; 7]);
    assert_eq!(texts(&lent, &[0, 2], &mut ends, &mut out), (0, 2));
    assert_eq!((ends, &out), ([6, 6, 7], b"abcdef\x07"));
}

/// What every call on the page says, each of which must refuse and leave zeros. Those with a view are given this one.
fn all_refused(lent: &Lent, view: u32) -> [u32; 11] {
    let mut table = [7; words_for(5)];
    let (read, count) = reading(&lent.profile, &lent.page, &mut table);
    assert_eq!((count, table), (0, [0; words_for(5)]));
    let (of_range, answer) = range(lent, 0);
    assert_eq!(answer, [0; 3]);
    let (of_attribute, answer) = attribute(lent, 0, b"k");
    assert_eq!(answer, [0; 3]);
    let (of_id, answer) = id(lent, sys::TL_SCAN, view, b"i");
    assert_eq!(answer, [0; 2]);
    let mut bytes = [7; 5];
    let (of_text, count) = text(lent, 0, &mut bytes);
    assert_eq!((count, bytes), (0, [0; 5]));
    let mut words = [[7; 3]; 3];
    let [first, second, third] = &mut words;
    let said = [
        class(lent, sys::TL_CLOSED, view, b"c", first),
        query(lent, view, b"p", second),
        below(lent, 0, view, b"p", third),
    ];
    assert_eq!(words, [[0; 3]; 3]);
    let [of_class, of_query, of_below] = said.map(|(number, count)| {
        assert_eq!(count, 0);
        number
    });
    let [first, second, third] = lists_refused(lent, &[0]);
    [
        read,
        of_range,
        of_attribute,
        of_id,
        of_text,
        of_class,
        of_query,
        of_below,
        first,
        second,
        third,
    ]
}

/// The place of a byte of a void name.
fn in_name(name: usize, byte: usize) -> usize {
    8 + 16 * name + byte
}

/// tl's profile with a void name of 16 bytes behind the others.
fn with_name(name: &[u8; 16]) -> Profile {
    let places = name.iter().enumerate();
    let changes: Vec<_> = places.map(|(at, byte)| (in_name(15, at), *byte)).collect();
    altered(&changes)
}

/// Profiles that are not fine, each for one reason.
fn not_fine() -> Vec<Profile> {
    // limits of 0; 65,537; 65,536 more than tl's; 2 to the 24th and tl's
    let limits = [(2, 0), (0, 1), (2, 2), (3, 1)];
    let whites = (4..8).flat_map(|place| [33, b'<', 128, 255].map(|byte| (place, byte)));
    let begins = (0..24).flat_map(|name| [b' ', b'.', 128, 255].map(|b| (in_name(name, 0), b)));
    // tl's names have less than 15 bytes, and the last nine none
    let goes_on = (0..24).map(|name| (in_name(name, 15), b'a'));
    let behind_nothing = (15..24).map(|name| (in_name(name, 1), b'a'));
    let one = limits.into_iter().chain(whites).chain(begins);
    let one = one.chain(goes_on).chain(behind_nothing);
    let mut profiles: Vec<Profile> = one.map(|change| altered(&[change])).collect();
    let names = [
        b"abcdefghijklmno.",
        b"abcdefgh jklmnop",
        b"abcdefgh\0jklmnop",
    ];
    profiles.extend(names.map(with_name));
    profiles
}

#[test]
fn a_profile_outside_its_limits() {
    let mut read = Lent::read("<p k=v>abc</p>");
    let mut long = Lent::read("<p k=v>abc</p>");
    long.page = vec![b'a'; MAX_PAGE + 1];
    for profile in not_fine() {
        assert!(!profile.is_fine(), "{profile:?}");
        read.profile = profile;
        // before 1, and so before all others
        long.profile = profile;
        for view in VIEWS {
            assert_eq!(all_refused(&read, view), [14; 11], "{profile:?}");
            assert_eq!(all_refused(&long, view), [14; 11], "{profile:?}");
        }
        let refused = Some(Refusal::ProfileNotFine);
        assert_eq!(parse_with(&profile, "a").err(), refused);
        let mut table = [7; words_for(1)];
        assert_eq!(parse_into_with(&profile, "a", &mut table).err(), refused);
        assert_eq!(table, [0; words_for(1)]);
        let dom = Dom::from_table_with(&profile, &read.page, &read.table);
        assert_eq!(dom.err(), refused);
    }
    // the nearest to them that are fine
    let fine = [
        altered(&[]),
        altered(&[(2, 0), (0, 1)]),
        altered(&[(6, 32), (7, 32)]),
        altered(&[(4, 0), (5, 0)]),
        with_name(b"abcdefgh-_:+/019"),
    ];
    for profile in fine {
        assert!(profile.is_fine(), "{profile:?}");
    }
}

#[test]
fn a_page_over_a_profiles_limit() {
    let mut lent = Lent::read("<p k=v>abc</p>");
    let length = lent.page.len();
    lent.profile = Profile::TL.with_limit(length - 1).unwrap();
    for view in VIEWS {
        assert_eq!(all_refused(&lent, view), [1; 11]);
    }
    lent.profile = Profile::TL.with_limit(length).unwrap();
    assert_eq!(range(&lent, 0), (0, [1, 1, 1]));
    for limit in [1, 2, 3, 255, 256, 257, MAX_PAGE - 1, MAX_PAGE] {
        let profile = Profile::TL.with_limit(limit).unwrap();
        let mut table = [7; words_for(1)];
        let page = vec![b'a'; limit + 1];
        assert_eq!(reading(&profile, &page, &mut table), (1, 0), "{limit}");
        assert_eq!(table, [0; words_for(1)]);
        assert_eq!(reading(&profile, &page[1..], &mut table), (0, 1), "{limit}");
        assert_eq!(reading(&profile, b"", &mut table), (0, 0), "{limit}");
    }
}

#[test]
fn tried_in_the_order_of_their_numbers() {
    let long = [b'a'; 129];
    let [(_, not_fine), (_, all), (_, unsound), _] = Lent::refused();
    let read = Lent::read("<p><q></q>");
    for view in VIEWS {
        let said = |lent, handle, selector| below(lent, handle, view, selector, &mut []).0;
        assert_eq!(said(&not_fine, 9, &long), 14);
        assert_eq!(said(&all, 9, &long), 1);
        assert_eq!(said(&unsound, 9, &long), 3);
        assert_eq!(said(&read, 9, &long), 4);
        assert_eq!(said(&read, 0, &long), 5);
        assert_eq!(said(&read, 0, b"q,"), 6);
        assert_eq!(said(&read, 0, b"q"), 7);
        assert_eq!(said(&read, 1, b"q"), 0);
    }
}
