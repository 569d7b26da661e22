//! The attribute lookup with a fallback: the value's part of the page, or the whole fallback, and which of the three held.

use tl_rattle::calls::{self, HeldAt};
use tl_rattle::{parse, parse_with, Dom, Handle, Held, Profile, Refusal};

const CELL: Handle = Handle::new(0);

/// What is handed back for a name of a page's first tag. The other lookups must say the same of what it holds, and the bytes
/// must lie where these say: in the page, or in the fallback.
fn asked<'f>(dom: &Dom<'f>, name: &[u8], fallback: &'f [u8]) -> (&'f [u8], Held<'f>) {
    let (part, held) = dom.attribute_or(CELL, name, fallback).unwrap();
    assert_eq!(dom.attribute(CELL, name), Ok(held));
    assert_eq!(dom.attributes(&[CELL], name), Ok(vec![held]));
    let (profile, page, table) = (dom.profile(), dom.page(), dom.table());
    let at = calls::attribute(profile, page, table, 0, name).unwrap();
    let said = calls::attribute_or(profile, page, table, 0, name, fallback);
    let place = match (held, at) {
        (Held::Absent, HeldAt::Absent) | (Held::Bare, HeldAt::Bare) => fallback,
        (Held::Value(_), HeldAt::Value(start, end)) => &page[start..end],
        _ => panic!("{held:?} and {at:?}"),
    };
    let (lent, lent_at) = said.unwrap();
    assert_eq!(lent_at, at);
    for bytes in [part, lent, held.value().unwrap_or(fallback)] {
        assert!(std::ptr::eq(bytes, place));
    }
    (part, held)
}

/// The same of a page that is read as tl reads it.
fn of<'f>(page: &'f str, name: &str, fallback: &'f str) -> (&'f [u8], Held<'f>) {
    let dom = parse(page).unwrap();
    asked(&dom, name.as_bytes(), fallback.as_bytes())
}

const ABSENT: (&[u8], Held) = (b"XNYS", Held::Absent);
const BARE: (&[u8], Held) = (b"XNYS", Held::Bare);
const EMPTY: (&[u8], Held) = (b"", Held::Value(b""));
const XLON: (&[u8], Held) = (b"XLON", Held::Value(b"XLON"));

#[test]
fn a_value() {
    for page in [
        "<td data-venue=XLON>",
        "<td data-venue='XLON'>",
        "<td data-venue = \"XLON\" late>",
        "<td k=1 data-venue=XLON/>",
    ] {
        assert_eq!(of(page, "data-venue", "XNYS"), XLON, "{page}");
    }
    // of the empty name
    assert_eq!(of("<td =XLON>", "", "XNYS"), XLON);
}

#[test]
fn absent() {
    for page in [
        "<td>",
        "<td/>",
        "<td data-venues=XLON>",
        "<td Data-Venue=XLON>",
        "<td><td data-venue=XLON>",
    ] {
        assert_eq!(of(page, "data-venue", "XNYS"), ABSENT, "{page}");
    }
    assert_eq!(of("<td k=1>", "", "XNYS"), ABSENT);
}

#[test]
fn without_a_value() {
    for page in ["<td k>", "<td k />", "<td j=1 k>", "<td k j=1>"] {
        assert_eq!(of(page, "k", "XNYS"), BARE, "{page}");
    }
    // a bare one takes the next one's first byte
    assert_eq!(of("<i b cd>", "d", "XNYS"), BARE);
    assert_eq!(of("<i b cd>", "cd", "XNYS"), ABSENT);
}

#[test]
fn an_empty_value_is_a_value() {
    for page in ["<td k=''>", "<td k=\"\" j>", "<td k=>", "<td k = />"] {
        assert_eq!(of(page, "k", "XNYS"), EMPTY, "{page}");
        assert_eq!(of(page, "k", ""), EMPTY, "{page}");
    }
    assert_eq!(of("<td id=''>", "id", "XNYS"), EMPTY);
    assert_eq!(of("<td class=>", "class", "XNYS"), EMPTY);
}

#[test]
fn an_id_or_class_without_a_value_is_absent() {
    for (page, name) in [
        ("<td id>", "id"),
        ("<td class>", "class"),
        ("<td k=1 id>", "id"),
        ("<td class id=a>", "class"),
    ] {
        assert_eq!(of(page, name, "XNYS"), ABSENT, "{page}");
    }
}

#[test]
fn of_a_repeated_name_one_counts() {
    let one = (&b"1"[..], Held::Value(b"1"));
    // the first
    assert_eq!(of("<td k=1 k=2>", "k", "XNYS"), one);
    assert_eq!(of("<td k=1 k>", "k", "XNYS"), one);
    assert_eq!(of("<td k='' k=1>", "k", "XNYS"), EMPTY);
    // a bare one takes the byte behind it, here the dash
    assert_eq!(of("<td k -k=1>", "k", "XNYS"), BARE);
    // of these two the last
    for name in ["id", "class"] {
        let said = |rest: &str| {
            let page = format!("<td {}>", rest.replace('k', name));
            let (part, held) = of(&page, name, "XNYS");
            (String::from_utf8(part.to_vec()).unwrap(), held.is_present())
        };
        assert_eq!(said("k=2 k=1"), ("1".into(), true));
        assert_eq!(said("k=1 k=''"), ("".into(), true));
        assert_eq!(said("k -k=1"), ("1".into(), true));
        assert_eq!(said("k=1 k"), ("XNYS".into(), false));
    }
}

/// With each fallback that can be mistaken for the page's bytes.
#[test]
fn any_fallback() {
    let page = "<td k=XLON e='' j>XLON</td>";
    let dom = parse(page).unwrap();
    let page = page.as_bytes();
    let value = &page[6..10];
    let fallbacks: [&[u8]; 9] = [
        b"",
        // equal to the value: outside of the page, the value itself, and another part of the page
        b"XLON",
        value,
        &page[18..22],
        // other parts of the page: no bytes, the value with more around it, all but an end; and the page itself
        &page[15..15],
        &page[5..11],
        &page[1..],
        &page[..page.len() - 1],
        page,
    ];
    assert_eq!(fallbacks[1..4], [value; 3]);
    for fallback in fallbacks {
        assert_eq!(asked(&dom, b"k", fallback), XLON);
        assert_eq!(asked(&dom, b"e", fallback), EMPTY);
        assert_eq!(asked(&dom, b"j", fallback), (fallback, Held::Bare));
        assert_eq!(asked(&dom, b"x", fallback), (fallback, Held::Absent));
    }
    // the name may be a part of the page too, or the fallback
    assert_eq!(asked(&dom, &page[4..5], &page[4..5]), XLON);
    assert_eq!(asked(&dom, &page[16..17], page), (page, Held::Bare));
    assert_eq!(asked(&dom, page, page), (page, Held::Absent));
}

#[test]
fn bytes_that_are_no_text() {
    let page = b"\xff<td k=\xc3\x28 \xff=1 j>";
    let dom = parse(page).unwrap();
    let cell = dom.query_selector("td").unwrap()[0];
    let fallback = b"\x00\xff\xfe\x80";
    let said = |name: &[u8]| dom.attribute_or(cell, name, fallback).unwrap();
    let value = &b"\xc3\x28"[..];
    assert_eq!(said(b"k"), (value, Held::Value(value)));
    assert_eq!(said(b"j"), (&fallback[..], Held::Bare));
    // a byte that no name has
    assert_eq!(said(b"\xff"), (&fallback[..], Held::Absent));
}

#[test]
fn what_holds_its_bytes_may_be_a_fallback() {
    let dom = parse("<td>").unwrap();
    let due = Ok((&b"XNYS"[..], Held::Absent));
    let (text, bytes) = (String::from("XNYS"), b"XNYS".to_vec());
    assert_eq!(dom.attribute_or(CELL, "k", "XNYS"), due);
    assert_eq!(dom.attribute_or(CELL, b"k", b"XNYS"), due);
    assert_eq!(dom.attribute_or(CELL, String::from("k"), &text), due);
    assert_eq!(dom.attribute_or(CELL, vec![b'k'], &bytes), due);
    assert_eq!(dom.attribute_or(CELL, &text, &bytes[..]), due);
}

/// The bytes are borrowed from the page and the fallback alone: neither from the `Dom` nor from the name.
fn venue<'f>(page: &'f str, fallback: &'f str) -> &'f [u8] {
    let name = String::from("data-venue");
    let said = parse(page).unwrap().attribute_or(CELL, &name, fallback);
    said.unwrap().0
}

#[test]
fn for_how_long_the_bytes_are_lent() {
    assert_eq!(venue("<td data-venue=XLON>", "XNYS"), b"XLON");
    assert_eq!(venue("<td>", "XNYS"), b"XNYS");
    let dom = parse("<td k=v>").unwrap();
    // what is held outlasts the fallback
    let held = {
        let fallback = String::from("XNYS");
        let (part, held) = dom.attribute_or(CELL, "k", &fallback).unwrap();
        assert_eq!(part, b"v");
        held
    };
    assert_eq!(held, Held::Value(b"v"));
}

/// A value ends where the profile's white bytes say.
#[test]
fn under_another_profile() {
    let tabs = Profile::TL.with_white("\t").unwrap();
    let (page, fallback) = ("<td\tk=1 2\tj\te=\t>", &b"XNYS"[..]);
    let dom = parse_with(&tabs, page).unwrap();
    let value = &b"1 2"[..];
    assert_eq!(asked(&dom, b"k", fallback), (value, Held::Value(value)));
    assert_eq!(asked(&dom, b"j", fallback), BARE);
    assert_eq!(asked(&dom, b"td", fallback), ABSENT);
}

#[test]
fn what_is_no_tag_hands_no_fallback_back() {
    let dom = parse("<td>a<!--b--></td>").unwrap();
    let refused = Err(Refusal::NotATag);
    for row in [1, 2, 3, u32::MAX] {
        let handle = Handle::new(row);
        assert_eq!(dom.attribute_or(handle, "k", "XNYS"), refused);
        assert_eq!(dom.attribute(handle, "k"), Err(Refusal::NotATag));
    }
    assert_eq!(dom.attribute_or(CELL, "k", "XNYS"), Ok(ABSENT));
}
