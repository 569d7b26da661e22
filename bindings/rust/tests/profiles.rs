//! Profiles: what can be in one, and what pages are read as under them, through the safe interface.

use tl_rattle::{
    calls, parse, parse_into_with, parse_with, sys, words_for, Dom, Ended, HTMLVersion, Handle,
    Held, Manner, Profile, ProfileError, Refusal, MAX_PAGE, ROW_WORDS,
};

/// tl's profile with other white bytes.
fn white(bytes: &[u8]) -> Profile {
    Profile::TL.with_white(bytes).unwrap()
}

/// tl's profile with other void names.
fn void(names: &[&str]) -> Profile {
    Profile::TL.with_void_names(names).unwrap()
}

/// What the first node, a tag, holds for an attribute name.
fn held<'a>(profile: &'a Profile, page: &'a str, name: &str) -> Held<'a> {
    let dom = parse_with(profile, page).unwrap();
    dom.attribute(Handle::new(0), name).unwrap()
}

/// How the first node, a tag, ended.
fn ended(profile: &Profile, page: &str) -> Option<Ended> {
    parse_with(profile, page).unwrap().nodes().next()?.ended()
}

// ---- what can be in a profile

#[test]
fn of_tl() {
    let names = "area base br col embed hr img input keygen link meta param source track wbr";
    let tl = Profile::default();
    assert_eq!(tl, Profile::TL);
    assert_eq!(tl.limit(), MAX_PAGE);
    assert!(tl.white().eq(*b" \n"));
    assert!(tl.void_names().eq(names.split(' ').map(str::as_bytes)));
    assert!(tl.is_fine());
    assert_eq!(parse("<p>").unwrap().profile(), &tl);
    // and step by step
    let made = Profile::from_raw(sys::tl_profile {
        limit: 1,
        white: [0; 4],
        void_names: [[0; 16]; 24],
    });
    let made = made.with_limit(MAX_PAGE).unwrap();
    let made = made.with_white(" \n").unwrap();
    assert_eq!(made.with_void_names(names.split(' ')), Ok(tl));
}

#[test]
fn limits() {
    for limit in [0, MAX_PAGE + 1, usize::MAX, 1 << 32] {
        let refused = Profile::TL.with_limit(limit);
        assert_eq!(refused, Err(ProfileError::Limit(limit)));
    }
    for limit in [1, 2, MAX_PAGE - 1, MAX_PAGE] {
        let profile = Profile::TL.with_limit(limit).unwrap();
        assert_eq!(profile.limit(), limit);
        assert!(profile.is_fine());
    }
}

/// The calls take every byte that a profile is made with, and no other in its place; but 0 there says that there is none.
#[test]
fn white_bytes() {
    for byte in 0..=255 {
        let mut raw = sys::TL_PROFILE_DEFAULT;
        raw.white[3] = byte;
        let raw = Profile::from_raw(raw);
        match Profile::TL.with_white([b' ', b'\n', byte]) {
            Ok(profile) => {
                assert!(profile.is_fine() && raw.is_fine());
                assert!(profile.white().eq([b' ', b'\n', byte]));
                assert!(raw.white().eq([b' ', b'\n', byte]));
            }
            Err(error) => {
                assert_eq!(error, ProfileError::White(byte));
                assert_eq!(raw.is_fine(), byte == 0);
            }
        }
    }
    let four = white(b"\t\n\r ");
    assert!(four.is_fine());
    let five = four.with_white("\t\n\x0c\r ");
    assert_eq!(five, Err(ProfileError::TooManyWhite));
    assert_eq!(four.with_white("").unwrap().white().count(), 0);
}

#[test]
fn bytes_of_names() {
    let mut allowed = 0;
    for byte in 0..=255 {
        for name in [[byte, b'a'], [b'a', byte]] {
            let mut raw = sys::TL_PROFILE_DEFAULT;
            raw.void_names[15][..2].copy_from_slice(&name);
            let raw = Profile::from_raw(raw);
            let made = Profile::TL.and_void_name(name);
            if made.is_err() {
                assert_eq!(made, Err(ProfileError::NameByte(15, byte)));
                // `a` and zeros is a name
                assert_eq!(raw.is_fine(), name == *b"a\0", "{byte}");
            } else {
                assert_eq!(made, Ok(raw));
                assert!(raw.is_fine(), "{byte}");
                allowed += 1;
            }
        }
    }
    assert_eq!(allowed, 2 * (10 + 26 + 26 + 5));
}

#[test]
fn lengths_and_numbers_of_names() {
    assert_eq!(
        Profile::TL.and_void_name(""),
        Err(ProfileError::NameEmpty(15))
    );
    for length in 1..=16 {
        let name = "n".repeat(length);
        let profile = Profile::TL.and_void_name(&name).unwrap();
        assert!(profile.is_fine());
        assert_eq!(profile.void_names().nth(15), Some(name.as_bytes()));
    }
    for length in [17, 18, 392] {
        let refused = Profile::TL.and_void_name("n".repeat(length));
        assert_eq!(refused, Err(ProfileError::NameTooLong(15)));
    }
    let most: Vec<String> = (1..=24).map(|number| format!("n{number}")).collect();
    let full = Profile::TL.with_void_names(&most).unwrap();
    assert!(full.is_fine());
    assert!(full.void_names().eq(most.iter().map(String::as_bytes)));
    let refused = Err(ProfileError::TooManyNames);
    assert_eq!(full.and_void_name("n25"), refused);
    assert_eq!(Profile::TL.with_void_names(["n"; 25]), refused);
    // no more of them are asked for
    assert_eq!(Profile::TL.with_void_names(std::iter::repeat("n")), refused);
    assert_eq!(
        Profile::TL.with_void_names(["a", "b", ""]),
        Err(ProfileError::NameEmpty(2))
    );
    assert_eq!(Profile::TL.without_void_names().void_names().count(), 0);
}

#[test]
fn errors_said_in_words() {
    let said = |error: ProfileError| -> String {
        let error: Box<dyn std::error::Error> = Box::new(error);
        error.to_string()
    };
    assert_eq!(
        said(ProfileError::Limit(0)),
        "limit 0 is not from 1 to 65,536"
    );
    assert_eq!(said(ProfileError::TooManyWhite), "more than 4 white bytes");
    assert_eq!(
        said(ProfileError::White(33)),
        "white byte 33 is not from 1 to 32"
    );
    assert_eq!(said(ProfileError::TooManyNames), "more than 24 void names");
    assert_eq!(said(ProfileError::NameEmpty(3)), "void name 3 is empty");
    assert_eq!(
        said(ProfileError::NameTooLong(3)),
        "void name 3 is over 16 bytes"
    );
    assert_eq!(
        said(ProfileError::NameByte(3, b'\n')),
        "void name 3 has '\\n', which no void name may have"
    );
}

#[test]
fn as_bytes_and_back() {
    let mut bytes = [0; Profile::SIZE];
    for (index, byte) in bytes.iter_mut().enumerate() {
        *byte = (index * 7 + index / 256) as u8;
    }
    let profile = Profile::from_bytes(&bytes);
    assert_eq!(profile.to_bytes(), bytes);
    assert_eq!(Profile::from_raw(*profile.as_raw()), profile);
    // the library has the limit's low byte first, as from_bytes does: of 1 and 256 only one page is too long
    let mut bytes = Profile::TL.to_bytes();
    bytes[..4].copy_from_slice(&[0, 1, 0, 0]);
    let profile = Profile::from_bytes(&bytes);
    assert_eq!(profile.limit(), 256);
    assert!(parse_with(&profile, &[b'a'; 256]).is_ok());
    assert!(parse_with(&profile, &[b'a'; 257]).is_err());
    let said = format!("{:?}", void(&["br"]));
    assert_eq!(
        said,
        "Profile { limit: 65536, white: [32, 10], void_names: [\"br\"] }"
    );
}

// ---- what is white

#[test]
fn a_tab_is_white() {
    let (tl, tabs, all) = (Profile::TL, white(b"\t"), white(b"\t\n "));
    let page = "<td\tk=1\tj = 2>";
    assert_eq!(held(&tabs, page, "k"), Held::Value(b"1"));
    // a space stands after the name as any other byte does
    assert_eq!(held(&tabs, page, "j"), Held::Bare);
    assert_eq!(held(&tl, page, "k"), Held::Value(b"1\tj"));
    assert_eq!(held(&tl, page, "j"), Held::Absent);
    assert_eq!(held(&all, page, "k"), Held::Value(b"1"));
    assert_eq!(held(&all, page, "j"), Held::Value(b"2"));
    // before a tag's name, and before and after a document type's
    let page = "<\tp><!doctype\thtml\t>";
    let dom = parse_with(&tabs, page).unwrap();
    assert_eq!(dom.nodes().next().unwrap().name(), Some(&b"p"[..]));
    assert_eq!(dom.version(), Some(HTMLVersion::HTML5));
    let dom = parse(page).unwrap();
    assert_eq!(dom.nodes().next().unwrap().name(), Some(&b""[..]));
    assert_eq!(dom.version(), None);
}

#[test]
fn an_unquoted_value_ends_at_the_profiles_white_bytes() {
    for byte in 1..=32 {
        let other = byte % 32 + 1;
        let (profile, of_other) = (white(&[byte]), white(&[other]));
        let (byte, other) = (char::from(byte), char::from(other));
        let page = format!("<p{byte}k=a{byte}b>");
        assert_eq!(held(&profile, &page, "k"), Held::Value(b"a"), "{page:?}");
        let page = format!("<p{other}k=a{byte}b>");
        let value = format!("a{byte}b");
        let whole = Held::Value(value.as_bytes());
        assert_eq!(held(&of_other, &page, "k"), whole, "{page:?}");
        // in quotes it runs on, and without them `/` and `>` end it under every profile
        let page = format!("<p{byte}k='a{byte}b'>");
        assert_eq!(held(&profile, &page, "k"), whole, "{page:?}");
        for page in ["<p k=a/>", "<p k=a>"] {
            assert_eq!(held(&profile, page, "k"), Held::Value(b"a"), "{page:?}");
        }
    }
}

#[test]
fn byte_0_is_not_white_for_an_unused_place() {
    let page = "<p k=a\0b>";
    for profile in [Profile::TL, white(b""), white(b"\t"), white(b" \n\t\r")] {
        assert_eq!(held(&profile, page, "k"), Held::Value(b"a\0b"));
        let dom = parse_with(&profile, "<\0p>").unwrap();
        assert_eq!(dom.nodes().next().unwrap().name(), Some(&b""[..]));
    }
}

#[test]
fn class_values_are_cut_at_the_five_bytes_still() {
    // with a space before it, of which a tag's attributes need not know whether it is white
    let page = "<p class='a\tb\nc\x0cd\re f\x0bg'></p>";
    for profile in [Profile::TL, white(b""), white(b"\x0b"), white(b"\x0b\t")] {
        let dom = parse_with(&profile, page).unwrap();
        let tag = vec![Handle::new(0)];
        for manner in [Manner::Scan, Manner::Closed] {
            let found = |class| dom.get_elements_by_class_name(manner, class).unwrap();
            for class in ["a", "b", "c", "d", "e", "f\x0bg"] {
                assert_eq!(found(class), tag, "{class}");
            }
            for class in ["f", "g", ""] {
                assert_eq!(found(class), [], "{class}");
            }
        }
        assert_eq!(dom.query_selector(".a.b.c.d.e"), Ok(tag.clone()));
        // `~=` cuts at Unicode's white space, where the vertical tab is one
        assert_eq!(dom.query_selector("[class~=g]"), Ok(tag));
    }
}

#[test]
fn a_selector_skips_space_alone() {
    let page = "<p><q>";
    for profile in [Profile::TL, white(b""), white(b"\t"), white(b"\t\n ")] {
        let dom = parse_with(&profile, page).unwrap();
        assert_eq!(dom.query_selector(" q , p ").unwrap().len(), 2);
        for selector in ["p\t,q", "p,\tq", "\tp", "p\n,q"] {
            let said = dom.query_selector(selector);
            assert_eq!(said, Err(Refusal::SelectorNotRead), "{selector:?}");
        }
    }
}

// ---- which names are void

#[test]
fn a_void_name_of_its_own() {
    let x = void(&["x"]);
    let never = Some(Ended::NeverOpened);
    let open = Some(Ended::Open);
    assert_eq!(ended(&x, "<x>a"), never);
    assert_eq!(ended(&x, "<x k=v>a"), never);
    for page in ["<X>a", "<xx>a", "<br>a", "<x/>a", "<>a", "</x><p>x"] {
        assert_eq!(ended(&x, page), open, "{page}");
    }
    assert_eq!(ended(&Profile::TL, "<x>a"), open);
    assert_eq!(ended(&Profile::TL, "<br>a"), never);
    // beside tl's; and with a `/`, which is a part of the name
    let more = Profile::TL.and_void_name("x").unwrap();
    let more = more.and_void_name("br/").unwrap();
    for page in ["<x>a", "<br>a", "<wbr>a", "<br/>a"] {
        assert_eq!(ended(&more, page), never, "{page}");
    }
    let dom = parse_with(&x, "<td>1<x>2</td>").unwrap();
    assert_eq!(dom.inner_text(Handle::new(0)), Ok(b"12".to_vec()));
    assert_eq!(dom.range(Handle::new(2)), Ok(None));
}

#[test]
fn no_void_name() {
    let none = Profile::TL.without_void_names();
    for name in Profile::TL.void_names() {
        let name = std::str::from_utf8(name).unwrap();
        let page = format!("<{name}>a</{name}>");
        assert_eq!(ended(&none, &page), Some(Ended::Closed), "{name}");
        let said = ended(&Profile::TL, &page);
        assert_eq!(said, Some(Ended::NeverOpened), "{name}");
        // a tag may still be without an end
        let page = format!("<{name} />a");
        assert_eq!(ended(&none, &page), Some(Ended::NeverOpened), "{name}");
    }
}

#[test]
fn the_empty_name_is_never_void() {
    let most: Vec<String> = (1..=24).map(|number| format!("n{number}")).collect();
    let full = Profile::TL.with_void_names(&most).unwrap();
    let one_place = Profile::TL.with_void_names(&most[1..]).unwrap();
    let none = Profile::TL.without_void_names();
    for profile in [Profile::TL, none, full, one_place] {
        assert_eq!(ended(&profile, "<>a"), Some(Ended::Open));
        assert_eq!(ended(&profile, "< >a"), Some(Ended::Open));
        assert_eq!(ended(&profile, "<>a</>"), Some(Ended::Closed));
    }
}

/// Each of 24 names is found, of every length and where they are much alike, and none that is nearly one.
#[test]
fn names_that_are_much_alike() {
    // the same length, first byte and last byte; in the middle another
    let alike = |length: usize| -> Vec<String> {
        let middles = (b'a'..=b'x').map(char::from);
        let name = |middle: char| format!("n{}n", middle.to_string().repeat(length - 2));
        middles.map(name).collect()
    };
    for length in 3..=16 {
        let names = alike(length);
        let profile = Profile::TL.with_void_names(&names).unwrap();
        for name in &names {
            let page = format!("<{name}>a");
            assert_eq!(ended(&profile, &page), Some(Ended::NeverOpened), "{name}");
            let short = &name[..length - 1];
            for near in [format!("{name}n"), short.into(), name.to_uppercase()] {
                let page = format!("<{near}>a");
                assert_eq!(ended(&profile, &page), Some(Ended::Open), "{near}");
            }
        }
        for other in [format!("n{}n", "y".repeat(length - 2)), "br".into()] {
            let page = format!("<{other}>a");
            assert_eq!(ended(&profile, &page), Some(Ended::Open), "{other}");
        }
    }
}

// ---- the limit

#[test]
fn a_limit_of_one() {
    let one = Profile::TL.with_limit(1).unwrap();
    assert_eq!(parse_with(&one, "").unwrap().len(), 0);
    assert_eq!(parse_with(&one, "a").unwrap().len(), 1);
    let refused = Some(Refusal::PageTooLong);
    assert_eq!(parse_with(&one, "ab").err(), refused);
    let mut table = [7; words_for(1)];
    assert_eq!(parse_into_with(&one, "ab", &mut table).err(), refused);
    assert_eq!(table, [0; words_for(1)]);
    let dom = parse("ab").unwrap();
    let again = Dom::from_table_with(&one, "ab", dom.table());
    assert_eq!(again.err(), refused);
}

// ---- the profile of a page, in every way of asking

/// Whether each way of asking finds what the tag of handle 1 holds: `id=i`, `class=c` and `k=v`.
fn found(dom: &Dom) -> [bool; 14] {
    let (tag, finished) = (Handle::new(1), dom.finished());
    let held = Held::Value(b"v");
    let id = |manner| dom.get_element_by_id(manner, "i") == Ok(Some(tag));
    let class = |manner| dom.get_elements_by_class_name(manner, "c") == Ok(vec![tag]);
    let query = |selector| dom.query_selector(selector) == Ok(vec![tag]);
    let below = |selector| dom.query_selector_below(Handle::new(0), selector) == Ok(vec![tag]);
    [
        dom.attribute(tag, "k") == Ok(held),
        dom.attributes(&[tag], "k") == Ok(vec![held]),
        dom.attributes_for_names(&[tag], &["k"]) == Ok(vec![held]),
        id(Manner::Scan),
        id(Manner::Closed),
        class(Manner::Scan),
        class(Manner::Closed),
        query("[k=v]"),
        query("#i.c"),
        below("[k=v]"),
        finished.get_element_by_id("i") == Ok(Some(tag)),
        finished.get_elements_by_class_name("c") == Ok(vec![tag]),
        finished.query_selector("[k=v]") == Ok(vec![tag]),
        finished.query_selector_below(Handle::new(0), "#i.c") == Ok(vec![tag]),
    ]
}

#[test]
fn a_page_is_asked_under_its_profile() {
    let tabs = white(b"\t");
    let page = "<t><p\tid=i\tclass=c\tk=v\tj>x</p></t>";
    let dom = parse_with(&tabs, page).unwrap();
    assert_eq!(dom.profile(), &tabs);
    assert_eq!(found(&dom), [true; 14]);
    let of_tl = parse(page).unwrap();
    assert_eq!(found(&of_tl), [false; 14]);
    // read into a lent table
    let mut table = vec![7; dom.table().len() + ROW_WORDS];
    let lent = parse_into_with(&tabs, page, &mut table).unwrap();
    assert_eq!(lent.table(), dom.table());
    assert_eq!(found(&lent), [true; 14]);
    // a table of either, asked under the other: attributes are read again by what that one sets
    let table = of_tl.table();
    let again = Dom::from_table_with(&tabs, page, table).unwrap();
    assert_eq!(found(&again), [true; 14]);
    let again = Dom::from_table(page, dom.table()).unwrap();
    assert_eq!(found(&again), [false; 14]);
    // what the table says is answered as it stands
    let texts = again.inner_texts(&[Handle::new(1)]).unwrap();
    assert_eq!(texts.get(0), Some(&b"x"[..]));
    let said = calls::range(&tabs, page.as_bytes(), table, 0);
    assert_eq!(said, Ok(Some((1, 2))));
}

/// Other bytes that set what tl's profile sets: the same tables, and the same finds.
#[test]
fn the_order_of_the_places_says_nothing() {
    let tl = Profile::TL;
    let names: Vec<&[u8]> = tl.void_names().collect();
    let backwards = tl.with_void_names(names.iter().rev()).unwrap();
    let twice = backwards.and_void_name("br").unwrap();
    let mut at_the_end = *tl.without_void_names().as_raw();
    at_the_end.void_names[9..].copy_from_slice(&tl.as_raw().void_names[..15]);
    at_the_end.white = [0, 10, 0, 32];
    let profiles = [
        white(b"\n "),
        white(b" \n\n "),
        backwards,
        twice,
        Profile::from_raw(at_the_end),
    ];
    let mut pages = vec![
        "<t><p id=i class=c k=v>x</p></t>".to_owned(),
        "<t><p\nid=i\n class='c' k = v>x</p><br><hr/></t>".to_owned(),
        "<!doctype html><a>1<b k=v>2<!--3--></b><br>4</a>5<d><e>".to_owned(),
    ];
    for name in names {
        let name = std::str::from_utf8(name).unwrap();
        let capitals = name.to_uppercase();
        pages.push(format!("<t><{name}>x<{capitals}>y<{name}s>z</{name}>"));
    }
    for profile in &profiles {
        assert_ne!(profile, &tl);
        for page in &pages {
            let dom = parse_with(profile, page).unwrap();
            let of_tl = parse(page).unwrap();
            assert_eq!(dom.table(), of_tl.table(), "{page}");
            assert_eq!(found(&dom), found(&of_tl), "{page}");
        }
    }
}
