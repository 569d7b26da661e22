//! What a profile costs: our calls by a sender's own beside the same calls by tl's, and what a single call pays for any.
use crate::ours::{in_turns, Calls, Reader, BY_TLS, SCAN};
use crate::pages::Page;
use crate::timing::micros;
use tl_rattle::sys::TL_PROFILE_DEFAULT;
use tl_rattle::Profile;

/// A sender's own: the tab is white too, and four more names are void. No page has them, so that by both profiles it is read alike.
static OWN: Profile = {
    let mut raw = TL_PROFILE_DEFAULT;
    raw.white[2] = b'\t';
    raw.void_names[15] = *b"leg\0\0\0\0\0\0\0\0\0\0\0\0\0";
    raw.void_names[16] = *b"quote\0\0\0\0\0\0\0\0\0\0\0";
    raw.void_names[17] = *b"x-note\0\0\0\0\0\0\0\0\0\0";
    raw.void_names[18] = *b"page-break\0\0\0\0\0\0";
    Profile::from_raw(raw)
};

/// One with 24 names of 16 bytes: there is no room for more.
static FULL: Profile = {
    let mut raw = TL_PROFILE_DEFAULT;
    raw.white = *b" \n\t\r";
    let mut number = 0;
    while number < raw.void_names.len() {
        raw.void_names[number] = *b"void-name-no-00a";
        raw.void_names[number][15] += number as u8;
        number += 1;
    }
    Profile::from_raw(raw)
};

/// Reading and a lookup by a sender's own profile, as a ratio to the same by tl's.
pub fn report<'p>(pages: impl Iterator<Item = &'p Page>) {
    let both = [Calls::By(&OWN), BY_TLS];
    println!("\n### by a sender's own profile and by tl's\n");
    println!("| page | read, own, µs | tl's, µs | own / tl's | class, scan, own, µs | tl's, µs | own / tl's |");
    println!("|---|---|---|---|---|---|---|");
    for page in pages {
        let mut reader = Reader::new(page.text.as_bytes());
        let read = in_turns(&mut reader, both, |r| r.read());
        let class = in_turns(&mut reader, both, |r| r.class(SCAN, page.class));
        let cells = [read, class].map(|[own, tls]| {
            let ratio = own / tls;
            format!("{} | {} | {ratio:.2}", micros(own), micros(tls))
        });
        println!("| {} | {} |", page.name, cells.join(" | "));
    }
}

/// What a call takes with next to nothing to do, so that all it pays for its profile shows.
pub fn of_one_call() {
    let ways = [
        ("tl's profile", BY_TLS),
        ("a sender's own", Calls::By(&OWN)),
        ("24 names of 16 bytes", Calls::By(&FULL)),
        #[cfg(before)]
        ("before: tl's profile", Calls::Before(&Profile::TL)),
        #[cfg(before)]
        ("before: a sender's own", Calls::Before(&OWN)),
        #[cfg(before)]
        ("before: 24 names of 16 bytes", Calls::Before(&FULL)),
    ];
    println!("\n### what a call takes with next to nothing to do, ns\n");
    let heads = ways.map(|(head, _)| head).join(" | ");
    println!("| | {heads} |\n|{}", "---|".repeat(ways.len() + 1));
    let mut empty = Reader::new(b"");
    let mut one = Reader::new(b"<p k=v>");
    one.read();
    one.find_tags();
    line(&mut empty, &ways, "read an empty page", |r| r.read());
    line(&mut empty, &ways, "id in an empty page", |r| {
        r.id(SCAN, "a")
    });
    line(&mut one, &ways, "read a page of one tag", |r| r.read());
    line(&mut one, &ways, "range of its tag", |r| r.range(0));
    line(&mut one, &ways, "attribute of its tag", |r| {
        r.attribute("k")
    });
}

fn line<const N: usize>(
    reader: &mut Reader,
    ways: &[(&str, Calls); N],
    what: &str,
    call: impl Fn(&mut Reader),
) {
    let times = in_turns(reader, ways.map(|(_, calls)| calls), call);
    let cells = times.map(|time| format!("{time:.1}"));
    println!("| {what} | {} |", cells.join(" | "));
}
