//! This version beside another one, both by tl's profile: `tools/bench/run --before`.

/// The other version's calls, declared as this one's in `tl_rattle::sys`, from whose text build.rs makes this. Not all are asked.
#[allow(dead_code)]
pub mod sys {
    use tl_rattle::sys::tl_profile;

    include!(concat!(env!("OUT_DIR"), "/before.rs"));
}

use crate::ours::{in_turns, Calls, Names, Reader, BY_TLS, CLOSED, SCAN};
use crate::pages::Page;
use crate::timing::micros;
use tl_rattle::Profile;

/// The version before, and this one.
const BOTH: [Calls; 2] = [Calls::Before(&Profile::TL), BY_TLS];

/// What is asked, and how.
type Ask<'p> = (&'static str, Box<dyn Fn(&mut Reader) + 'p>);

fn ask<'p>(what: &'static str, call: impl Fn(&mut Reader) + 'p) -> Ask<'p> {
    (what, Box::new(call))
}

/// Reading and the lookups.
fn of_a_page(page: &Page) -> Vec<Ask<'_>> {
    vec![
        ask("read", |r| r.read()),
        ask("class, scan", |r| r.class(SCAN, page.class)),
        ask("id, scan", |r| r.id(SCAN, page.id)),
        ask("class, closed", |r| r.class(CLOSED, page.class)),
        ask("id, closed", |r| r.id(CLOSED, page.id)),
        ask("query", |r| r.query(page.selector)),
    ]
}

/// The texts and attributes of what the query found.
fn of_its_rows(page: &Page) -> Vec<Ask<'_>> {
    let (names, each) = (Names::new(&page.names), page.names);
    vec![
        ask("texts of all rows", |r| r.texts()),
        ask("four attributes of all rows, one call", move |r| {
            r.attributes_for_names(&names)
        }),
        ask("four attributes of all rows, four calls", move |r| {
            each.iter().for_each(|name| r.attributes(name))
        }),
        ask("text of one row", |r| r.text()),
        ask("attribute of one row", |r| r.attribute(page.names[0])),
    ]
}

/// Both must leave the same table.
fn read_alike(reader: &mut Reader) {
    let tables = BOTH.map(|calls| {
        reader.calls = calls;
        reader.read();
        reader.table().to_vec()
    });
    assert!(tables[0] == tables[1], "the tables differ");
}

fn line(reader: &mut Reader, what: &str, call: impl Fn(&mut Reader)) {
    let [before, now] = in_turns(reader, BOTH, call);
    let (first, second, ratio) = (micros(before), micros(now), now / before);
    println!("| {what} | {first} | {second} | {ratio:.2} |");
}

pub fn report(pages: &[Page], void_and_near: &[Page]) {
    for page in pages {
        let mut reader = Reader::new(page.text.as_bytes());
        read_alike(&mut reader);
        reader.query(page.selector);
        println!("\n### beside the version before: {}\n", page.name);
        println!("| | before, µs | now, µs | now / before |\n|---|---|---|---|");
        let mut all = of_a_page(page);
        if reader.found() != 0 {
            all.extend(of_its_rows(page));
        }
        for (what, call) in all {
            line(&mut reader, what, call);
        }
    }
    println!("\n### beside the version before: void tags, and names near theirs\n");
    println!("| read | before, µs | now, µs | now / before |\n|---|---|---|---|");
    for page in void_and_near {
        let mut reader = Reader::new(page.text.as_bytes());
        read_alike(&mut reader);
        line(&mut reader, &page.name, |r| r.read());
    }
}
