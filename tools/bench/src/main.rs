//! Our calls beside tl's: the same pages, the same driver, one run. Prints a table of times and ratios.
#[cfg(before)]
mod before;
mod linear;
mod ours;
mod pages;
mod profiles;
mod theirs;
mod timing;
mod views;

use pages::Page;
use timing::{best, micros};

/// tl descends by recursion, as deep as a page nests.
const STACK: usize = 4 << 30;

/// The words that ask for other tables than those of the pages beside tl: void tags and names near theirs; what another profile
/// costs, and what any costs a call; what the finished view costs; the version before; the times at half the length.
const OTHERS: [&str; 6] = ["void", "profile", "call", "view", "before", "linear"];

/// What is measured of one page: our time and tl's, in nanoseconds.
struct Row {
    what: &'static str,
    ours: f64,
    tl: f64,
}

fn row(what: &'static str, ours: impl FnMut(), tl: impl FnMut()) -> Row {
    let (ours, tl) = best(ours, tl);
    Row { what, ours, tl }
}

/// Reading a page, and one lookup of each kind.
fn reading_and_lookups(page: &Page) -> Vec<Row> {
    let text = page.text.as_str();
    let mut our = ours::Reader::new(text.as_bytes());
    let scan = theirs::read(text, theirs::SCAN);
    let closed = theirs::read(text, theirs::CLOSED);
    let mut rows = vec![
        row(
            "read",
            || our.read(),
            || theirs::drop_read(text, theirs::SCAN),
        ),
        row(
            "read, tl tracks ids and classes",
            || our.read(),
            || theirs::drop_read(text, theirs::CLOSED),
        ),
    ];
    for (manner, dom, class, id) in [
        (ours::SCAN, &scan, "class, scan", "id, scan"),
        (ours::CLOSED, &closed, "class, closed", "id, closed"),
    ] {
        rows.push(row(
            class,
            || our.class(manner, page.class),
            || theirs::class(dom, page.class),
        ));
        rows.push(row(
            id,
            || our.id(manner, page.id),
            || theirs::id(dom, page.id),
        ));
    }
    rows.push(row(
        "query",
        || our.query(page.selector),
        || theirs::query(&scan, page.selector),
    ));
    rows
}

/// The texts and attributes of all the rows that the page's selector finds.
fn rows_of(page: &Page) -> Vec<Row> {
    let text = page.text.as_str();
    let mut our = ours::Reader::new(text.as_bytes());
    our.read();
    our.query(page.selector);
    let dom = theirs::read(text, theirs::SCAN);
    let handles = theirs::handles(&dom, page.selector);
    let names = ours::Names::new(&page.names);
    vec![
        row(
            "texts of all rows",
            || our.texts(),
            || theirs::texts(&dom, &handles),
        ),
        row(
            "four attributes of all rows, one call",
            || our.attributes_for_names(&names),
            || theirs::attributes(&dom, &handles, &page.names),
        ),
        row(
            "four attributes of all rows, four calls",
            || page.names.iter().for_each(|name| our.attributes(name)),
            || theirs::attributes(&dom, &handles, &page.names),
        ),
        row(
            "text of one row",
            || our.text(),
            || theirs::texts(&dom, &handles[..1]),
        ),
        row(
            "attribute of one row",
            || our.attribute(page.names[0]),
            || theirs::attributes(&dom, &handles[..1], &page.names[..1]),
        ),
    ]
}

fn report(page: &Page) {
    let mut reader = ours::Reader::new(page.text.as_bytes());
    reader.read();
    reader.query(page.selector);
    println!(
        "\n### {}\n\n{} bytes, {} nodes, {} rows found by `{}`\n",
        page.name,
        page.text.len(),
        reader.nodes(),
        reader.found(),
        page.selector
    );
    println!("| | ours, µs | tl, µs | tl / ours |\n|---|---|---|---|");
    let mut rows = reading_and_lookups(page);
    if reader.found() != 0 {
        rows.extend(rows_of(page));
    }
    for r in rows {
        println!(
            "| {} | {} | {} | {:.2} |",
            r.what,
            micros(r.ours),
            micros(r.tl),
            r.tl / r.ours
        );
    }
}

/// Reading beside tl, where each new tag's name is held to the void ones.
fn void_and_near(pages: &[Page]) {
    println!("\n### void tags, and names near theirs\n");
    println!("| read | bytes | nodes | ours, µs | tl, µs | tl / ours |\n|---|---|---|---|---|---|");
    for page in pages {
        let text = page.text.as_str();
        let mut our = ours::Reader::new(text.as_bytes());
        let (ours, tl) = best(|| our.read(), || theirs::drop_read(text, theirs::SCAN));
        println!(
            "| {} | {} | {} | {} | {} | {:.2} |",
            page.name,
            text.len(),
            our.nodes(),
            micros(ours),
            micros(tl),
            tl / ours
        );
    }
}

/// Prints one of the other tables.
fn other(word: &str, pages: &[Page], near: &[Page]) {
    match word {
        "void" => void_and_near(near),
        "profile" => profiles::report(pages.iter().chain(near)),
        "call" => profiles::of_one_call(),
        "view" => views::report(pages),
        #[cfg(before)]
        "before" => before::report(pages, near),
        "linear" => linear::report(),
        _ => {}
    }
}

fn run(asked: &[String]) {
    let (others, parts): (Vec<&str>, Vec<&str>) = asked
        .iter()
        .map(String::as_str)
        .partition(|word| OTHERS.contains(word));
    let named = |page: &Page| parts.is_empty() || parts.iter().any(|part| page.name.contains(part));
    let only = |all: Vec<Page>| all.into_iter().filter(named).collect::<Vec<_>>();
    let (pages, near) = (only(pages::all()), only(pages::void_and_near()));
    if others.is_empty() || !parts.is_empty() {
        pages.iter().for_each(report);
    }
    // without a word all are asked
    let all = asked.is_empty().then_some(OTHERS);
    for word in all.into_iter().flatten().chain(others) {
        other(word, &pages, &near);
    }
}

fn main() {
    let asked: Vec<String> = std::env::args().skip(1).collect();
    let thread = std::thread::Builder::new()
        .stack_size(STACK)
        .spawn(move || run(&asked))
        .expect("a thread with a large stack");
    if thread.join().is_err() {
        std::process::exit(1);
    }
}
