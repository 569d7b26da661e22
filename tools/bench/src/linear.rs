//! Our calls on pages and tables of many nodes, at the greatest length and at half of it: linear time shows as a ratio of
//! about 2, quadratic time as one of about 4.
use crate::ours::{Names, Reader, CLOSED, FINISHED, SCAN};
use crate::pages::{self, LIMIT};
use crate::timing::{best, micros};
use tl_rattle::{HEADER_WORDS, ROW_WORDS};

/// A name, and the page of so many bytes.
type Heavy = (&'static str, fn(usize) -> String);

const PAGES: [Heavy; 8] = [
    ("nested `<>`", |n| filled("<>", "", n)),
    ("`<>a`, one node fewer than the most", |n| {
        filled("<>a", "", n)
    }),
    ("execution table", |n| pages::rows(n, true)),
    ("closed tags with the class, side by side", |n| {
        filled("<p class=a>x</p>", "", n)
    }),
    ("closed tags with the class, nested", |n| {
        pages::nested(n, "<p class=a>", "</p>")
    }),
    ("one comment without end", |n| filled("-", "<!--", n)),
    ("attributes without end", |n| filled(" a=b", "<p", n)),
    ("one text", |n| filled("a", "", n)),
];

/// `part` again and again after `head`, cut at n bytes.
fn filled(part: &str, head: &str, n: usize) -> String {
    let mut page = head.to_owned() + &part.repeat(n / part.len() + 1);
    page.truncate(n);
    page
}

/// What is asked, and how.
type Ask = (&'static str, fn(&mut Reader));

/// What is asked of a page that was read.
const CALLS: [Ask; 10] = [
    ("inner text", |r| r.text_of(0)),
    ("class, scan", |r| r.class(SCAN, "a")),
    ("class, closed", |r| r.class(CLOSED, "a")),
    ("id, scan", |r| r.id(SCAN, "a")),
    ("id, closed", |r| r.id(CLOSED, "a")),
    ("query `*`", |r| r.query("*")),
    ("query of four pieces", |r| r.query("a,.b,#c,[d]")),
    ("class, scan, finished", |r| {
        r.in_view(FINISHED, |r| r.class(SCAN, "a"))
    }),
    ("id, scan, finished", |r| {
        r.in_view(FINISHED, |r| r.id(SCAN, "a"))
    }),
    ("query `*`, finished", |r| {
        r.in_view(FINISHED, |r| r.query("*"))
    }),
];

fn line(what: &str, call: impl Fn(&mut Reader), whole: &mut Reader, half: &mut Reader) {
    let (long, short) = best(|| call(whole), || call(half));
    println!(
        "| {what} | {} | {} | {:.2} |",
        micros(long),
        micros(short),
        long / short
    );
}

fn head(name: &str, whole: &Reader, half: &Reader) {
    println!(
        "\n### {name}\n\n{} nodes, {} at half\n",
        whole.nodes(),
        half.nodes()
    );
    println!("| | µs | at half, µs | ratio |\n|---|---|---|---|");
}

/// Where the texts of all tags are more bytes than this, they are not asked: writing them takes the time.
const BYTES: usize = 16 * LIMIT;

fn calls(whole: &mut Reader, half: &mut Reader) {
    let tags = whole.is_tag(0) && half.is_tag(0);
    for (what, call) in CALLS {
        if tags || what != "inner text" {
            line(what, call, whole, half);
        }
    }
    whole.find_tags();
    half.find_tags();
    if whole.text_bytes() <= BYTES {
        line("texts of all tags", |r| r.texts(), whole, half);
    }
    let names = Names::new(&["a", "b", "class", "id"]);
    let ask = |r: &mut Reader| r.attributes_for_names(&names);
    line("four attributes of all tags", ask, whole, half);
}

/// The header of a table with so many rows.
fn header(rows: u32, len: usize) -> Vec<u32> {
    let [first, width] = [HEADER_WORDS as u32, ROW_WORDS as u32];
    vec![rows, 0, len as u32, first, width, 0, 0, 0]
}

/// A sound table that no reading made: one tag over `n` texts of a byte.
fn texts_below_one_tag(len: usize, n: usize) -> Vec<u32> {
    let mut words = header(n as u32 + 1, len);
    words.extend([1, 0, len as u32, 1, 2, 3, 0, n as u32, 1]);
    for handle in 1..=n as u32 {
        words.extend([2, 3, 4, 0, 0, 0, 1, handle, 0]);
    }
    words
}

/// Another: `n` tags side by side that all open with the page's first bytes, the later ones ending earlier, so that in closing
/// order each comes before all that were listed.
fn tags_ending_backwards(len: usize, opened: usize, n: usize) -> Vec<u32> {
    let mut words = header(n as u32, len);
    for handle in 0..n as u32 {
        words.extend([1, 0, len as u32 - handle, 1, 2, opened as u32, 0, handle, 1]);
    }
    words
}

/// A third, of more rows than any page has: `n` tags, each in the one before it, over `n` texts without a byte.
fn tags_over_no_text(len: usize, n: usize) -> Vec<u32> {
    let rows = 2 * n as u32;
    let mut words = header(rows, len);
    for handle in 0..n as u32 {
        words.extend([1, 0, len as u32, 1, 2, 3, handle, rows - 1, 1]);
    }
    for handle in n as u32..rows {
        words.extend([2, 3, 3, 0, 0, 0, n as u32, handle, 0]);
    }
    words
}

/// A fourth: `n` tags side by side, the opening of each the whole page.
fn tags_over_the_page(len: usize, n: usize) -> Vec<u32> {
    let mut words = header(n as u32, len);
    for handle in 0..n as u32 {
        words.extend([1, 0, len as u32, 1, 2, len as u32, 0, handle, 0]);
    }
    words
}

/// Asks of a page with two tables that no reading made.
fn foreign(name: &str, page: &str, whole_table: Vec<u32>, half_table: Vec<u32>) {
    let (mut whole, mut half) = (Reader::new(page.as_bytes()), Reader::new(page.as_bytes()));
    whole.lend(whole_table);
    half.lend(half_table);
    head(
        &format!("a table that no reading made: {name}"),
        &whole,
        &half,
    );
    calls(&mut whole, &mut half);
}

pub fn report() {
    for (name, page) in PAGES {
        let (long, short) = (page(LIMIT), page(LIMIT / 2));
        let (mut whole, mut half) = (Reader::new(long.as_bytes()), Reader::new(short.as_bytes()));
        whole.read();
        half.read();
        head(name, &whole, &half);
        line("read", |r| r.read(), &mut whole, &mut half);
        if whole.nodes() > 1 {
            calls(&mut whole, &mut half);
        }
    }
    let page = "a".repeat(LIMIT);
    foreign(
        "texts below one tag",
        &page,
        texts_below_one_tag(LIMIT, 40_000),
        texts_below_one_tag(LIMIT, 20_000),
    );
    foreign(
        "tags in each other over texts without a byte",
        &page,
        tags_over_no_text(LIMIT, 100_000),
        tags_over_no_text(LIMIT, 50_000),
    );
    let open = "<p class=a>";
    foreign(
        "tags that end backwards",
        &filled("a", open, LIMIT),
        tags_ending_backwards(LIMIT, open.len(), 40_000),
        tags_ending_backwards(LIMIT, open.len(), 20_000),
    );
    foreign(
        "tags that all have the whole page as their opening",
        &filled(" a=b", "<p", LIMIT),
        tags_over_the_page(LIMIT, 200),
        tags_over_the_page(LIMIT, 100),
    );
}
