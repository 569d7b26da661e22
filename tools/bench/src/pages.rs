//! The pages that are measured, each of at most 65,536 bytes and the same in every run.

/// A page with what is asked of it.
pub struct Page {
    /// What the report calls it.
    pub name: String,
    /// The page.
    pub text: String,
    /// A class that its rows carry.
    pub class: &'static str,
    /// An id that one of its last tags has.
    pub id: &'static str,
    /// A selector that finds its rows.
    pub selector: &'static str,
    /// Attribute names that are asked of each row.
    pub names: [&'static str; 4],
}

/// The longest page.
pub const LIMIT: usize = 65_536;

/// Repeats what `part` gives for 0, 1, 2, .. between `head` and `tail` as long as the page stays within `size` bytes.
fn repeated(size: usize, head: &str, tail: &str, part: impl Fn(usize) -> String) -> String {
    let mut page = String::from(head);
    let mut i = 0;
    loop {
        let next = part(i);
        if page.len() + next.len() + tail.len() > size {
            break;
        }
        page.push_str(&next);
        i += 1;
    }
    page.push_str(tail);
    page
}

/// A fill as a table's row, with its cells closed or left open.
fn fill(i: usize, closed: bool) -> String {
    let side = if i.is_multiple_of(3) { "sell" } else { "buy" };
    let (td, tr) = if closed { ("</td>", "</tr>") } else { ("", "") };
    format!(
        "<tr class=\"fill {side}\" data-fill=\"F{i:06}\" data-rev=\"{}\" data-venue=\"XLON\" data-side={side}>\n  \
         <td class=\"sym\">VOD{td}<td class=\"qty\">{}{td}<td class=\"px\">{}.{:02}{td}<td>filled at 09:{:02}:{:02}{td}{tr}\n",
        i % 4,
        100 * (1 + i % 50),
        70 + i % 9,
        i % 100,
        i % 60,
        (i * 7) % 60,
    )
}

const HEAD: &str =
    "<!doctype html>\n<html><head><title>Executions</title><meta charset=utf-8></head>\n<body>\n\
    <!-- generated -->\n<h1 id=\"head\">Executions</h1>\n<table class=\"fills\">\n";
const TAIL: &str = "</table>\n<p id=\"foot\">End of day</p>\n</body></html>\n";

/// A table of fills of at most so many bytes.
pub fn rows(size: usize, closed: bool) -> String {
    repeated(size, HEAD, TAIL, |i| fill(i, closed))
}

fn execution(name: &str, size: usize, closed: bool) -> Page {
    page(name, rows(size, closed))
}

fn page(name: &str, text: String) -> Page {
    Page {
        name: String::from(name),
        text,
        class: "fill",
        id: "foot",
        selector: "tr.fill",
        names: ["data-fill", "data-rev", "data-venue", "data-side"],
    }
}

fn other(name: &str, text: String, selector: &'static str) -> Page {
    Page {
        selector,
        ..page(name, text)
    }
}

/// Those of which everything is asked.
pub fn all() -> Vec<Page> {
    let mut all = executions();
    all.extend(of_one_kind());
    all
}

fn executions() -> Vec<Page> {
    vec![
        execution("execution table, 1 KiB", 1280, true),
        execution("execution table, 4 KiB", 4 << 10, true),
        execution("execution table, 16 KiB", 16 << 10, true),
        execution("execution table, 64 KiB", LIMIT, true),
        execution("rows and cells never closed", LIMIT, false),
    ]
}

/// Pages that are mostly of one thing.
fn of_one_kind() -> Vec<Page> {
    let dense = |i| format!("<b><i class=fill>{}</i></b>", i % 10);
    let long = |_| String::from("a fill was booked and reported; ");
    let many =
        |i| format!("<td class=fill a{i}=1 b=\"two words\" c='x' d e=5 data-fill=F{i} f=6 g=7>");
    let comments = |i| format!("<!-- fill {i} - not yet booked --><b class=fill>x</b>");
    let long = repeated(LIMIT, "<p class=fill>", "</p>", long);
    let nested = nested(LIMIT, "<div class=fill>", "</div>");
    vec![
        other("dense tags", repeated(LIMIT, "", "", dense), "i.fill"),
        other("long text", long, "p.fill"),
        other("many attributes", repeated(LIMIT, "", "", many), "td.fill"),
        other("comments", repeated(LIMIT, "", "", comments), "b.fill"),
        other("nested tags, closed", nested, "div.fill"),
        other("nested `<>`", "<>".repeat(LIMIT / 2), "x"),
    ]
}

/// Void tags, and tags whose names are as long as a void one's, or begin or end as one does: each new tag's name is held to the void
/// names. Those of the last but one have a void name's length, first byte and last byte.
const VOID_AND_NEAR: [(&str, &str); 7] = [
    ("void tags: br hr", "<br><hr>"),
    ("void tags: meta wbr input area", "<meta><wbr><input><area>"),
    (
        "void tags: all",
        "<area><base><br><col><embed><hr><img><input><keygen><link><meta><param><source><track><wbr>",
    ),
    (
        "void tags with attributes",
        "<br class=fill>x<img src=a data-fill=F1><input type=text data-rev=1 data-side=buy><link rel=x><hr>",
    ),
    (
        "names near void ones: table colgroup bar",
        "<table><colgroup></colgroup><bar></bar><body><form>x</form><td>y</td><section>z</section></body></table>",
    ),
    (
        "names near void ones: aqua bone cal",
        "<aqua><bone></bone><cal></cal><ended></ended><ing></ing><inset></inset></aqua>\
         <kitten><lock></lock><mama></mama><prism></prism><single></single><trunk></trunk><war></war></kitten>",
    ),
    (
        "names of a sender's own",
        "<execution-report><x-fill>7</x-fill><x-leg></x-leg><trade-link></trade-link></execution-report>",
    ),
];

/// Pages of these, of just over 1 KiB and as long as can be.
pub fn void_and_near() -> Vec<Page> {
    let both = VOID_AND_NEAR.map(|(name, part)| {
        let sized = |times, size| page(&format!("{name}, {size}"), part.repeat(times));
        let short = 1024_usize.div_ceil(part.len());
        [sized(short, "1 KiB"), sized(LIMIT / part.len(), "64 KiB")]
    });
    both.into_iter().flatten().collect()
}

/// As many tags as fit into so many bytes, one inside the other, all of them closed.
pub fn nested(size: usize, open: &str, close: &str) -> String {
    let n = size / (open.len() + close.len());
    open.repeat(n) + &close.repeat(n)
}
