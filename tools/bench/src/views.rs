//! What the finished view costs: scan lookups and queries in it beside the same in the view of all nodes. tl has no views.
use crate::ours::{in_views, Reader, FINISHED, SCAN};
use crate::pages::Page;
use crate::timing::micros;

pub fn report(pages: &[Page]) {
    println!("\n### in the finished view and in that of all nodes\n");
    println!("| page | found by the query, of all | class, scan, finished, µs | all, µs | finished / all | id, scan, finished, µs | all, µs | finished / all | query, finished, µs | all, µs | finished / all |");
    println!("|---|---|---|---|---|---|---|---|---|---|---|");
    for page in pages {
        let mut reader = Reader::new(page.text.as_bytes());
        reader.read();
        let found = found(&mut reader, page.selector);
        let times = [
            in_views(&mut reader, |r| r.class(SCAN, page.class)),
            in_views(&mut reader, |r| r.id(SCAN, page.id)),
            in_views(&mut reader, |r| r.query(page.selector)),
        ];
        let cells = times.map(|[finished, all]| {
            let ratio = finished / all;
            format!("{} | {} | {ratio:.2}", micros(finished), micros(all))
        });
        println!("| {} | {found} | {} |", page.name, cells.join(" | "));
    }
}

/// How many of the nodes that a query finds are finished.
fn found(reader: &mut Reader, selector: &str) -> String {
    reader.in_view(FINISHED, |r| r.query(selector));
    let finished = reader.found();
    reader.query(selector);
    format!("{finished} of {}", reader.found())
}
