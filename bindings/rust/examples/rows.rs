//! Prints the rows of a page on standard input that a selector finds: each one's handle, whether it is finished, and its
//! text. The page is read under the profile in the file that a second argument names, such as the example `profile` writes;
//! without one, as tl reads it.
use std::env;
use std::error::Error;
use std::fs;
use std::io::{self, Read};

use tl_rattle::Profile;

fn main() -> Result<(), Box<dyn Error>> {
    let usage = "usage: rows SELECTOR [PROFILE] < PAGE";
    let selector = env::args().nth(1).ok_or(usage)?;
    let profile = match env::args_os().nth(2) {
        Some(path) => Profile::from_bytes(fs::read(path)?.as_slice().try_into()?),
        None => Profile::default(),
    };
    let mut page = Vec::new();
    io::stdin().read_to_end(&mut page)?;
    let dom = tl_rattle::parse_with(&profile, &page)?;
    let rows = dom.query_selector(&selector)?;
    let texts = dom.inner_texts(&rows)?;
    for (row, text) in rows.iter().zip(texts.iter()) {
        // an unfinished row may still change when the rest of the page comes
        let finished = if dom.finished().contains(*row) {
            "finished"
        } else {
            "unfinished"
        };
        let text = String::from_utf8_lossy(text);
        println!("{} {finished} {text}", row.get_inner());
    }
    Ok(())
}
