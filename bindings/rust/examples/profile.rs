//! Writes a profile of 392 bytes to standard output, with the limit, the white bytes and the void names that it is given.
use std::env;
use std::error::Error;
use std::io::{self, Write};

use tl_rattle::Profile;

fn main() -> Result<(), Box<dyn Error>> {
    let usage = "usage: profile LIMIT WHITE [NAME ..] > PROFILE";
    let mut arguments = env::args().skip(1);
    let limit = arguments.next().ok_or(usage)?.parse()?;
    let white = arguments.next().ok_or(usage)?;
    let profile = Profile::default()
        .with_limit(limit)?
        .with_white(white)?
        .with_void_names(arguments)?;
    io::stdout().write_all(&profile.to_bytes())?;
    Ok(())
}
