//! Runs the compiled calls over random pages at every cut, and compares what the cut theorem, the one on a tag's text and those on
//! the finished tags compare: the page's first n bytes with the whole page, for each n from 0 to its length, both by the same
//! profile; and of each page what is found in either view.

mod altered;
mod case;
mod compare;
mod ended;
mod fallback;
mod lookup;
mod pages;
mod profiles;
mod questions;
mod reader;
mod rows;
mod run;
mod selftest;
mod view_counts;

use std::process::ExitCode;

const HELP: &str = "\
cut-run [OPTIONS]: compares the compiled calls on random pages and on each of their beginnings,
so many pages by tl's profile, and as many, each by a random one

  --pages N      pages of up to 400 bytes (default 6000)
  --long N       pages of 2 to 5 KiB, asked less (default 12)
  --seed N       what decides the pages and what is asked (default 1)
  --from N       the number of the first page (default 0)
  --show N       differences printed (default 5)
  --self-test    alters answers on purpose; each cut at which that happened must be reported, and
                 word 8 of a row only where a clause on finished tags speaks of it
  --help         this text

Exit status: 0 nothing differs; 1 something differs (with --self-test: something altered was not
reported, or something else was); 2 bad usage.";

struct Options {
    pages: usize,
    long: usize,
    seed: u64,
    from: usize,
    show: usize,
    self_test: bool,
}

fn options() -> Result<Options, String> {
    let mut options = Options {
        pages: 6000,
        long: 12,
        seed: 1,
        from: 0,
        show: 5,
        self_test: false,
    };
    let mut words = std::env::args().skip(1);
    while let Some(word) = words.next() {
        let mut number = || -> Result<usize, String> {
            let value = words.next().ok_or(format!("{word} needs a number"))?;
            value
                .parse()
                .map_err(|_| format!("{word}: {value} is no number"))
        };
        match &word[..] {
            "--pages" => options.pages = number()?,
            "--long" => options.long = number()?,
            "--seed" => options.seed = number()? as u64,
            "--from" => options.from = number()?,
            "--show" => options.show = number()?,
            "--self-test" => options.self_test = true,
            "--help" | "-h" => {
                println!("{HELP}");
                std::process::exit(0);
            }
            _ => return Err(format!("{word} is not an option; try --help")),
        }
    }
    Ok(options)
}

fn main() -> ExitCode {
    let options = match options() {
        Ok(options) => options,
        Err(what) => {
            eprintln!("cut-run: {what}");
            return ExitCode::from(2);
        }
    };
    let good = if options.self_test {
        selftest::self_test(options.seed)
    } else {
        run::run(&options)
    };
    ExitCode::from(u8::from(!good))
}
