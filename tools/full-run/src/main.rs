//! Runs the program `fullpage` on every length and on inputs that it must refuse. A page that it writes must be read into a
//! table of exactly as many rows as its length allows, and be refused as 2 where a row, or a word, is missing: by tl's profile,
//! and by others whose limit the page just keeps. By a lower limit it must be refused as 1.
//!
//! Ends with status 0 if all is as it must be, 1 at the first that is not, 2 if it was started wrongly.

use std::io::Write;
use std::process::{Command, ExitCode, Stdio};
use tl_rattle::{calls, max_nodes, words_for, Profile, Refusal, MAX_PAGE};

/// Inputs that ask for no page.
const REFUSED: [&[u8]; 27] = [
    b"",
    b"\n",
    b"65537",
    b"65537\n",
    b"99999",
    b"100000",
    b"065536",
    b"000000",
    b"000007",
    b"0000007",
    b"4294967296",
    b"1\n\n",
    b"65536\n\n",
    b"65536\n1",
    b"7\n7",
    b"1 ",
    b" 1",
    b"\n1",
    b"-1",
    b"+1",
    b"1\r\n",
    b"1\0",
    b"1.0",
    b"0x1",
    b"1a",
    b"a",
    b"/",
];

/// The ways to write a length.
fn inputs(length: usize) -> [String; 4] {
    [
        format!("{length}"),
        format!("{length}\n"),
        format!("{length:05}"),
        format!("{length:05}\n"),
    ]
}

/// What the program writes for an input.
fn written(program: &str, input: &[u8]) -> Result<Vec<u8>, String> {
    let failed = |why: std::io::Error| format!("{program}: {why}");
    let mut child = Command::new(program)
        .stdin(Stdio::piped())
        .stdout(Stdio::piped())
        .spawn()
        .map_err(failed)?;
    let mut stdin = child.stdin.take().expect("it is piped");
    stdin.write_all(input).map_err(failed)?;
    drop(stdin);
    let output = child.wait_with_output().map_err(failed)?;
    match output.status.success() {
        true => Ok(output.stdout),
        false => Err(format!("{program}: {}", output.status)),
    }
}

/// A profile of so many bytes at most, with these white bytes and void names.
fn profile(limit: usize, white: &[u8], names: &[&str]) -> Profile {
    let begun = Profile::TL.with_limit(limit);
    let begun = begun.and_then(|begun| begun.with_white(white));
    let made = begun.and_then(|begun| begun.with_void_names(names));
    made.expect("it is within its limits")
}

/// tl's profile, and others whose limit a page of so many bytes just keeps. None makes the page's bytes white, and the name of its
/// tags, which is empty, is void in none.
fn profiles(length: usize) -> [Profile; 3] {
    let limit = length.max(1);
    let names = ["a", "x", "br", "0123456789abcdef"];
    [
        Profile::TL,
        profile(limit, b"\t \r\x01", &names),
        profile(limit, b"", &[]),
    ]
}

/// Reads a page by a profile into so many words, marked before.
fn read(profile: &Profile, page: &[u8], words: usize) -> (Result<usize, Refusal>, Vec<u32>) {
    let mut table = vec![u32::MAX; words];
    (calls::parse(profile, page, &mut table), table)
}

/// With this many words the page is refused as said, and the table is left all zeros.
fn is_refused(profile: &Profile, page: &[u8], words: usize, refusal: Refusal) -> bool {
    let (said, table) = read(profile, page, words);
    said == Err(refusal) && table.iter().all(|&word| word == 0)
}

/// Holds a page by a profile to the most nodes that it may have.
fn check_by(profile: &Profile, page: &[u8], nodes: usize) -> Result<(), String> {
    let (said, _) = read(profile, page, words_for(nodes));
    if said != Ok(nodes) {
        return Err(format!("with {nodes} rows: {said:?}"));
    }
    let is_too_small = |words| is_refused(profile, page, words, Refusal::TableTooSmall);
    if !is_too_small(words_for(nodes) - 1) {
        return Err(format!("accepted with a word less than {nodes} rows"));
    }
    if nodes > 0 && !is_too_small(words_for(nodes - 1)) {
        return Err(format!("accepted with a row less than {nodes}"));
    }
    Ok(())
}

/// Holds what was written for a length to it.
fn check(page: &[u8], length: usize) -> Result<(), String> {
    if page.len() != length {
        return Err(format!("{} bytes", page.len()));
    }
    let nodes = (2 * length + 1) / 3;
    if max_nodes(length) != nodes {
        return Err(format!("the library says {} nodes", max_nodes(length)));
    }
    for profile in profiles(length) {
        check_by(&profile, page, nodes).map_err(|why| format!("{profile:?}: {why}"))?;
    }
    let lower = profile(length.max(2) - 1, b" \n", &[]);
    if length > 1 && !is_refused(&lower, page, words_for(nodes), Refusal::PageTooLong) {
        return Err(String::from("accepted by a lower limit"));
    }
    Ok(())
}

fn run(program: &str) -> Result<(), String> {
    for input in REFUSED {
        let text = written(program, input)?;
        if text != b"refused" {
            let (asked, text) = (input.escape_ascii(), text.escape_ascii());
            return Err(format!("`{asked}` is answered `{text}`, not refused"));
        }
    }
    for length in 0..=MAX_PAGE {
        // the lengths of the examples in every way, any other in one of them
        let all = inputs(length);
        let ways = match length {
            0 | 1 | 2 | 3 | 7 | MAX_PAGE => &all[..],
            _ => &all[length % 4..][..1],
        };
        for input in ways {
            let page = written(program, input.as_bytes())?;
            check(&page, length).map_err(|why| format!("length {length}: {why}"))?;
        }
    }
    Ok(())
}

fn main() -> ExitCode {
    let words: Vec<String> = std::env::args().skip(1).collect();
    let [program] = &words[..] else {
        eprintln!("usage: full-run PROGRAM");
        return ExitCode::from(2);
    };
    match run(program) {
        Ok(()) => {
            let (lengths, refused) = (MAX_PAGE + 1, REFUSED.len());
            let ways = profiles(0).len();
            println!(
                "{lengths} lengths by {ways} profiles and {refused} refused inputs, no difference"
            );
            ExitCode::SUCCESS
        }
        Err(why) => {
            println!("DIFFERENCE: {why}");
            ExitCode::FAILURE
        }
    }
}
