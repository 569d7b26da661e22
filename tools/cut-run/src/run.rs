//! Compares the compiled calls on many pages, and prints what was compared.

use std::time::Instant;

use common::Random;

use crate::case::{case, Case, Part};
use crate::compare::{Clause, Counts, Difference, Whole};
use crate::profiles::ProfileCounts;
use crate::questions::Questions;
use crate::reader::{Compiled, Reader};
use crate::Options;

/// Compares a page, read by `reader`, with its beginnings, read by `beginnings`, at every cut. The differences, and where
/// word 8 contradicts what a cut can do.
pub fn compare<R: Reader, B: Reader>(
    case: &mut Case,
    (reader, beginnings): (&R, &B),
    counts: &mut Counts,
) -> (Vec<Difference>, Vec<String>) {
    let mut whole = Whole::new(&case.profile, &case.page, &case.questions, reader, counts);
    for n in 0..=case.page.len() {
        whole.cut(n, beginnings, &mut case.random, counts);
    }
    (whole.differences, whole.contradictions)
}

/// The page with as much left out as can be, while its beginnings, read by `reader`, still differ in the same clause.
pub fn smallest<R: Reader>(case: &Case, reader: &R, clause: Clause) -> Vec<u8> {
    // of every tag and in either view, so that nothing is left to chance
    let questions = Questions {
        tags: usize::MAX,
        below: usize::MAX,
        in_view: true,
        ..case.questions.clone()
    };
    let differs = |page: &[u8]| {
        let mut random = Random::for_page(0, 0);
        let mut counts = Counts::default();
        let mut whole = Whole::new(&case.profile, page, &questions, &Compiled, &mut counts);
        (0..=page.len()).any(|n| {
            whole.cut(n, reader, &mut random, &mut counts);
            let mut all = whole.differences.drain(..);
            all.any(|difference| difference.clause == clause)
        })
    };
    let mut page = case.page.clone();
    let mut part = page.len().div_ceil(2);
    while part > 0 {
        let before = page.len();
        let mut at = 0;
        while at < page.len() {
            let mut less = page.clone();
            less.drain(at..(at + part).min(page.len()));
            if differs(&less) {
                page = less;
            } else {
                at += part;
            }
        }
        // single bytes until none can go
        if part > 1 || page.len() == before {
            part /= 2;
        }
    }
    page
}

/// Prints where the answers on a page differ, and where word 8 contradicts what a cut can do: at most so many.
fn show(which: &str, case: &Case, found: &(Vec<Difference>, Vec<String>), left: &mut usize) {
    let (differences, contradictions) = found;
    for (index, difference) in differences.iter().take(*left).enumerate() {
        println!("difference: {which}: {difference}");
        if index == 0 {
            println!("  {:?}", case.profile);
            println!("  page: {}", case.page.escape_ascii());
            let smallest = smallest(case, &Compiled, difference.clause);
            println!("  smallest: {}", smallest.escape_ascii());
        }
    }
    *left -= differences.len().min(*left);
    for what in contradictions.iter().take(*left) {
        println!("contradiction: {which}: {what}");
        println!("  {:?}", case.profile);
        println!("  page: {}", case.page.escape_ascii());
    }
    *left -= contradictions.len().min(*left);
}

/// Compares the short and the long pages, by tl's profile or each by a random one. Whether nothing differs.
fn run_pages(options: &Options, random_profile: bool) -> bool {
    let start = Instant::now();
    let mut counts = Counts::default();
    let mut profiles = ProfileCounts::default();
    let mut left = options.show;
    for (long, pages) in [(false, options.pages), (true, options.long)] {
        let part = Part {
            long,
            random_profile,
        };
        for number in options.from..options.from + pages {
            let mut case = case(options.seed, number, part);
            profiles.observe(&case.profile, &case.page);
            let found = compare(&mut case, (&Compiled, &Compiled), &mut counts);
            let which = format!("seed {}, {} {number}", options.seed, part.name());
            show(&which, &case, &found, &mut left);
        }
    }
    print(&counts);
    if random_profile {
        println!("{profiles}");
    }
    println!("seconds {:.1}", start.elapsed().as_secs_f64());
    counts.differences == 0 && counts.ended.contradictions == 0
}

pub fn run(options: &Options) -> bool {
    println!("by tl's profile:");
    let good = run_pages(options, false);
    println!("\neach page by a random profile:");
    run_pages(options, true) && good
}

fn print(counts: &Counts) {
    println!("pages {}, {} bytes", counts.pages, counts.bytes);
    println!(
        "cuts {}, of these with nothing to compare {}, as the page is over its profile's limit",
        counts.cuts, counts.over_limit
    );
    println!(
        "tags {}, each with start, name, parent and words 3 to 5",
        counts.tags
    );
    println!(
        "attribute answers {}: absent {}, without a value {}, with a value {}",
        counts.absent + counts.bare + counts.values,
        counts.absent,
        counts.bare,
        counts.values
    );
    println!(
        "bytes handed back, each with a fallback {}",
        counts.fallbacks
    );
    println!(
        "queries over the page {}: too long {}, cannot be read {}; finds {}",
        counts.queries, counts.too_long, counts.unread, counts.finds
    );
    println!(
        "queries below a tag {}; finds {}",
        counts.queries_below, counts.finds_below
    );
    println!(
        "tags with their descendants {}: {}",
        counts.ranges, counts.descendants
    );
    print_texts(counts);
    println!("{}", counts.view);
    println!("differences {}", counts.differences);
    println!(
        "word 8 of a tag, where it differs, whole page to beginning: {}",
        counts.ended
    );
}

fn print_texts(counts: &Counts) {
    println!(
        "texts {}: equal by the rule {}, of these with an unfinished comment as the last \
         descendant {}; equal besides {}, a proper beginning {}",
        counts.texts,
        counts.texts_same,
        counts.texts_unfinished,
        counts.texts_besides,
        counts.texts_begun
    );
}
