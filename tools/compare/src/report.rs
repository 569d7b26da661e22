//! Counts by kind of input, and the first differences in their smallest form.
use crate::findings::{Covered, Difference, Findings, Others, DEPARTURES, ENDINGS};
use crate::model::TL_BYTES;
use crate::plan::{Input, Kind, KINDS};
use crate::profiles;
use crate::shrink::shrink;
use std::collections::HashSet;

/// At most so many differences are shown of each sort.
const SHOWN: usize = 3;
/// A text longer than this is cut in the middle.
const LONG: usize = 400;

#[derive(Default, Clone, Copy)]
struct Counts {
    pages: u64,
    selectors: u64,
    answers: u64,
}

impl Counts {
    fn add(&mut self, more: &Counts) {
        self.pages += more.pages;
        self.selectors += more.selectors;
        self.answers += more.answers;
    }
}

/// Whether a kind's inputs have profiles of their own, and what they are compared under.
const UNDER: [(bool, &str); 2] = [(false, "tl's profile"), (true, "random profiles")];

#[derive(Default)]
pub struct Report {
    counts: [Counts; KINDS.len()],
    /// under tl's profile, and under random ones
    covered: [Covered; UNDER.len()],
    others: Others,
    departures: [u64; DEPARTURES.len()],
    differences: u64,
    shown: Vec<(Kind, Input, Difference)>,
}

impl Report {
    /// Adds what was found on one input.
    pub fn add(&mut self, kind: Kind, input: Input, found: Findings) {
        self.counts[kind as usize].add(&Counts {
            pages: found.pages,
            selectors: found.selectors,
            answers: found.answers,
        });
        self.covered[kind.has_profile() as usize].add(&found.covered);
        self.others.add(&found.others);
        add(&mut self.departures, found.departures);
        self.differences += found.differences.len() as u64;
        // The first of an input; the others mostly follow from it.
        if let Some(difference) = found.differences.into_iter().next() {
            if self.shows(&difference) {
                self.shown.push((kind, input, difference));
            }
        }
    }

    fn shows(&self, difference: &Difference) -> bool {
        let alike = self
            .shown
            .iter()
            .filter(|(_, _, other)| other.question.is_like(&difference.question));
        alike.count() < SHOWN
    }

    /// Adds another report's.
    pub fn join(&mut self, other: Report) {
        for (sum, more) in self.counts.iter_mut().zip(other.counts) {
            sum.add(&more);
        }
        for (sum, more) in self.covered.iter_mut().zip(&other.covered) {
            sum.add(more);
        }
        self.others.add(&other.others);
        add(&mut self.departures, other.departures);
        self.differences += other.differences;
        for shown in other.shown {
            if self.shows(&shown.2) {
                self.shown.push(shown);
            }
        }
    }

    /// Makes the inputs of the differences small. Two may then be one and the same.
    pub fn shrink(mut self) -> Self {
        let mut seen = HashSet::new();
        let shown = std::mem::take(&mut self.shown);
        for (kind, input, difference) in shown {
            let (input, difference) = shrink(input, difference);
            let bytes = input.bytes().1.to_vec();
            if seen.insert((bytes, difference.question.to_string())) {
                self.shown.push((kind, input, difference));
            }
        }
        self
    }

    pub fn has_differences(&self) -> bool {
        self.differences > 0
    }

    pub fn print(&self) {
        println!(
            "{:<28}{:>12}{:>12}{:>14}",
            "", "pages", "selectors", "answers"
        );
        let mut all = Counts::default();
        for (own, name) in UNDER {
            let under = self.print_counts(own);
            line(&format!("all under {name}"), &under);
            all.add(&under);
        }
        line("all", &all);
        println!();
        println!("known departures (docs/DIFFERENCES.md):");
        for (count, (_, name)) in self.departures.iter().zip(DEPARTURES) {
            println!("{count:>12} {name}");
        }
        println!();
        for (covered, (_, name)) in self.covered.iter().zip(UNDER) {
            println!("under {name}:");
            covered.print();
        }
        self.others.print();
        println!();
        for (kind, input, difference) in &self.shown {
            show(*kind, input, difference);
        }
        println!("{} differences", self.differences);
    }

    /// The counts of the kinds with profiles of their own, or of those without. Answers their sum.
    fn print_counts(&self, own: bool) -> Counts {
        let mut all = Counts::default();
        let of_kinds = self.counts.iter().zip(KINDS);
        for (counts, (_, name)) in of_kinds.filter(|(_, (kind, _))| kind.has_profile() == own) {
            line(name, counts);
            all.add(counts);
        }
        all
    }
}

impl Others {
    fn print(&self) {
        println!(
            "{:>12} pages were compared under other profiles than tl's",
            self.pages
        );
        println!(
            "{:>12} of their profiles are refused as 14",
            self.profiles_refused
        );
        println!(
            "{:>12} of the answers are refused as 14",
            self.refused_as_14
        );
        println!(
            "{:>12} of the pages are longer than their profiles allow",
            self.too_long
        );
    }
}

impl Covered {
    fn print(&self) {
        println!(
            "{:>12} of the answers are to a list of handles, {} handles together",
            self.lists, self.listed
        );
        println!(
            "{:>12} tags with a repeated attribute name",
            self.repeating_tags
        );
        println!(
            "{:>12} of the answers are to a lookup with fallbacks: {} hand them back, {} an empty value",
            self.with_fallbacks, self.fell_back, self.empty_values
        );
        println!("{:>12} pages that are not UTF-8", self.not_utf8);
        println!(
            "{:>12} pages with the most nodes that so many bytes may have",
            self.densest
        );
        for (count, (_, name)) in self.ended.iter().zip(ENDINGS) {
            println!("{count:>12} {name}");
        }
        let [all, finished] = self.in_view;
        println!("{all:>12} of the answers are in the view of all nodes");
        println!("{finished:>12} of the answers are in that of the finished tags");
        println!(
            "{:>12} of these are not what the view of all nodes finds",
            self.unlike_all
        );
        println!(
            "{:>12} queries in it are below a tag that it does not show",
            self.below_unshown
        );
    }
}

fn add<const N: usize>(sums: &mut [u64; N], more: [u64; N]) {
    for (sum, more) in sums.iter_mut().zip(more) {
        *sum += more;
    }
}

fn line(name: &str, counts: &Counts) {
    println!(
        "{name:<28}{:>12}{:>12}{:>14}",
        counts.pages, counts.selectors, counts.answers
    );
}

fn show(kind: Kind, input: &Input, difference: &Difference) {
    let (what, bytes) = input.bytes();
    let name = KINDS[kind as usize].1;
    let question = short(&difference.question.to_string());
    println!("DIFFERENCE ({name}): {question}");
    println!(
        "  {what:<9} {} bytes: {}",
        bytes.len(),
        short(&bytes.escape_ascii().to_string())
    );
    if !matches!(input, Input::Selector(_)) {
        let profile = input.profile().unwrap_or(&TL_BYTES);
        println!("  profile   {}", profiles::shown(profile));
    }
    if let Some(table) = input.table() {
        println!("  table     {}", short(&table));
    }
    println!("  library   {}", short(&difference.ours));
    println!("  paper     {}", short(&difference.paper));
    if let Some((said, expected)) = &difference.tl {
        println!("  tl        {}", short(said));
        println!("  expected  {}", short(expected));
    }
    println!();
}

fn short(text: &str) -> String {
    let all: Vec<char> = text.chars().collect();
    if all.len() <= LONG {
        return text.to_string();
    }
    let head: String = all[..LONG / 2].iter().collect();
    let tail: String = all[all.len() - LONG / 2..].iter().collect();
    format!("{head} ... {tail}")
}
