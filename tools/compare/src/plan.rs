//! Which inputs a run compares: so many of each kind, in batches. An input depends on its kind, its number and the seed
//! alone, so a run is the same whatever the number of threads.
use crate::asks::Asks;
use crate::compare;
use crate::ffi::LentProfile;
use crate::findings::Findings;
use crate::model::{self, tl_profile, ProfileBytes, PAGE_LIMIT, SELECTOR_LIMIT};
use crate::profiles::{self, Table, Under};
use crate::question::Question;
use crate::{execution, pages, selectors};
use common::Random;
use std::ops::Range;

#[derive(Clone, Copy, Debug, PartialEq, Eq)]
pub enum Kind {
    Checked,
    CheckedSelectors,
    ShortPages,
    Parts,
    Characters,
    Bytes,
    Markup,
    Executions,
    Cuts,
    Damaged,
    NotUtf8,
    Lengths,
    Nested,
    Tables,
    ManyRows,
    ShortSelectors,
    Selectors,
    Ends,
    ProfileBytes,
    Profiles,
    OtherProfiles,
    RefusedProfiles,
}

impl Kind {
    /// Whether the inputs come with a profile of their own; the others go by tl's.
    pub fn has_profile(self) -> bool {
        self as usize >= Kind::ProfileBytes as usize
    }
}

pub const KINDS: [(Kind, &str); 22] = [
    (Kind::Checked, "the paper's pages"),
    (Kind::CheckedSelectors, "the paper's selectors"),
    (Kind::ShortPages, "every short page"),
    (Kind::Parts, "every short row of parts"),
    (Kind::Characters, "every character in values"),
    (Kind::Bytes, "random bytes"),
    (Kind::Markup, "random markup"),
    (Kind::Executions, "execution pages"),
    (Kind::Cuts, "execution pages cut off"),
    (Kind::Damaged, "damaged pages"),
    (Kind::NotUtf8, "pages with bad UTF-8"),
    (Kind::Lengths, "pages around the limit"),
    (Kind::Nested, "pages nested deep"),
    (Kind::Tables, "changed tables"),
    (Kind::ManyRows, "tables of many rows"),
    (Kind::ShortSelectors, "every short selector"),
    (Kind::Selectors, "random selectors"),
    (Kind::Ends, "tables of tags that end anywhere"),
    (Kind::ProfileBytes, "every byte of a profile"),
    (Kind::Profiles, "random profiles"),
    (Kind::OtherProfiles, "tables of another profile"),
    (Kind::RefusedProfiles, "profiles refused as 14"),
];

/// Inputs of one kind, by their numbers.
pub struct Batch {
    pub kind: Kind,
    pub numbers: Range<u64>,
}

/// What is compared.
pub enum Input {
    /// a page, and selectors that it is asked for besides those chosen at random
    Page(Vec<u8>, &'static [&'static str]),
    /// a page with a table
    Table(Vec<u8>, Vec<u32>),
    Selector(Vec<u8>),
    /// a page with a profile of its own
    Under(Box<Under>),
}

/// The inputs of a run of about so many pages under tl's profile, and of half as many under others.
pub fn batches(pages: u64) -> Vec<Batch> {
    let mut all = Vec::new();
    for (kind, _) in KINDS {
        let (count, at_once) = size(kind, pages);
        let mut from = 0;
        while from < count {
            let to = count.min(from + at_once);
            let numbers = from..to;
            all.push(Batch { kind, numbers });
            from = to;
        }
    }
    all
}

/// How many inputs of a kind there are, and how many of them make a batch.
fn size(kind: Kind, pages: u64) -> (u64, u64) {
    let short = all_up_to(pages::ALPHABET.len(), pages * 60 / 100);
    let parts = all_up_to(pages::PARTS.len(), pages * 15 / 100);
    // what the complete lists leave over is shared out among the random kinds
    let rest = pages.saturating_sub(short + parts);
    match kind {
        Kind::Checked => (pages::CHECKED.len() as u64 + 2, 1_000),
        Kind::CheckedSelectors => (selectors::CHECKED.len() as u64 + 2, 1_000),
        Kind::ShortPages => (short, 10_000),
        Kind::Parts => (parts, 4_000),
        Kind::Characters => (pages::CHARACTERS.min(rest / 5), 4_000),
        Kind::Bytes => (rest * 28 / 100, 4_000),
        Kind::Markup => (rest * 28 / 100, 4_000),
        Kind::Executions => (rest * 2 / 100, 200),
        // one number is a page with all its cuts, some 750 of them
        Kind::Cuts => (rest * 12 / 100 / 750, 1),
        Kind::Damaged => (rest * 10 / 100, 1_000),
        Kind::NotUtf8 => (rest * 10 / 100, 1_000),
        Kind::Lengths => (rest / 5_000, 4),
        Kind::Nested => (rest / 1_000, 50),
        Kind::Tables => (rest * 10 / 100, 2_000),
        Kind::ManyRows => (rest / 30_000, 1),
        Kind::Ends => (rest / 10_000, 4),
        Kind::ShortSelectors => (
            all_up_to(selectors::ALPHABET.len(), pages * 30 / 100),
            20_000,
        ),
        Kind::Selectors => (pages / 5, 10_000),
        // together half as many as are compared under tl's profile
        Kind::ProfileBytes => (profiles::CHANGES.min(pages * 6 / 100), 4_000),
        Kind::Profiles => (pages * 27 / 100, 2_000),
        Kind::OtherProfiles => (pages * 10 / 100, 2_000),
        Kind::RefusedProfiles => (pages * 7 / 100, 2_000),
    }
}

/// How many rows of letters there are up to the greatest length at which they are at most so many.
fn all_up_to(letters: usize, most: u64) -> u64 {
    let mut length = 0;
    while pages::rows_up_to(letters, length + 1) <= most {
        length += 1;
    }
    pages::rows_up_to(letters, length)
}

impl Batch {
    /// Makes each input of the batch and hands it on, with what is random about asking it.
    pub fn each(&self, seed: u64, mut take: impl FnMut(Input, Random)) {
        for number in self.numbers.clone() {
            let mut random = Random::for_input(seed, self.kind as u64, number);
            if self.kind == Kind::Cuts {
                let page = execution::page(&mut random);
                for end in 0..=page.len() {
                    let again = Random::new(random.draw());
                    take(Input::Page(page[..end].to_vec(), &[]), again);
                }
            } else {
                let input = input(self.kind, number, &mut random);
                take(input, random);
            }
        }
    }
}

fn input(kind: Kind, number: u64, random: &mut Random) -> Input {
    match kind {
        Kind::Characters => Input::Page(pages::of_character(number), &pages::AROUND_CHARACTER),
        Kind::Tables | Kind::ManyRows | Kind::Ends => {
            let (page, table) = with_table(kind, number, random);
            Input::Table(page, table)
        }
        Kind::CheckedSelectors => {
            Input::Selector(checked(&selectors::CHECKED, number, SELECTOR_LIMIT))
        }
        Kind::ShortSelectors => {
            let letters = selectors::ALPHABET.each_ref().map(std::slice::from_ref);
            Input::Selector(pages::row_of(&letters, number))
        }
        Kind::Selectors => Input::Selector(some_selector(random)),
        _ if kind.has_profile() => Input::under(profiles::input(kind, number, random)),
        _ => Input::Page(page(kind, number, random), &[]),
    }
}

fn page(kind: Kind, number: u64, random: &mut Random) -> Vec<u8> {
    match kind {
        Kind::Checked => checked(&pages::CHECKED, number, PAGE_LIMIT),
        Kind::ShortPages => pages::row_of(&pages::ALPHABET, number),
        Kind::Parts => pages::row_of(&pages::PARTS, number),
        Kind::Bytes => pages::of_bytes(random),
        Kind::Markup => pages::of_markup(random),
        Kind::Damaged => {
            let mut page = some_page(random);
            pages::damage(&mut page, random);
            page
        }
        Kind::NotUtf8 => {
            let mut page = some_page(random);
            pages::spoil(&mut page, random);
            page
        }
        Kind::Lengths => {
            let over = random.below(5) + number as usize % 2 * random.below(3000);
            pages::of_length(PAGE_LIMIT - 2 + over, random)
        }
        Kind::Nested => {
            let depth = match random.below(40) {
                0 => 3_000,
                _ => 1000 / (1 + random.below(100)),
            };
            pages::nested(depth, random)
        }
        _ => execution::page(random),
    }
}

/// A page with a table that no reading need have made.
fn with_table(kind: Kind, number: u64, random: &mut Random) -> (Vec<u8>, Vec<u32>) {
    match kind {
        Kind::ManyRows => {
            // around the most rows that a page has, those of a short page to the calls on a list, and more
            let rows = match number % 4 {
                0 => model::max_nodes(PAGE_LIMIT) - 2 + random.below(5),
                1 | 2 => 4_096 - 2 + random.below(5),
                _ => 40_000 + random.below(20_000),
            };
            pages::with_rows(rows, random)
        }
        Kind::Ends => pages::with_ends(random),
        _ => {
            let page = pages::of_markup(random);
            let mut table = model::words_of(page.len(), &model::read(&page, tl_profile()));
            pages::change_table(&mut table, page.len(), random);
            (page, table)
        }
    }
}

/// One of a list, and after these the letters `a` up to a limit and one over it.
fn checked(list: &[&str], number: u64, limit: usize) -> Vec<u8> {
    match list.get(number as usize) {
        Some(text) => text.as_bytes().to_vec(),
        None => vec![b'a'; limit + number as usize - list.len()],
    }
}

/// A page to be damaged: mostly a random one, now and then an execution page.
fn some_page(random: &mut Random) -> Vec<u8> {
    match random.below(4) {
        0 => execution::page(random),
        _ => pages::of_markup(random),
    }
}

fn some_selector(random: &mut Random) -> Vec<u8> {
    match random.below(4) {
        0 => selectors::any(random),
        1 => selectors::around_limit(random),
        2 => {
            let length = random.below(2 * SELECTOR_LIMIT);
            selectors::of_length(length, random)
        }
        _ => {
            let mut selector = selectors::about(&selectors::Words::default(), random);
            if random.once_in(2) {
                pages::damage(&mut selector, random);
            }
            selector
        }
    }
}

impl Input {
    fn under(under: Under) -> Input {
        Input::Under(Box::new(under))
    }

    pub fn compare(&self, random: &mut Random) -> Findings {
        // What is asked, and how, are two sources, so that the first does not hang on the second.
        let mut choice = Random::new(random.draw());
        let also: &[&str] = match self {
            Input::Page(_, also) => also,
            _ => &[],
        };
        self.compare_with(|asked| Asks::of_page(asked, &mut choice).also(also), random)
    }

    /// The question of a difference once more, of this input.
    pub fn compare_again(&self, question: &Question, random: &mut Random) -> Findings {
        self.compare_with(|asked| Asks::again(question, asked), random)
    }

    fn compare_with(
        &self,
        asks: impl FnOnce(&model::Asked) -> Asks,
        random: &mut Random,
    ) -> Findings {
        let (lent, place) = among_others(self.bytes().1, random);
        let bytes = &lent[place];
        match self {
            Input::Page(..) => compare::page(bytes, asks, random),
            Input::Table(_, table) => compare::table(bytes, table, asks, random),
            Input::Selector(_) => compare::selector(bytes),
            Input::Under(under) => {
                let (before, after) = others(random);
                let profile = LentProfile::among(before, &under.profile, after);
                under.compare(bytes, &profile, asks, random)
            }
        }
    }

    /// The profile, if the input has one of its own.
    pub fn profile(&self) -> Option<&ProfileBytes> {
        match self {
            Input::Under(under) => Some(&under.profile),
            _ => None,
        }
    }

    /// The table in words, or where it comes from, if it is not that of the page's own reading.
    pub fn table(&self) -> Option<String> {
        let under = match self {
            Input::Table(_, table) => return Some(format!("{table:?}")),
            Input::Under(under) => under,
            _ => return None,
        };
        match &under.table {
            Table::Read => None,
            Table::ReadUnder(other) => Some(format!("read under {}", profiles::shown(other))),
            Table::Words(table) => Some(format!("{table:?}")),
        }
    }

    /// The same without a part of its profile, by its number; nothing if it does not have it.
    pub fn without(&self, part: usize) -> Option<Input> {
        match self {
            Input::Under(under) => under.without(part).map(Input::under),
            _ => None,
        }
    }

    /// The bytes that can be made fewer, and what they are.
    pub fn bytes(&self) -> (&'static str, &[u8]) {
        match self {
            Input::Page(page, _) | Input::Table(page, _) => ("page", page),
            Input::Selector(selector) => ("selector", selector),
            Input::Under(under) => ("page", &under.page),
        }
    }

    /// The same kind of input with other bytes; nothing where a table hangs on them.
    pub fn with_bytes(&self, bytes: &[u8]) -> Option<Input> {
        match self {
            Input::Page(_, also) => Some(Input::Page(bytes.to_vec(), also)),
            Input::Table(..) => None,
            Input::Selector(_) => Some(Input::Selector(bytes.to_vec())),
            Input::Under(under) => under.with_page(bytes).map(Input::under),
        }
    }
}

/// Bytes with others before and after them, at any place in memory: one that is read beyond their ends would show.
fn among_others(bytes: &[u8], random: &mut Random) -> (Vec<u8>, Range<usize>) {
    let (before, after) = others(random);
    let lent = [before, bytes, after].concat();
    (lent, before.len()..before.len() + bytes.len())
}

/// What stands before and after lent bytes.
fn others(random: &mut Random) -> (&'static [u8], &'static [u8]) {
    const BEFORE: &[u8] = b"<a id=\"<!--<b c=";
    const AFTER: [&[u8]; 4] = [b">\"-->a=b]", b"-->", b"]a", b"html a=b></a>"];
    let before = random.below(BEFORE.len());
    (&BEFORE[..before], random.pick(&AFTER))
}
