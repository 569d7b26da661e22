//! The pages of a run, with what is asked of them.

use common::Random;
use tl_rattle::Profile;

use crate::questions::{questions, Extent, Questions};
use crate::{pages, profiles};

/// Every name and the text of every tag, and many selectors; of a long page fewer.
pub const SHORT: Extent = Extent {
    names: usize::MAX,
    classes: 4,
    selectors: 26,
    tags: usize::MAX,
    below: 4,
};
const LONG: Extent = Extent {
    names: 40,
    classes: 4,
    selectors: 8,
    tags: 12,
    below: 4,
};

/// A part of a run: pages of up to 400 bytes or longer ones, by tl's profile or each by a random one.
#[derive(Clone, Copy, PartialEq, Eq)]
pub struct Part {
    pub long: bool,
    pub random_profile: bool,
}

impl Part {
    pub fn name(self) -> &'static str {
        match (self.long, self.random_profile) {
            (false, false) => "page",
            (true, false) => "long page",
            (false, true) => "page with a profile",
            (true, true) => "long page with a profile",
        }
    }

    /// The stream of a page, another one for each page of each part.
    fn random(self, seed: u64, number: usize) -> Random {
        let part = u64::from(self.long) + (u64::from(self.random_profile) << 40);
        Random::for_page(seed, 2 * number as u64 + part)
    }
}

/// A page, what is asked of it, and the profile that serves for both; `random` decides the rest.
pub struct Case {
    pub profile: Profile,
    pub page: Vec<u8>,
    pub questions: Questions,
    pub random: Random,
}

/// The page of a number.
pub fn case(seed: u64, number: usize, part: Part) -> Case {
    let mut random = part.random(seed, number);
    let kind = pages::KINDS[number % pages::KINDS.len()];
    let length = match (part.long, random.below(4)) {
        (true, _) => random.between(2048, 5120),
        (false, 0) => random.between(0, 40),
        (false, _) => random.between(0, 400),
    };
    let mut page = pages::page(&mut random, kind, length);
    let mut profile = Profile::TL;
    if part.random_profile {
        profile = profiles::profile(&mut random, &page);
        page = profiles::adapted(&mut random, &profile, page);
    }
    let dom = tl_rattle::parse_with(&profile, &page).expect("it is not too long");
    let questions = questions(&mut random, &dom, if part.long { &LONG } else { &SHORT });
    if part.random_profile {
        profile = profiles::with_limit(&mut random, &profile, page.len());
    }
    Case {
        profile,
        page,
        questions,
        random,
    }
}
