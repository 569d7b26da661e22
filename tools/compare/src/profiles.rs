//! What is compared under other profiles than tl's: pages with the tables of their own readings, with those of readings under
//! another profile, and with tables that no reading made.
mod choose;
mod markup;
#[cfg(test)]
mod tests;

pub use choose::{refusals, CHANGES};

use crate::asks::Asks;
use crate::compare;
use crate::execution;
use crate::ffi::LentProfile;
use crate::findings::Findings;
use crate::model::{
    self, limit_of, name_place, name_places, set_limit, tl_profile, Asked, Profile, ProfileBytes,
    NAMES, NAMES_AT, NAME_BYTES, PAGE_LIMIT, TL_BYTES, WHITE_AT, WHITE_BYTES,
};
use crate::pages;
use crate::plan::Kind;
use common::Random;

/// A page with a profile under which it and a table are asked.
#[derive(Clone)]
pub struct Under {
    pub page: Vec<u8>,
    pub profile: ProfileBytes,
    pub table: Table,
}

/// Where the table comes from that is asked.
#[derive(Clone)]
pub enum Table {
    /// the page is read under the profile
    Read,
    /// it is read under another one
    ReadUnder(Box<ProfileBytes>),
    Words(Vec<u32>),
}

/// The parts that can be taken from a profile: its white bytes, its names, and its limit, which then is the longest.
pub const PARTS: usize = WHITE_BYTES + NAMES + 1;

impl Under {
    /// Compares with these in place of the page and the profile: they are the same, in another place of memory.
    pub fn compare(
        &self,
        page: &[u8],
        profile: &LentProfile,
        asks: impl FnOnce(&Asked) -> Asks,
        random: &mut Random,
    ) -> Findings {
        match &self.table {
            Table::Read => compare::page_under(page, profile, asks, random),
            Table::ReadUnder(other) => {
                let table = words_under(page, other);
                compare::table_under(page, profile, &table, asks, random)
            }
            Table::Words(table) => compare::table_under(page, profile, table, asks, random),
        }
    }

    /// The same with another page, unless the table hangs on this one. A limit at the page's length, or next to it, goes with the
    /// page.
    pub fn with_page(&self, page: &[u8]) -> Option<Under> {
        if let Table::Words(_) = self.table {
            return None;
        }
        let mut under = self.clone();
        // 0 where the limit is one below the length, 1 at it, 2 one above
        let near = (limit_of(&self.profile) + 1).wrapping_sub(self.page.len());
        if near <= 2 {
            set_limit(&mut under.profile, (page.len() + near).max(2) as u32 - 1);
        }
        under.page = page.to_vec();
        Some(under)
    }

    /// The same without one of the parts of the profile; nothing if it does not have it.
    pub fn without(&self, part: usize) -> Option<Under> {
        let mut under = self.clone();
        let profile = &mut under.profile;
        match part {
            0..WHITE_BYTES => profile[WHITE_AT + part] = 0,
            _ if part < PARTS - 1 => name_place(profile, part - WHITE_BYTES).fill(0),
            _ => set_limit(profile, PAGE_LIMIT as u32),
        }
        (under.profile != self.profile).then_some(under)
    }
}

/// What is compared under a profile, by its kind and number.
pub fn input(kind: Kind, number: u64, random: &mut Random) -> Under {
    let mut profile = match random.below(6) {
        0 => TL_BYTES,
        _ => choose::fine(random),
    };
    if kind == Kind::ProfileBytes {
        let (place, value) = choose::change(number);
        profile[place] = value;
    }
    let page = match kind {
        Kind::ProfileBytes => markup::short(&rules(&profile), random),
        _ => page(&mut profile, is_long(kind, number), random),
    };
    if kind != Kind::ProfileBytes {
        set_limit(&mut profile, choose::limit(page.len(), random) as u32);
    }
    if kind == Kind::RefusedProfiles {
        choose::spoil(&mut profile, number as usize, random);
    }
    let table = table(kind, &page, &profile, random);
    Under {
        page,
        profile,
        table,
    }
}

/// Now and then a page is as long as any profile allows, or a byte longer or shorter; more often where the calls refuse it at once.
fn is_long(kind: Kind, number: u64) -> bool {
    let once_in = match kind {
        Kind::RefusedProfiles => 500,
        _ => 5_000,
    };
    number % once_in == once_in - 1
}

/// A page that a profile tells from others: mostly made for it; now and then another, with white and names changed so that it has
/// the profile's white and the profile its names.
fn page(profile: &mut ProfileBytes, long: bool, random: &mut Random) -> Vec<u8> {
    let rules = rules(profile);
    let mut page = match random.below(16) {
        _ if long => {
            let length = PAGE_LIMIT - 1 + random.below(3);
            pages::of_length(length, random)
        }
        0 | 1 => pages::of_bytes(random),
        2 | 3 => pages::of_markup(random),
        4 if random.once_in(2) => execution::page(random),
        _ => return markup::of(&rules, random),
    };
    markup::change_white(&mut page, &rules, random);
    if random.once_in(2) {
        choose::add_names(profile, &names_of(&page, &rules), random);
    }
    match random.below(4) {
        _ if long => {}
        0 => pages::damage(&mut page, random),
        1 => pages::spoil(&mut page, random),
        _ => {}
    }
    page
}

/// The names of a page's tags, as far as a profile can hold them.
fn names_of(page: &[u8], rules: &Profile) -> Vec<Vec<u8>> {
    let rows = model::read(page, rules).rows;
    let names = rows.iter().map(|row| &page[row.name.0..row.name.1]);
    let named = names.filter(|name| !name.is_empty());
    named
        .map(|name| name[..name.len().min(NAME_BYTES)].to_vec())
        .collect()
}

/// The table of a reading, of another profile's, or a changed one.
fn table(kind: Kind, page: &[u8], profile: &ProfileBytes, random: &mut Random) -> Table {
    let others = match kind {
        Kind::OtherProfiles => true,
        Kind::RefusedProfiles => random.once_in(2),
        _ => false,
    };
    if !others {
        return Table::Read;
    }
    match random.below(4) {
        0 => Table::ReadUnder(Box::new(TL_BYTES)),
        1 => {
            let mut words = words_under(page, profile);
            pages::change_table(&mut words, page.len(), random);
            Table::Words(words)
        }
        _ => Table::ReadUnder(Box::new(choose::fine(random))),
    }
}

/// The table that a reading leaves, under tl's profile if this one is refused.
fn words_under(page: &[u8], profile: &ProfileBytes) -> Vec<u32> {
    let rules = rules(profile);
    model::words_of(page.len(), &model::read(page, &rules))
}

fn rules(profile: &ProfileBytes) -> Profile {
    Profile::of(profile).unwrap_or_else(|| tl_profile().clone())
}

/// A profile in words, with the places of its names.
pub fn shown(profile: &ProfileBytes) -> String {
    if *profile == TL_BYTES {
        return String::from("tl's");
    }
    let names = name_places(profile)
        .enumerate()
        .filter_map(|(place, name)| {
            let last = name.iter().rposition(|&byte| byte != 0)?;
            Some(format!("{place} `{}`", name[..=last].escape_ascii()))
        });
    let names = names.collect::<Vec<_>>().join(", ");
    let refused = match Profile::of(profile) {
        Some(_) => "",
        None => "refused as 14: ",
    };
    let white = &profile[WHITE_AT..NAMES_AT];
    let limit = limit_of(profile);
    format!("{refused}limit {limit}, white {white:?}, names {names}")
}
