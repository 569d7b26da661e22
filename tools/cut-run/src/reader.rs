//! The calls that the comparison asks.

use tl_rattle::calls::{self, HeldAt};
use tl_rattle::{Manner, Profile, Refusal, View};

use crate::fallback;

pub trait Reader {
    fn parse(&self, profile: &Profile, page: &[u8], table: &mut [u32]) -> Result<usize, Refusal> {
        calls::parse(profile, page, table)
    }

    fn attribute(&self, asked: Asked<'_>, handle: u32, name: &[u8]) -> Result<HeldAt, Refusal> {
        let (profile, page, table) = asked.all();
        calls::attribute(profile, page, table, handle as usize, name)
    }

    /// The bytes that a page hands back with a fallback, by what is held there.
    fn handed_back<'f>(
        &self,
        page: &'f [u8],
        held: Result<HeldAt, Refusal>,
        fallback: &'f [u8],
    ) -> Option<&'f [u8]> {
        fallback::handed_back(page, held, fallback)
    }

    fn class(
        &self,
        asked: Asked<'_>,
        view: View,
        class: &[u8],
        out: &mut [u32],
    ) -> Result<usize, Refusal> {
        let (profile, page, table) = asked.all();
        calls::get_elements_by_class_name(profile, page, table, Manner::Scan, view, class, out)
    }

    fn query(
        &self,
        asked: Asked<'_>,
        view: View,
        selector: &[u8],
        out: &mut [u32],
    ) -> Result<usize, Refusal> {
        let (profile, page, table) = asked.all();
        calls::query_selector(profile, page, table, view, selector, out)
    }

    fn below(
        &self,
        asked: Asked<'_>,
        handle: u32,
        view: View,
        selector: &[u8],
        out: &mut [u32],
    ) -> Result<usize, Refusal> {
        let (profile, page, table) = asked.all();
        calls::query_selector_below(profile, page, table, handle as usize, view, selector, out)
    }

    fn text(&self, asked: Asked<'_>, handle: u32, out: &mut [u8]) -> Result<usize, Refusal> {
        let (profile, page, table) = asked.all();
        calls::inner_text(profile, page, table, handle as usize, out)
    }
}

/// A page with its table, and the profile that it was read with.
#[derive(Clone, Copy)]
pub struct Asked<'p> {
    pub profile: &'p Profile,
    pub page: &'p [u8],
    pub table: &'p [u32],
}

impl<'p> Asked<'p> {
    /// The same by another profile.
    pub fn by<'q>(self, profile: &'q Profile) -> Asked<'q>
    where
        'p: 'q,
    {
        Asked { profile, ..self }
    }

    fn all(self) -> (&'p Profile, &'p [u8], &'p [u32]) {
        (self.profile, self.page, self.table)
    }
}

/// The calls as they are.
pub struct Compiled;

impl Reader for Compiled {}
