//! A page and its table as they are lent to a call, and through `sys` the calls that have a view: by its number, and with
//! what a call leaves.

use tl_rattle::{parse, sys, Profile};

/// The number of the view of all nodes, and some of the finished tags'.
pub const VIEWS: [u32; 4] = [sys::TL_VIEW_ALL, sys::TL_VIEW_FINISHED, 2, u32::MAX];

/// What counts and answers hold before a call.
pub const FULL: usize = usize::MAX;

/// A page, a table for it, and the profile that both are asked under.
pub struct Lent {
    pub profile: Profile,
    pub page: Vec<u8>,
    pub table: Vec<u32>,
}

impl Lent {
    pub fn read(page: &str) -> Lent {
        Lent {
            profile: Profile::TL,
            page: page.into(),
            table: parse(page).unwrap().table().to_vec(),
        }
    }
}

pub fn id(lent: &Lent, manner: u32, view: u32, id: &[u8]) -> (u32, [usize; 2]) {
    let mut answer = [FULL; 2];
    // SAFETY: a profile, slices with their lengths, and an answer of two
    let said = unsafe {
        sys::tl_get_element_by_id(
            lent.profile.as_raw(),
            lent.page.as_ptr(),
            lent.page.len(),
            lent.table.as_ptr(),
            lent.table.len(),
            manner,
            view,
            id.as_ptr(),
            id.len(),
            answer.as_mut_ptr(),
        )
    };
    (said, answer)
}

pub fn class(lent: &Lent, manner: u32, view: u32, class: &[u8], out: &mut [u32]) -> (u32, usize) {
    let mut count = FULL;
    // SAFETY: a profile, slices with their lengths, and a count of this function's own
    let said = unsafe {
        sys::tl_get_elements_by_class_name(
            lent.profile.as_raw(),
            lent.page.as_ptr(),
            lent.page.len(),
            lent.table.as_ptr(),
            lent.table.len(),
            manner,
            view,
            class.as_ptr(),
            class.len(),
            out.as_mut_ptr(),
            out.len(),
            &mut count,
        )
    };
    (said, count)
}

pub fn query(lent: &Lent, view: u32, selector: &[u8], out: &mut [u32]) -> (u32, usize) {
    let mut count = FULL;
    // SAFETY: a profile, slices with their lengths, and a count of this function's own
    let said = unsafe {
        sys::tl_query_selector(
            lent.profile.as_raw(),
            lent.page.as_ptr(),
            lent.page.len(),
            lent.table.as_ptr(),
            lent.table.len(),
            view,
            selector.as_ptr(),
            selector.len(),
            out.as_mut_ptr(),
            out.len(),
            &mut count,
        )
    };
    (said, count)
}

pub fn below(
    lent: &Lent,
    handle: usize,
    view: u32,
    selector: &[u8],
    out: &mut [u32],
) -> (u32, usize) {
    let mut count = FULL;
    // SAFETY: a profile, slices with their lengths, and a count of this function's own
    let said = unsafe {
        sys::tl_query_selector_below(
            lent.profile.as_raw(),
            lent.page.as_ptr(),
            lent.page.len(),
            lent.table.as_ptr(),
            lent.table.len(),
            handle,
            view,
            selector.as_ptr(),
            selector.len(),
            out.as_mut_ptr(),
            out.len(),
            &mut count,
        )
    };
    (said, count)
}
