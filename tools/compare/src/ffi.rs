//! The library's calls, as its own crate declares them (`tl_rattle::sys`), each as a function on slices. The crate's functions are not
//! asked, since they hand back nothing of a refusal but what it is. Here a refusal comes with its number, whatever that is, and with
//! what the call has left.
//!
//! The header asks only that a pointer is not null, aligned, and good for as many entries as the length says, and that what
//! is written overlaps nothing else; Rust's slices and references are always so, empty slices too.
use crate::model::ProfileBytes;
use tl_rattle::sys::{self, tl_profile};
use tl_rattle::Profile;

/// A profile's bytes, and the same as the calls take it: at a place that is aligned for its limit, with other bytes before and after
/// it, so that one that is read beyond its ends would show.
#[repr(C)]
pub struct LentProfile {
    pub bytes: ProfileBytes,
    before: [u8; AROUND],
    pub raw: tl_profile,
    after: [u8; AROUND],
}

/// At most so many bytes stand before a lent profile, and as many after it.
const AROUND: usize = 16;

impl LentProfile {
    pub fn among(before: &[u8], bytes: &ProfileBytes, after: &[u8]) -> LentProfile {
        let mut lent = LentProfile {
            bytes: *bytes,
            before: [0; AROUND],
            raw: *Profile::from_bytes(bytes).as_raw(),
            after: [0; AROUND],
        };
        lent.before[AROUND - before.len()..].copy_from_slice(before);
        lent.after[..after.len()].copy_from_slice(after);
        lent
    }

    pub fn alone(bytes: &ProfileBytes) -> LentProfile {
        LentProfile::among(b"", bytes, b"")
    }
}

/// What a call wrote where it was asked to leave its numbers, and the refusal if it was one. The numbers are there in both
/// cases, so that a refusal's zeros can be looked at.
pub struct Said<const N: usize> {
    pub refusal: u32,
    pub numbers: [usize; N],
}

/// What stands in the numbers before a call, so that one left out would show.
const BEFORE: usize = 0x5a5a_5a5a;

fn call<const N: usize>(with: impl FnOnce(&mut [usize; N]) -> u32) -> Said<N> {
    let mut numbers = [BEFORE; N];
    let refusal = with(&mut numbers);
    Said { refusal, numbers }
}

pub fn parse(profile: &tl_profile, page: &[u8], table: &mut [u32]) -> Said<1> {
    call(|[count]| unsafe {
        sys::tl_parse(
            profile,
            page.as_ptr(),
            page.len(),
            table.as_mut_ptr(),
            table.len(),
            count,
        )
    })
}

pub fn range(profile: &tl_profile, page: &[u8], table: &[u32], handle: usize) -> Said<3> {
    call(|answer| unsafe {
        sys::tl_range(
            profile,
            page.as_ptr(),
            page.len(),
            table.as_ptr(),
            table.len(),
            handle,
            answer.as_mut_ptr(),
        )
    })
}

pub fn attribute(
    profile: &tl_profile,
    page: &[u8],
    table: &[u32],
    handle: usize,
    name: &[u8],
) -> Said<3> {
    call(|answer| unsafe {
        sys::tl_attribute(
            profile,
            page.as_ptr(),
            page.len(),
            table.as_ptr(),
            table.len(),
            handle,
            name.as_ptr(),
            name.len(),
            answer.as_mut_ptr(),
        )
    })
}

pub fn inner_text(
    profile: &tl_profile,
    page: &[u8],
    table: &[u32],
    handle: usize,
    out: &mut [u8],
) -> Said<1> {
    call(|[count]| unsafe {
        sys::tl_inner_text(
            profile,
            page.as_ptr(),
            page.len(),
            table.as_ptr(),
            table.len(),
            handle,
            out.as_mut_ptr(),
            out.len(),
            count,
        )
    })
}

pub fn get_element_by_id(
    profile: &tl_profile,
    page: &[u8],
    table: &[u32],
    manner: u32,
    view: u32,
    id: &[u8],
) -> Said<2> {
    call(|answer| unsafe {
        sys::tl_get_element_by_id(
            profile,
            page.as_ptr(),
            page.len(),
            table.as_ptr(),
            table.len(),
            manner,
            view,
            id.as_ptr(),
            id.len(),
            answer.as_mut_ptr(),
        )
    })
}

pub fn get_elements_by_class_name(
    profile: &tl_profile,
    page: &[u8],
    table: &[u32],
    manner: u32,
    view: u32,
    name: &[u8],
    out: &mut [u32],
) -> Said<1> {
    call(|[count]| unsafe {
        sys::tl_get_elements_by_class_name(
            profile,
            page.as_ptr(),
            page.len(),
            table.as_ptr(),
            table.len(),
            manner,
            view,
            name.as_ptr(),
            name.len(),
            out.as_mut_ptr(),
            out.len(),
            count,
        )
    })
}

pub fn parse_query_selector(selector: &[u8], out: &mut [u32]) -> Said<1> {
    call(|[count]| unsafe {
        sys::tl_parse_query_selector(
            selector.as_ptr(),
            selector.len(),
            out.as_mut_ptr(),
            out.len(),
            count,
        )
    })
}

pub fn query_selector(
    profile: &tl_profile,
    page: &[u8],
    table: &[u32],
    view: u32,
    selector: &[u8],
    out: &mut [u32],
) -> Said<1> {
    call(|[count]| unsafe {
        sys::tl_query_selector(
            profile,
            page.as_ptr(),
            page.len(),
            table.as_ptr(),
            table.len(),
            view,
            selector.as_ptr(),
            selector.len(),
            out.as_mut_ptr(),
            out.len(),
            count,
        )
    })
}

pub fn query_selector_below(
    profile: &tl_profile,
    page: &[u8],
    table: &[u32],
    handle: usize,
    view: u32,
    selector: &[u8],
    out: &mut [u32],
) -> Said<1> {
    call(|[count]| unsafe {
        sys::tl_query_selector_below(
            profile,
            page.as_ptr(),
            page.len(),
            table.as_ptr(),
            table.len(),
            handle,
            view,
            selector.as_ptr(),
            selector.len(),
            out.as_mut_ptr(),
            out.len(),
            count,
        )
    })
}

pub fn attributes(
    profile: &tl_profile,
    page: &[u8],
    table: &[u32],
    handles: &[u32],
    name: &[u8],
    out: &mut [u32],
) -> Said<1> {
    call(|[count]| unsafe {
        sys::tl_attributes(
            profile,
            page.as_ptr(),
            page.len(),
            table.as_ptr(),
            table.len(),
            handles.as_ptr(),
            handles.len(),
            name.as_ptr(),
            name.len(),
            out.as_mut_ptr(),
            out.len(),
            count,
        )
    })
}

pub fn attributes_for_names(
    profile: &tl_profile,
    page: &[u8],
    table: &[u32],
    handles: &[u32],
    names: &[u8],
    ends: &[usize],
    out: &mut [u32],
) -> Said<1> {
    call(|[count]| unsafe {
        sys::tl_attributes_for_names(
            profile,
            page.as_ptr(),
            page.len(),
            table.as_ptr(),
            table.len(),
            handles.as_ptr(),
            handles.len(),
            names.as_ptr(),
            names.len(),
            ends.as_ptr(),
            ends.len(),
            out.as_mut_ptr(),
            out.len(),
            count,
        )
    })
}

pub fn inner_texts(
    profile: &tl_profile,
    page: &[u8],
    table: &[u32],
    handles: &[u32],
    ends: &mut [usize],
    out: &mut [u8],
) -> Said<1> {
    call(|[count]| unsafe {
        sys::tl_inner_texts(
            profile,
            page.as_ptr(),
            page.len(),
            table.as_ptr(),
            table.len(),
            handles.as_ptr(),
            handles.len(),
            ends.as_mut_ptr(),
            ends.len(),
            out.as_mut_ptr(),
            out.len(),
            count,
        )
    })
}
