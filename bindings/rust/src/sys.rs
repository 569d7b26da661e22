//! The C interface as include/tl.h declares it.
//!
//! A call returns the number of its refusal, 0 if it is accepted. A refusal leaves what `count` or `answer` points to, and
//! the buffer to be written, all zeros. An accepted call fills the buffer's first entries and leaves the rest as it was.
//! Nothing is kept between calls and nothing is allocated.
//!
//! # Safety
//!
//! A page, name, selector or buffer is a pointer and the number of its entries. The pointer must be one of as many
//! entries, aligned for their type, and not null even if there are none; `profile` must point to one profile; what is lent
//! to be written must overlap nothing else that is lent. `count` points to one `usize`, `answer` to two or three, as the
//! call says. These are the only conditions; no call asks anything of what the entries hold.

use std::mem::size_of;

/// What a counterparty's pages are like; [`crate::Profile`] has one, and says what it means.
#[repr(C)]
#[derive(Debug, Clone, Copy, PartialEq, Eq, Hash)]
#[allow(non_camel_case_types)]
pub struct tl_profile {
    /// The most bytes of a page that is read, 1 to 65,536.
    pub limit: u32,
    /// The white bytes, each 1 to 32; 0 in a place where there is none.
    pub white: [u8; 4],
    /// The void names, each of 1 to 16 bytes with zeros behind them; all zeros in a place where there is none.
    pub void_names: [[u8; 16]; 24],
}

const _: () = assert!(size_of::<tl_profile>() == 392);

/// tl's own profile.
pub const TL_PROFILE_DEFAULT: tl_profile = tl_profile {
    limit: 65_536,
    white: [b' ', b'\n', 0, 0],
    void_names: [
        *b"area\0\0\0\0\0\0\0\0\0\0\0\0",
        *b"base\0\0\0\0\0\0\0\0\0\0\0\0",
        *b"br\0\0\0\0\0\0\0\0\0\0\0\0\0\0",
        *b"col\0\0\0\0\0\0\0\0\0\0\0\0\0",
        *b"embed\0\0\0\0\0\0\0\0\0\0\0",
        *b"hr\0\0\0\0\0\0\0\0\0\0\0\0\0\0",
        *b"img\0\0\0\0\0\0\0\0\0\0\0\0\0",
        *b"input\0\0\0\0\0\0\0\0\0\0\0",
        *b"keygen\0\0\0\0\0\0\0\0\0\0",
        *b"link\0\0\0\0\0\0\0\0\0\0\0\0",
        *b"meta\0\0\0\0\0\0\0\0\0\0\0\0",
        *b"param\0\0\0\0\0\0\0\0\0\0\0",
        *b"source\0\0\0\0\0\0\0\0\0\0",
        *b"track\0\0\0\0\0\0\0\0\0\0\0",
        *b"wbr\0\0\0\0\0\0\0\0\0\0\0\0\0",
        [0; 16],
        [0; 16],
        [0; 16],
        [0; 16],
        [0; 16],
        [0; 16],
        [0; 16],
        [0; 16],
        [0; 16],
    ],
};

/// The manner of a lookup over all tags.
pub const TL_SCAN: u32 = 0;
/// The manner of a lookup over the closed tags, in closing order. Any number but 0 stands for it.
pub const TL_CLOSED: u32 = 1;
/// The view of all nodes.
pub const TL_VIEW_ALL: u32 = 0;
/// The view of the finished tags alone (word 8 is 1 or 3), in a scan or a query. Any number but 0 stands for it; in the closed
/// manner it is ignored.
pub const TL_VIEW_FINISHED: u32 = 1;
/// The words of a table's header, before the first row.
pub const TL_HEADER: u32 = 8;
/// The words of a row.
pub const TL_ROW: u32 = 9;
/// Word 8 of a tag's row: the tag is open at the end of the page. A text and a comment have the same number there.
pub const TL_ENDED_OPEN: u32 = 0;
/// Word 8 of a tag's row: a closing tag with its `>` closed the tag.
pub const TL_ENDED_CLOSED: u32 = 1;
/// Word 8 of a tag's row: a closing tag that the page's end cut short closed the tag.
pub const TL_ENDED_CUT_SHORT: u32 = 2;
/// Word 8 of a tag's row: the tag was never open, as its name is void or a `/` follows its name and attributes.
pub const TL_ENDED_NEVER_OPENED: u32 = 3;

extern "C" {
    /// Reads a page into a table. `*count`: its nodes. Refused as 14, 1, 2.
    pub fn tl_parse(
        profile: *const tl_profile,
        page: *const u8,
        page_len: usize,
        table: *mut u32,
        table_len: usize,
        count: *mut usize,
    ) -> u32;

    /// The handles below a tag. `answer`, three entries: how many, the first, the last. Refused as 14, 1, 3, 4.
    pub fn tl_range(
        profile: *const tl_profile,
        page: *const u8,
        page_len: usize,
        table: *const u32,
        table_len: usize,
        handle: usize,
        answer: *mut usize,
    ) -> u32;

    /// What a tag holds for an attribute name. `answer`, three entries: 0 absent, 1 without a value, 2 with a value;
    /// where that starts in the page, and ends. A caller with a fallback of its own takes these bytes if the first is 2, even
    /// where there are none, and else the whole fallback. Refused as 14, 1, 3, 4.
    pub fn tl_attribute(
        profile: *const tl_profile,
        page: *const u8,
        page_len: usize,
        table: *const u32,
        table_len: usize,
        handle: usize,
        name: *const u8,
        name_len: usize,
        answer: *mut usize,
    ) -> u32;

    /// The text below a tag. `*count`: its bytes. Refused as 14, 1, 3, 4, 7.
    pub fn tl_inner_text(
        profile: *const tl_profile,
        page: *const u8,
        page_len: usize,
        table: *const u32,
        table_len: usize,
        handle: usize,
        out: *mut u8,
        out_len: usize,
        count: *mut usize,
    ) -> u32;

    /// The tag with an id: in the scan the lowest handle that the view shows, else the one closed last. `answer`, two
    /// entries: how many (0 or 1), the handle. Refused as 14, 1, 3.
    pub fn tl_get_element_by_id(
        profile: *const tl_profile,
        page: *const u8,
        page_len: usize,
        table: *const u32,
        table_len: usize,
        manner: u32,
        view: u32,
        id: *const u8,
        id_len: usize,
        answer: *mut usize,
    ) -> u32;

    /// The tags with a class: in the scan those that the view shows, each once, in handle order, else in closing order, once
    /// for each time. `*count`: the handles written. Refused as 14, 1, 3, 7.
    pub fn tl_get_elements_by_class_name(
        profile: *const tl_profile,
        page: *const u8,
        page_len: usize,
        table: *const u32,
        table_len: usize,
        manner: u32,
        view: u32,
        name: *const u8,
        name_len: usize,
        out: *mut u32,
        out_len: usize,
        count: *mut usize,
    ) -> u32;

    /// Reads a selector into 6 words a piece: kind (1 tag, 2 `#`, 3 `.`, 4 `*`, 5 `[k]`, 6 `[k=v]`, 7 `~=`, 8 `^=`,
    /// 9 `$=`, 10 `*=`), start and end of the first name, of the second, joiner (0 end, 1 and, 2 or, 3 descendant,
    /// 4 parent). `*count`: its pieces. Refused as 5, 6, 7.
    pub fn tl_parse_query_selector(
        selector: *const u8,
        selector_len: usize,
        out: *mut u32,
        out_len: usize,
        count: *mut usize,
    ) -> u32;

    /// The nodes that the view shows and a selector finds, in handle order. `*count`: the handles written. Refused as 14, 1,
    /// 3, 5, 6, 7.
    pub fn tl_query_selector(
        profile: *const tl_profile,
        page: *const u8,
        page_len: usize,
        table: *const u32,
        table_len: usize,
        view: u32,
        selector: *const u8,
        selector_len: usize,
        out: *mut u32,
        out_len: usize,
        count: *mut usize,
    ) -> u32;

    /// The same of the nodes below a tag, which need not be finished. Refused as 14, 1, 3, 4, 5, 6, 7.
    pub fn tl_query_selector_below(
        profile: *const tl_profile,
        page: *const u8,
        page_len: usize,
        table: *const u32,
        table_len: usize,
        handle: usize,
        view: u32,
        selector: *const u8,
        selector_len: usize,
        out: *mut u32,
        out_len: usize,
        count: *mut usize,
    ) -> u32;

    /// What each tag of a list of handles holds for an attribute name, as [`tl_attribute`] answers: 3 words a handle.
    /// `*count`: the handles. Refused as 14, 1, 3, 4 (a handle of the list is no tag's), 7.
    pub fn tl_attributes(
        profile: *const tl_profile,
        page: *const u8,
        page_len: usize,
        table: *const u32,
        table_len: usize,
        handles: *const u32,
        handles_len: usize,
        name: *const u8,
        name_len: usize,
        out: *mut u32,
        out_len: usize,
        count: *mut usize,
    ) -> u32;

    /// What each tag of a list of handles holds for each of several attribute names: 3 words a name, a handle's words
    /// together. `names` is one text: name j stands from the end of the one before (0 for the first) up to `ends[j]`;
    /// places past the text's end count as its end. `*count`: the handles. Refused as 14, 1, 3, 4 (a handle of the list is no
    /// tag's), 7.
    pub fn tl_attributes_for_names(
        profile: *const tl_profile,
        page: *const u8,
        page_len: usize,
        table: *const u32,
        table_len: usize,
        handles: *const u32,
        handles_len: usize,
        names: *const u8,
        names_len: usize,
        ends: *const usize,
        ends_len: usize,
        out: *mut u32,
        out_len: usize,
        count: *mut usize,
    ) -> u32;

    /// The texts below each tag of a list of handles, one after the other in `out`, and where each ends. `*count`: the
    /// handles. A refusal leaves both `ends` and `out` all zeros. Refused as 14, 1, 3, 4 (a handle of the list is no
    /// tag's), 7.
    pub fn tl_inner_texts(
        profile: *const tl_profile,
        page: *const u8,
        page_len: usize,
        table: *const u32,
        table_len: usize,
        handles: *const u32,
        handles_len: usize,
        ends: *mut usize,
        ends_len: usize,
        out: *mut u8,
        out_len: usize,
        count: *mut usize,
    ) -> u32;
}
