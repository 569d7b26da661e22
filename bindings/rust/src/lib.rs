//! tl's HTML reader, lookups and selectors, for Rust programs, from the port of tl 0.7.8 to Rattle, in which every call is
//! proved to answer as its definition says, for every page, table, handle, name and selector.
//!
//! ```
//! let dom = tl_rattle::parse("<tr id=f7 class='fill late'><td data-venue=XLON>120")?;
//! let row = dom.query_selector("tr.fill")?[0];
//! assert_eq!(row.get(&dom).unwrap().name(), Some(&b"tr"[..]));
//! let cell = dom.query_selector_below(row, "td")?[0];
//! assert_eq!(dom.attribute(cell, "data-venue")?.value(), Some(&b"XLON"[..]));
//! assert_eq!(dom.inner_text(cell)?, b"120");
//! # Ok::<(), tl_rattle::Refusal>(())
//! ```
//!
//! A page is any bytes, UTF-8 or not, up to 65,536 of them. A node is named by its [`Handle`], its row in the page's
//! table. What cannot be answered is refused, in the stated conditions only ([`Refusal`]).
//!
//! # A profile per counterparty
//!
//! One sender indents with tabs, another has void tags of its own. A [`Profile`] says which bytes are white in a page, which
//! tag names are void, and how long a page may be. [`parse`] reads as tl does, [`parse_with`] under any profile, and a
//! [`Dom`] asks every lookup under the profile that its page was read with.
//!
//! ```
//! use tl_rattle::{parse_with, Profile};
//! let tabs = Profile::default().with_white(" \n\t")?;
//! let dom = parse_with(&tabs, "<tr\tid=f7\tclass=fill>")?;
//! assert_eq!(dom.query_selector("tr.fill")?.len(), 1);
//! # Ok::<(), Box<dyn std::error::Error>>(())
//! ```
//!
//! # A venue when the page names none
//!
//! Many cells leave out `data-venue` where the usual one is meant. [`Dom::attribute_or`] takes that as a fallback: it hands
//! back the value or the whole fallback, and says which of the three held.
//!
//! ```
//! use tl_rattle::Held;
//! let dom = tl_rattle::parse("<td data-venue=XLON>120</td><td>80</td>")?;
//! let cells = dom.query_selector("td")?;
//! let venue = |cell| dom.attribute_or(cell, "data-venue", "XNYS");
//! assert_eq!(venue(cells[0])?, (&b"XLON"[..], Held::Value(b"XLON")));
//! assert_eq!(venue(cells[1])?, (&b"XNYS"[..], Held::Absent));
//! // of many cells in one call
//! let held = dom.attributes(&cells, "data-venue")?;
//! let venues: Vec<_> = held.iter().map(|held| held.value().unwrap_or(b"XNYS")).collect();
//! assert_eq!(venues, [b"XLON", b"XNYS"]);
//! # Ok::<(), tl_rattle::Refusal>(())
//! ```
//!
//! # A page that broke off
//!
//! A page may end in the middle of a row. The lookups of a [`Dom`] find all rows, that one too, as a dealer wants to see
//! them. Those of [`Dom::finished`] find only tags that are finished: closed by a closing tag with its `>`, or never open.
//! So a position may be counted from them: what a class or selector finds there it finds in the whole page too, with the
//! same text ([`Finished`]).
//!
//! ```
//! let page = "<tr class=fill><td>120</td></tr><tr class=fill><td>80";
//! let dom = tl_rattle::parse(page)?;
//! assert_eq!(dom.query_selector("tr.fill")?.len(), 2);
//! let counted = dom.finished().query_selector("tr.fill")?;
//! assert_eq!(counted.len(), 1);
//! let whole = format!("{page}0</td></tr>");
//! let whole = tl_rattle::parse(&whole)?;
//! assert_eq!(whole.inner_text(counted[0])?, b"120");
//! assert_eq!(whole.finished().query_selector("tr.fill")?.len(), 2);
//! # Ok::<(), tl_rattle::Refusal>(())
//! ```
//!
//! # For those who know tl
//!
//! | tl | here |
//! |---|---|
//! | `parse(&str, options)` | [`parse`], of bytes or text |
//! | `VDom` | [`Dom`] |
//! | `NodeHandle`, `NodeHandle::get` | [`Handle`], [`Handle::get`] |
//! | `Node::{Tag, Raw, Comment}`, `HTMLTag` | [`Node`] with its [`Kind`]: `Tag`, `Text`, `Comment` |
//! | `VDom::nodes`, `VDom::children`, `HTMLTag::children` | [`Dom::nodes`], [`Dom::children`], [`Node::children`] |
//! | `Children::boundaries` | [`Dom::range`] |
//! | `Attributes::get` | [`Dom::attribute`]; with a fallback [`Dom::attribute_or`] |
//! | `VDom::{get_element_by_id, get_elements_by_class_name, query_selector}` | the same of [`Dom`], over all nodes |
//! | tracking of ids and classes | [`Manner::Closed`] |
//! | `queryselector::Selector` | the [`Piece`]s of [`parse_query_selector`] |
//! | white bytes and void tags, which are fixed | [`Profile`] and [`parse_with`]; [`Profile::TL`] has tl's |
//!
//! A lookup's finds are a vector and not an iterator, a text is bytes and not a string, and nothing can be changed.
//!
//! # Layers
//!
//! [`sys`] is the C interface of `libtl.a`; [`calls`] the same on slices that the caller lends, without `unsafe`; [`Dom`]
//! holds a page with its table, and brings the buffers. Each call looks at the whole table once, so a lookup for one tag
//! costs as much as the page has nodes. [`batch`] has calls for many tags at once. What is proved are the calls
//! of the archive; the Rust around them is tested only.
//!
//! `libtl.a` is made by `tools/archive`, for x86-64. The crate takes it from the folder that the environment's
//! `TL_ARCHIVE_DIR` names, else from `target/staticlib` of the repository.

#![deny(missing_docs)]
#![deny(unsafe_op_in_unsafe_fn)]

pub mod batch;
pub mod calls;
mod dom;
mod finished;
mod node;
mod profile;
mod refusal;
mod selector;
pub mod sys;

pub use dom::{parse, parse_into, parse_into_with, parse_with};
pub use dom::{Dom, HTMLVersion, Held, Manner, View};
pub use finished::Finished;
pub use node::{Children, Ended, Handle, Kind, Node, Nodes};
pub use profile::{Profile, ProfileError};
pub use refusal::Refusal;
pub use selector::{parse_query_selector, Joiner, Piece, Simple};

/// The most bytes that a page may have under any profile: the limit of tl's, and the highest that one may set.
pub const MAX_PAGE: usize = 65_536;

/// The most bytes that a selector may have.
pub const MAX_SELECTOR: usize = 128;

/// The words of a table's header, before the first row.
pub const HEADER_WORDS: usize = sys::TL_HEADER as usize;

/// The words of a table's row; a node has one row.
pub const ROW_WORDS: usize = sys::TL_ROW as usize;

/// The words that a table of `nodes` nodes takes: [`HEADER_WORDS`], and [`ROW_WORDS`] for each node.
pub const fn words_for(nodes: usize) -> usize {
    HEADER_WORDS + ROW_WORDS * nodes
}

/// The most nodes that a page of `bytes` bytes has: `(2 * bytes + 1) / 3`, rounded down.
///
/// It is proved for every page under any profile, and that for each length up to [`MAX_PAGE`] some page has as many
/// (`NodeBound` in crates/maxnodes). So [`words_for`] of it is room for any page of that length, and no less would do for
/// all of them.
///
/// ```
/// // a text of one byte, and then two bytes for each tag and one for each text
/// let page = b"a<>a<>a";
/// assert_eq!(tl_rattle::max_nodes(page.len()), 5);
/// assert_eq!(tl_rattle::parse(page)?.len(), 5);
/// # Ok::<(), tl_rattle::Refusal>(())
/// ```
pub const fn max_nodes(bytes: usize) -> usize {
    // in a form that never wraps
    bytes / 3 * 2 + (2 * (bytes % 3) + 1) / 3
}
