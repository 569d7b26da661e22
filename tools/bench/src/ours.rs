//! Our calls, with buffers that are made once and lent to every call.
#[cfg(before)]
use crate::before::sys as before;
use crate::timing::best_of;
use std::cell::RefCell;
use std::hint::black_box;
use tl_rattle::{sys, words_for, Profile};

pub const SCAN: u32 = 0;
pub const CLOSED: u32 = 1;

pub const ALL: u32 = 0;
pub const FINISHED: u32 = 1;

/// Rows enough for any page of 65,536 bytes, words for as many finds, and bytes for the texts of all rows.
const NODES: usize = tl_rattle::max_nodes(tl_rattle::MAX_PAGE);
const TEXTS: usize = 256 << 20;

/// Several names as one text, and where each ends.
pub struct Names {
    text: String,
    ends: Vec<usize>,
}

impl Names {
    pub fn new(names: &[&str]) -> Self {
        let mut end = 0;
        let ends = names.iter().map(|name| {
            end += name.len();
            end
        });
        Names {
            ends: ends.collect(),
            text: names.concat(),
        }
    }
}

/// Which calls are asked.
#[derive(Clone, Copy)]
pub enum Calls {
    /// This library's, by a profile.
    By(&'static Profile),
    /// Those of the version before, by one.
    #[cfg(before)]
    Before(&'static Profile),
}

/// This library's, by tl's profile.
pub const BY_TLS: Calls = Calls::By(&Profile::TL);

/// The least times of a call, asked in several ways in turns, in nanoseconds.
pub fn in_turns<const N: usize>(
    reader: &mut Reader,
    ways: [Calls; N],
    call: impl Fn(&mut Reader),
) -> [f64; N] {
    each_way(reader, ways, |reader, calls| {
        reader.calls = calls;
        call(reader);
    })
}

/// The same in the finished view, and in that of all nodes.
pub fn in_views(reader: &mut Reader, call: impl Fn(&mut Reader)) -> [f64; 2] {
    each_way(reader, [FINISHED, ALL], |reader, view| {
        reader.in_view(view, &call)
    })
}

fn each_way<W: Copy, const N: usize>(
    reader: &mut Reader,
    ways: [W; N],
    call: impl Fn(&mut Reader, W),
) -> [f64; N] {
    // one reader for all, so that none has its buffers at a better place
    let reader = RefCell::new(reader);
    best_of(ways.map(|way| {
        let (reader, call) = (&reader, &call);
        move || call(&mut reader.borrow_mut(), way)
    }))
}

/// Lends a reader's page and table to a call, and what else it takes. It must not be refused.
macro_rules! ask {
    ($reader:ident.$call:ident($($other:expr),* $(,)?)) => {{
        let (page, table) = ($reader.page, &mut $reader.table);
        let (page, many, words, room) = (page.as_ptr(), page.len(), table.as_mut_ptr(), table.len());
        // SAFETY: the slices are whole, and none overlaps another.
        let refused = match $reader.calls {
            Calls::By(profile) => unsafe {
                sys::$call(profile.as_raw(), page, many, words, room, $($other),*)
            },
            #[cfg(before)]
            Calls::Before(profile) => unsafe {
                before::$call(profile.as_raw(), page, many, words, room, $($other),*)
            },
        };
        assert_eq!(refused, 0);
    }};
}

/// A page, its table, and the buffers. All is asked by tl's profile, unless other calls are said, and in the view of all nodes.
pub struct Reader<'a> {
    pub calls: Calls,
    view: u32,
    page: &'a [u8],
    table: Vec<u32>,
    finds: Vec<u32>,
    found: usize,
    answers: Vec<u32>,
    ends: Vec<usize>,
    text: Vec<u8>,
}

impl<'a> Reader<'a> {
    pub fn new(page: &'a [u8]) -> Self {
        Reader {
            calls: BY_TLS,
            view: ALL,
            page,
            table: vec![0; words_for(NODES)],
            finds: vec![0; NODES],
            found: 0,
            answers: vec![0; 12 * NODES],
            ends: vec![0; NODES],
            text: vec![0; TEXTS],
        }
    }

    pub fn nodes(&self) -> usize {
        self.table[0] as usize
    }

    pub fn found(&self) -> usize {
        self.found
    }

    /// The words of the header and of all rows.
    #[cfg(before)]
    pub fn table(&self) -> &[u32] {
        &self.table[..words_for(self.nodes())]
    }

    pub fn read(&mut self) {
        let mut count = 0;
        ask!(self.tl_parse(&mut count));
        black_box(count);
    }

    /// The range of a tag.
    pub fn range(&mut self, handle: usize) {
        let mut answer = [0; 3];
        ask!(self.tl_range(handle, answer.as_mut_ptr()));
        black_box(answer);
    }

    /// Asks in this view.
    pub fn in_view(&mut self, view: u32, call: impl Fn(&mut Self)) {
        self.view = view;
        call(self);
        self.view = ALL;
    }

    pub fn class(&mut self, manner: u32, name: &str) {
        let (mut count, finds) = (0, &mut self.finds);
        ask!(self.tl_get_elements_by_class_name(
            manner,
            self.view,
            name.as_ptr(),
            name.len(),
            finds.as_mut_ptr(),
            finds.len(),
            &mut count,
        ));
        black_box(count);
    }

    pub fn id(&mut self, manner: u32, name: &str) {
        let mut answer = [0; 2];
        let (start, len) = (name.as_ptr(), name.len());
        ask!(self.tl_get_element_by_id(manner, self.view, start, len, answer.as_mut_ptr()));
        black_box(answer);
    }

    pub fn query(&mut self, selector: &str) {
        let finds = &mut self.finds;
        ask!(self.tl_query_selector(
            self.view,
            selector.as_ptr(),
            selector.len(),
            finds.as_mut_ptr(),
            finds.len(),
            &mut self.found,
        ));
    }

    /// The texts of all the rows that the last query found, in one call.
    pub fn texts(&mut self) {
        let mut count = 0;
        ask!(self.tl_inner_texts(
            self.finds.as_ptr(),
            self.found,
            self.ends.as_mut_ptr(),
            self.ends.len(),
            self.text.as_mut_ptr(),
            self.text.len(),
            &mut count,
        ));
        black_box(count);
    }

    /// What all these rows hold for a name, in one call.
    pub fn attributes(&mut self, name: &str) {
        let mut count = 0;
        ask!(self.tl_attributes(
            self.finds.as_ptr(),
            self.found,
            name.as_ptr(),
            name.len(),
            self.answers.as_mut_ptr(),
            self.answers.len(),
            &mut count,
        ));
        black_box(count);
    }

    /// What all these rows hold for each of several names, in one call.
    pub fn attributes_for_names(&mut self, Names { text, ends }: &Names) {
        let mut count = 0;
        ask!(self.tl_attributes_for_names(
            self.finds.as_ptr(),
            self.found,
            text.as_ptr(),
            text.len(),
            ends.as_ptr(),
            ends.len(),
            self.answers.as_mut_ptr(),
            self.answers.len(),
            &mut count,
        ));
        black_box(count);
    }

    /// The text of the first of them.
    pub fn text(&mut self) {
        self.text_of(self.finds[0] as usize);
    }

    /// Whether a node is a tag.
    pub fn is_tag(&self, handle: usize) -> bool {
        handle < self.nodes() && self.table[words_for(handle)] == 1
    }

    /// Takes the words as the page's table, and makes room for finds in all its rows.
    pub fn lend(&mut self, words: Vec<u32>) {
        self.table = words;
        let rows = self.nodes();
        self.finds.resize(rows, 0);
        self.answers.resize(12 * rows, 0);
        self.ends.resize(rows, 0);
    }

    /// Takes all tags as what was found.
    pub fn find_tags(&mut self) {
        let tags = (0..self.nodes()).filter(|&handle| self.is_tag(handle));
        let tags: Vec<u32> = tags.map(|handle| handle as u32).collect();
        self.finds[..tags.len()].copy_from_slice(&tags);
        self.found = tags.len();
    }

    /// How many bytes the texts of what was found have together.
    pub fn text_bytes(&mut self) -> usize {
        self.texts();
        self.ends[..self.found].last().copied().unwrap_or(0)
    }

    /// The text of a tag.
    pub fn text_of(&mut self, handle: usize) {
        let mut count = 0;
        ask!(self.tl_inner_text(handle, self.text.as_mut_ptr(), self.text.len(), &mut count));
        black_box(count);
    }

    /// What the first of them holds for a name.
    pub fn attribute(&mut self, name: &str) {
        let mut answer = [0; 3];
        let (handle, len) = (self.finds[0] as usize, name.len());
        ask!(self.tl_attribute(handle, name.as_ptr(), len, answer.as_mut_ptr()));
        black_box(answer);
    }
}
