//! tl's calls, each ending in something the compiler must keep.
use std::hint::black_box;
use tl::{NodeHandle, ParserOptions, VDom};

/// Whether tl keeps lists of ids and classes as it reads.
pub type Tracking = bool;
pub const SCAN: Tracking = false;
pub const CLOSED: Tracking = true;

fn options(tracking: Tracking) -> ParserOptions {
    let plain = ParserOptions::new();
    if tracking {
        plain.track_ids().track_classes()
    } else {
        plain
    }
}

pub fn read(text: &str, tracking: Tracking) -> VDom<'_> {
    tl::parse(text, options(tracking)).expect("the page is short")
}

/// Reads a page and gives back what tl took for it.
pub fn drop_read(text: &str, tracking: Tracking) {
    black_box(read(black_box(text), tracking));
}

pub fn class(dom: &VDom, name: &str) {
    black_box(
        dom.get_elements_by_class_name(black_box(name))
            .fold(0, |sum, h| sum ^ h.get_inner()),
    );
}

pub fn id(dom: &VDom, name: &'static str) {
    black_box(dom.get_element_by_id(black_box(name)));
}

pub fn query(dom: &VDom, selector: &str) {
    let finds = dom
        .query_selector(black_box(selector))
        .expect("the selector is one");
    black_box(finds.fold(0, |sum, h| sum ^ h.get_inner()));
}

pub fn handles(dom: &VDom, selector: &str) -> Vec<NodeHandle> {
    dom.query_selector(selector)
        .expect("the selector is one")
        .collect()
}

pub fn texts(dom: &VDom, handles: &[NodeHandle]) {
    let parser = dom.parser();
    for handle in handles {
        let node = handle.get(parser).expect("the handle is the page's");
        black_box(node.inner_text(parser));
    }
}

pub fn attributes(dom: &VDom, handles: &[NodeHandle], names: &[&str]) {
    let parser = dom.parser();
    for handle in handles {
        let node = handle.get(parser).expect("the handle is the page's");
        let tag = node.as_tag().expect("the rows are tags");
        for name in names {
            black_box(tag.attributes().get(black_box(*name)));
        }
    }
}
