//! Stands in for the module file that the sources at hand lack: the modules, and the names that the others use.

/// Walks over what a selector finds
pub mod iter;
/// What a selector can be asked of
pub mod iterable;
/// The selector reader
pub mod parser;
/// The selector
pub mod selector;

pub use iter::QuerySelectorIterator;
pub use parser::Parser;
pub use selector::Selector;
