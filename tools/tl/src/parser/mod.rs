//! Stands in for the module file that the sources at hand lack: the modules, and the names that lib.rs hands on.
mod base;
mod constants;
mod handle;
mod options;
mod tag;

pub use base::*;
pub use handle::*;
pub use options::*;
pub use tag::*;
