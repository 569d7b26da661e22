//! What the tools share.

mod identifier;
mod random;

pub use identifier::{identifier_runs, is_identifier};
pub use random::Random;
