//! Stands in for the module file that the sources at hand lack: the modules, and the one function that both use.
use std::mem::MaybeUninit;

/// A map that holds its first entries in place
pub mod hashmap;
/// A vector that holds its first entries in place
pub mod vec;

/// An array whose entries hold nothing yet
pub(crate) fn uninit_array<T, const N: usize>() -> [MaybeUninit<T>; N] {
    std::array::from_fn(|_| MaybeUninit::uninit())
}
