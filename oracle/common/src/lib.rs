//! What the comparison and the calls with arbitrary arguments share: the port's exported calls, the layout of their lists, random numbers.

pub mod layout;
mod random;

pub use random::Random;

/// The exported calls as their crates declare them. A list is a pointer and a length.
pub mod exported {
    include!(concat!(env!("OUT_DIR"), "/exported.rs"));
}

/// The same calls over slices.
pub mod calls {
    use crate::exported;

    // SAFETY, of every call: the exported functions require nothing, read and write only within the lent lists, and keep none.
    include!(concat!(env!("OUT_DIR"), "/calls.rs"));
}
