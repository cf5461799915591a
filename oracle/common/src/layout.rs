//! How the lists of numbers are laid out that exported calls take (crates/flat/src/lib.rt, crates/flatcounter/src/lib.rt).

/// The most entries of a palette and of a predictor, and the counter's slots.
pub const LIMIT: usize = 64;
pub const MOST_ENTRIES: usize = 128;
pub const SLOTS: usize = 256;
/// Where the parts of a block's list begin, and its length.
pub const PALETTE: usize = 16;
pub const FLAGS: usize = 208;
pub const INDICES: usize = 336;
pub const LEVELS: usize = 1360;
pub const BLOCK: usize = 4432;
/// The length of a predictor's list.
pub const PREDICTOR: usize = 385;

/// Places of a block's list before the palette.
pub mod at {
    pub const SIZE: usize = 0;
    pub const FORMAT: usize = 1;
    pub const LUMA: usize = 2;
    pub const CHROMA: usize = 3;
    pub const LOSSLESS: usize = 4;
    pub const ENTRIES: usize = 5;
    pub const FLAGS: usize = 6;
    pub const SIGNALED: usize = 7;
    pub const ESCAPE: usize = 8;
    pub const TRANSPOSE: usize = 9;
    pub const TOLERANCE: usize = 10;
    pub const FIGURE: usize = 11;
}

/// Places of a geometry's list.
pub mod side {
    pub const YW: usize = 0;
    pub const YH: usize = 1;
    pub const CW: usize = 2;
    pub const CH: usize = 3;
    pub const X0: usize = 4;
    pub const Y0: usize = 5;
    pub const SIZE: usize = 6;
}

/// Places of a configuration's list.
pub mod set {
    pub const COMPS: usize = 0;
    pub const FORMAT: usize = 1;
    pub const LUMA: usize = 2;
    pub const CHROMA: usize = 3;
    pub const QP: usize = 4;
    pub const LOSSLESS: usize = 7;
}
