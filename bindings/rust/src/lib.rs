//! The palette mode of HEVC screen content coding, proved: safe calls over the port's archives, with the names and types of source 000 where
//! they help.
//!
//! A block goes through [`analyze_palette`], [`assign_indices`], if wanted [`smooth_indices`], [`plan_runs`] and [`write_palette_cu`]; its bins
//! through [`read_palette_cu`] and [`reconstruct`]; and both sides through [`PalettePredictor::update`]. Each call tests its own input and answers, or
//! gives one of document 01's refusals and leaves what it was lent as it was. What each computes is proved for every input; docs/CONTRACTS.md
//! of the repository lists the contracts, and docs/MIGRATING.md the differences from source 000.
//!
//! ```
//! use velomitra::*;
//! let luma = [10, 200, 10, 200];
//! let src = SourceBlock { y: &luma, cb: &[], cr: &[], yw: 2, yh: 2, cw: 0, chh: 0, x0: 0, y0: 0, size: 2 };
//! let cfg = PaletteConfig { num_comps: 1, chroma_idc: 0, bd_luma: 8, bd_chroma: 8, qp: [4; 3], lossless: false };
//! let (predictor, mut seen, mut cu) = (PalettePredictor::new(), ColorIndex::new(), PaletteCu::new());
//! let (mut runs, mut bits) = (Vec::new(), Vec::new());
//!
//! analyze_palette(&src, &predictor, &cfg, &mut seen, &mut cu)?;
//! assign_indices(&src, &cfg, false, &mut cu)?;
//! plan_runs(&cu, &PaletteRateModel::flat(), &mut runs)?;
//! write_palette_cu(&mut bits, &cu, &runs)?;
//!
//! let mut read = PaletteCu::new();
//! let used = read_palette_cu(&bits, 2, &cfg, &predictor, &mut read, &mut runs)?;
//! assert_eq!((used, read.indices()), (bits.len(), cu.indices()));
//! # Ok::<(), Box<dyn std::error::Error>>(())
//! ```
#![warn(missing_debug_implementations)]

/// An exported call: `ref list` lends a list, `mut list` one that the call changes, each as its pointer and its own length; other arguments are numbers.
macro_rules! exported {
    (@ $name:ident ($($given:tt)*)) => {
        // SAFETY: each list is borrowed for the call, those that it changes exclusively. The exported calls require nothing, read and write
        // only within their lists, and keep none.
        unsafe { $crate::exported::$name($($given)*) }
    };
    (@ $name:ident ($($given:tt)*) ref $list:expr, $($rest:tt)*) => {
        exported!(@ $name ($($given)* $list.as_ptr(), $list.len(),) $($rest)*)
    };
    (@ $name:ident ($($given:tt)*) mut $list:expr, $($rest:tt)*) => {
        exported!(@ $name ($($given)* $list.as_mut_ptr(), $list.len(),) $($rest)*)
    };
    (@ $name:ident ($($given:tt)*) $number:expr, $($rest:tt)*) => {
        exported!(@ $name ($($given)* $number,) $($rest)*)
    };
    ($name:ident: $($arguments:tt)*) => {
        exported!(@ $name () $($arguments)*,)
    };
}

mod block;
mod calls;
#[cfg(test)]
mod codes;
mod leaves;
mod records;
mod refusal;
mod state;

/// The exported calls of the crates, declared from their text (`tools/prototypes rust`). A list is a pointer and a length.
#[allow(dead_code)]
mod exported {
    include!(concat!(env!("OUT_DIR"), "/exported.rs"));
}

pub use block::PaletteCu;
pub use calls::{
    MOST_BINS, analyze_palette, analyze_with, assign_indices, palette_sse, plan_runs, read_palette_cu, reconstruct, smooth_indices,
    write_palette_cu, write_palette_cu_into,
};
pub use leaves::{color_tolerance, dequant_escape, quantize_escape, scan_pos, scan_pos_inv};
pub use records::{Bin, PaletteConfig, PaletteRateModel, PaletteRun, Planned, ReconTarget, SourceBlock};
pub use refusal::{Refusal, RefusedAt, WrongLength};
pub use state::{ColorIndex, PalettePredictor};

/// The most entries that a palette has.
pub const MAX_PALETTE_SIZE: usize = 64;
/// The most entries that a predictor has.
pub const MAX_PREDICTOR_SIZE: usize = 128;
/// The greatest size of a block.
pub const MAX_CU: usize = 32;
/// What source 000 takes a run break to cost, in bits, when it smooths.
pub const SMOOTH_BITS_PER_RUN: f32 = 4.0;
