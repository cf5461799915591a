//! Scan and escape arithmetic of single cells. A leaf answers nothing outside its domain.

use crate::PaletteConfig;

/// A leaf's number, where it has one.
fn known(number: u64) -> Option<u64> {
    (number != u64::MAX).then_some(number)
}

/// The greatest sample of a depth.
fn most(bit_depth: u8) -> Option<u64> {
    (bit_depth <= 16).then(|| (1 << bit_depth) - 1)
}

/// The step of a QP of at most 75; negatives count as 0.
fn step(qp: i32) -> Option<u64> {
    known(exported!(velomitra_step: qp))
}

/// Column and row of a scan place of a block of side `size`.
///
/// ```
/// assert_eq!(velomitra::scan_pos(4, 4), Some((3, 1)));
/// assert_eq!(velomitra::scan_pos(0, 0), None);
/// ```
pub fn scan_pos(i: usize, size: usize) -> Option<(usize, usize)> {
    let cell = known(exported!(velomitra_scan_pos: i, size))? as usize;
    Some((cell % 65536, cell / 65536))
}

/// The scan place of a cell.
///
/// ```
/// assert_eq!(velomitra::scan_pos_inv(3, 1, 4), Some(4));
/// assert_eq!(velomitra::scan_pos_inv(4, 1, 4), None);
/// ```
pub fn scan_pos_inv(col: usize, row: usize, size: usize) -> Option<usize> {
    Some(known(exported!(velomitra_scan_pos_inv: col, row, size))? as usize)
}

/// What an escape level decodes to.
///
/// ```
/// assert_eq!(velomitra::dequant_escape(-1, 4, 8, false), Some(0));
/// assert_eq!(velomitra::dequant_escape(300, 4, 8, false), Some(255));
/// ```
pub fn dequant_escape(level: i32, qp: i32, bit_depth: u8, lossless: bool) -> Option<u16> {
    let (step, most) = (step(qp)?, most(bit_depth)?);
    Some(known(exported!(velomitra_dequant_escape: lossless, step, most, level))? as u16)
}

/// The escape level of a sample: the one that decodes nearest to it, the lowest of those.
///
/// ```
/// assert_eq!(velomitra::quantize_escape(100, 22, 8, false), Some(12));
/// ```
pub fn quantize_escape(value: u16, qp: i32, bit_depth: u8, lossless: bool) -> Option<u64> {
    let (step, most) = (step(qp)?, most(bit_depth)?);
    known(exported!(velomitra_quantize_escape: lossless, step, most, value.into()))
}

/// How far two colours may differ and share an entry: 0 when lossless, else half of luma's step, at most 16.
///
/// ```
/// use velomitra::{PaletteConfig, color_tolerance};
/// let cfg = PaletteConfig { num_comps: 1, chroma_idc: 0, bd_luma: 8, bd_chroma: 8, qp: [33, 0, 0], lossless: false };
/// assert_eq!(color_tolerance(&cfg), Some(14));
/// ```
pub fn color_tolerance(cfg: &PaletteConfig) -> Option<u64> {
    let step = step(cfg.qp[0])?;
    known(exported!(velomitra_tolerance: cfg.lossless, step))
}
