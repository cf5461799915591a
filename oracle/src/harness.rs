//! A child module of source 000's `palette`, and so a way to its private items. Nothing is decided here.

use super::*;

#[path = "harness_blocks.rs"]
pub(crate) mod blocks;

pub(crate) fn index_above(indices: &[u32], scan: usize, size: usize) -> u32 {
    super::index_above(indices, scan, size)
}

/// The step of a QP, as `dequant_escape`, `quantize_escape` and `color_tolerance` each write it.
pub(crate) fn step(qp: i32) -> i64 {
    let qp = qp.max(0);
    level_scale(qp % 6) << (qp / 6)
}

pub(crate) fn quantize_escape(value: u16, qp: i32, bit_depth: u8, tqb: bool) -> i32 {
    super::quantize_escape(value, qp, bit_depth, tqb)
}

pub(crate) fn color_tolerance(qp: i32, lossless: bool) -> u32 {
    super::color_tolerance(&PaletteConfig {
        num_comps: 1,
        chroma_idc: 0,
        sub_w: 1,
        sub_h: 1,
        bd_luma: 8,
        bd_chroma: 8,
        qp: [qp; MAX_COMPONENTS],
        lossless,
    })
}

pub(crate) fn max_abs(a: &[u16; 3], b: &[u16; 3], comps: usize) -> u32 {
    super::max_abs(a, b, comps)
}

pub(crate) fn color_key(sample: &[u16; 3], num_comps: usize) -> u64 {
    super::color_key(sample, num_comps)
}

pub(crate) fn write_egk<B: PaletteBitWriter>(bits: &mut B, value: u32, k: u32) {
    super::write_egk(bits, value, k)
}

pub(crate) fn write_truncated_binary<B: PaletteBitWriter>(bits: &mut B, value: u32, alphabet: u32) {
    super::write_truncated_binary(bits, value, alphabet)
}

pub(crate) fn write_num_palette_indices<B: PaletteBitWriter>(bits: &mut B, count_minus1: u32, max_palette_index: u32) {
    super::write_num_palette_indices(bits, count_minus1, max_palette_index)
}

pub(crate) fn write_run<B: PaletteBitWriter>(bits: &mut B, run: u32, palette_max_run: u32, copy_above: bool, raw_index: u32) {
    super::write_run(bits, run, palette_max_run, copy_above, raw_index)
}

pub(crate) fn write_reuse_flags<B: PaletteBitWriter>(bits: &mut B, reused: &[bool], max_size: usize) {
    super::write_reuse_flags(bits, reused, max_size)
}
