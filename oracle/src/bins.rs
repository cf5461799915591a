//! Source 000's bins as bytes, class × 2 + bin.

use crate::palette::{index_run_prefix_ctx, run_prefix_ctx, PaletteBitWriter};

const BYPASS: u8 = 0;
const RUN_TYPE: u8 = 1;
const TRANSPOSE: u8 = 2;
const RUN_PREFIX: u8 = 3;
const MARKER: u8 = 22;

/// Records each bin that source 000 sends.
#[derive(Default)]
pub struct Bins(pub Vec<u8>);

impl Bins {
    /// The bins that `write` sends.
    pub fn of(write: impl FnOnce(&mut Bins)) -> Vec<u8> {
        let mut bins = Bins::default();
        write(&mut bins);
        bins.0
    }

    fn push(&mut self, class: u8, bin: u8) {
        self.0.push(class * 2 + bin);
    }
}

impl PaletteBitWriter for Bins {
    fn run_type_flag(&mut self, bin: u8) {
        self.push(RUN_TYPE, bin);
    }
    fn transpose_flag(&mut self, bin: u8) {
        self.push(TRANSPOSE, bin);
    }
    fn run_prefix_bin(&mut self, bin_idx: usize, copy_above: bool, bin: u8) {
        let class = run_prefix_ctx(bin_idx, copy_above).map_or(BYPASS, |context| RUN_PREFIX + context as u8);
        self.push(class, bin);
    }
    fn run_prefix_index_bin(&mut self, palette_index: u32, bin: u8) {
        self.push(RUN_PREFIX + index_run_prefix_ctx(palette_index) as u8, bin);
    }
    fn bypass(&mut self, bin: u8) {
        self.push(BYPASS, bin);
    }
    fn bypass_bits(&mut self, value: u32, n: u32) {
        for k in (0..n).rev() {
            self.push(BYPASS, (value >> k & 1) as u8);
        }
    }
    fn escape_qp_syntax(&mut self) {
        self.0.push(MARKER);
    }
}
