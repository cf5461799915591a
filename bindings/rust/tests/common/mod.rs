//! What the tests share: random numbers, and a block with its planes.
#![allow(dead_code)]

use velomitra::*;

/// xorshift64*: the same numbers on every run.
pub struct Random(pub u64);

impl Random {
    pub fn below(&mut self, most: usize) -> usize {
        self.0 ^= self.0 >> 12;
        self.0 ^= self.0 << 25;
        self.0 ^= self.0 >> 27;
        ((self.0.wrapping_mul(0x2545_F491_4F6C_DD1D) >> 33) as usize) % most
    }

    pub fn one_in(&mut self, n: usize) -> bool {
        self.below(n) == 0
    }

    pub fn one_of<T: Copy>(&mut self, list: &[T]) -> T {
        list[self.below(list.len())]
    }
}

/// Planes with the geometry of a block on them.
#[derive(Clone)]
pub struct Picture {
    pub planes: [Vec<u16>; 3],
    pub yw: usize,
    pub yh: usize,
    pub cw: usize,
    pub chh: usize,
}

impl Picture {
    pub fn source(&self, x0: usize, y0: usize, size: usize) -> SourceBlock<'_> {
        let [y, cb, cr] = &self.planes;
        SourceBlock { y, cb, cr, yw: self.yw, yh: self.yh, cw: self.cw, chh: self.chh, x0, y0, size }
    }

    pub fn target(&mut self) -> ReconTarget<'_> {
        let [y, cb, cr] = &mut self.planes;
        ReconTarget {
            y,
            cb,
            cr,
            y_width: self.yw,
            c_width: self.cw,
            y_stride: self.yw,
            c_stride: self.cw,
            y_height: self.yh,
            c_height: self.chh,
        }
    }

    /// A square of luma alone.
    pub fn luma(samples: &[u16], side: usize) -> Picture {
        Picture { planes: [samples.to_vec(), vec![], vec![]], yw: side, yh: side, cw: 0, chh: 0 }
    }
}

pub const LUMA: PaletteConfig = PaletteConfig { num_comps: 1, chroma_idc: 0, bd_luma: 8, bd_chroma: 8, qp: [4; 3], lossless: false };

/// A block analysed and assigned.
pub fn made(src: &SourceBlock, cfg: &PaletteConfig, predictor: &PalettePredictor) -> PaletteCu {
    let mut cu = PaletteCu::new();
    analyze_palette(src, predictor, cfg, &mut ColorIndex::new(), &mut cu).unwrap();
    assign_indices(src, cfg, false, &mut cu).unwrap();
    cu
}
