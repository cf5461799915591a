//! The calls on whole blocks.

use crate::{
    ColorIndex, PaletteConfig, PaletteCu, PalettePredictor, PaletteRateModel, PaletteRun, Planned, ReconTarget, Refusal, RefusedAt,
    SourceBlock,
};

/// The most bins that a block has.
pub const MOST_BINS: usize = 88_378;

/// The most runs that a block has.
const MOST_RUNS: usize = 1024;

/// Room for most blocks of a map.
const USUAL_BINS: usize = 4096;

/// A palette for a block's samples, at the luma QP's tolerance, in `out`. Refusals 1 to 5, 13.
///
/// The counter moves on, on 13 too (unless luma alone refused).
///
/// ```
/// use velomitra::*;
/// let luma = [10, 200, 10, 200];
/// let src = SourceBlock { y: &luma, cb: &[], cr: &[], yw: 2, yh: 2, cw: 0, chh: 0, x0: 0, y0: 0, size: 2 };
/// let cfg = PaletteConfig { num_comps: 1, chroma_idc: 0, bd_luma: 8, bd_chroma: 8, qp: [4; 3], lossless: false };
/// let (predictor, mut seen, mut cu) = (PalettePredictor::new(), ColorIndex::new(), PaletteCu::new());
///
/// analyze_palette(&src, &predictor, &cfg, &mut seen, &mut cu)?;
/// assert_eq!(cu.palette_entries(), [[10, 0, 0], [200, 0, 0]]);
///
/// let one = SourceBlock { size: 1, ..src };
/// assert_eq!(analyze_palette(&one, &predictor, &cfg, &mut seen, &mut cu), Err(Refusal::TooManyColors));
/// # Ok::<(), Refusal>(())
/// ```
pub fn analyze_palette(
    src: &SourceBlock,
    predictor: &PalettePredictor,
    cfg: &PaletteConfig,
    seen: &mut ColorIndex,
    out: &mut PaletteCu,
) -> Result<(), Refusal> {
    let (config, source) = (cfg.numbers(), src.numbers());
    Refusal::of(exported!(
        velomitra_analyze_palette: ref src.y, ref src.cb, ref src.cr, ref config, ref source, ref predictor.numbers,
        mut seen.keys, mut seen.entry, mut seen.stamp, mut out.numbers
    ))
}

/// The same at a tolerance of the caller's, 0 to 16; another is refused by 7.
///
/// ```
/// use velomitra::*;
/// let luma = [10, 10, 12, 12];
/// let src = SourceBlock { y: &luma, cb: &[], cr: &[], yw: 2, yh: 2, cw: 0, chh: 0, x0: 0, y0: 0, size: 2 };
/// let cfg = PaletteConfig { num_comps: 1, chroma_idc: 0, bd_luma: 8, bd_chroma: 8, qp: [4; 3], lossless: false };
/// let (predictor, mut seen, mut cu) = (PalettePredictor::new(), ColorIndex::new(), PaletteCu::new());
///
/// analyze_with(&src, &predictor, &cfg, 2, &mut seen, &mut cu)?;
/// assert_eq!(cu.palette_entries(), [[10, 0, 0]]);
/// assert_eq!(analyze_with(&src, &predictor, &cfg, 17, &mut seen, &mut cu), Err(Refusal::Block));
/// # Ok::<(), Refusal>(())
/// ```
pub fn analyze_with(
    src: &SourceBlock,
    predictor: &PalettePredictor,
    cfg: &PaletteConfig,
    tolerance: u64,
    seen: &mut ColorIndex,
    out: &mut PaletteCu,
) -> Result<(), Refusal> {
    let (config, source) = (cfg.numbers(), src.numbers());
    Refusal::of(exported!(
        velomitra_analyze_with: ref src.y, ref src.cb, ref src.cr, ref config, ref source, ref predictor.numbers,
        tolerance, mut seen.keys, mut seen.entry, mut seen.stamp, mut out.numbers
    ))
}

/// A block's cells to its palette, or to escapes where they are beyond tolerance, with the error figure. Refusals 1 to 4, 7, 14.
///
/// ```
/// use velomitra::*;
/// let luma = [10, 200, 10, 200];
/// let src = SourceBlock { y: &luma, cb: &[], cr: &[], yw: 2, yh: 2, cw: 0, chh: 0, x0: 0, y0: 0, size: 2 };
/// let cfg = PaletteConfig { num_comps: 1, chroma_idc: 0, bd_luma: 8, bd_chroma: 8, qp: [4; 3], lossless: false };
/// let mut cu = PaletteCu::new();
/// analyze_palette(&src, &PalettePredictor::new(), &cfg, &mut ColorIndex::new(), &mut cu)?;
///
/// assign_indices(&src, &cfg, false, &mut cu)?;
/// assert_eq!(cu.indices(), [0, 1, 1, 0]);
/// assign_indices(&src, &cfg, true, &mut cu)?;
/// assert_eq!(cu.indices(), [0, 0, 1, 1]);
/// # Ok::<(), Refusal>(())
/// ```
pub fn assign_indices(src: &SourceBlock, cfg: &PaletteConfig, transpose: bool, out: &mut PaletteCu) -> Result<(), Refusal> {
    let (config, source) = (cfg.numbers(), src.numbers());
    Refusal::of(exported!(velomitra_assign_indices: ref src.y, ref src.cb, ref src.cr, ref config, ref source, transpose, mut out.numbers))
}

/// The error figure of a block: the sum of squares over the samples that a decoder writes, a whole number. Refusals 1 to 4, 7.
///
/// ```
/// use velomitra::*;
/// # let cu = include!(concat!(env!("CARGO_MANIFEST_DIR"), "/doc/worked.rs"));
/// let luma = [10, 203, 11, 200];
/// let src = SourceBlock { y: &luma, cb: &[], cr: &[], yw: 2, yh: 2, cw: 0, chh: 0, x0: 0, y0: 0, size: 2 };
/// let cfg = PaletteConfig { num_comps: 1, chroma_idc: 0, bd_luma: 8, bd_chroma: 8, qp: [4; 3], lossless: false };
/// assert_eq!(palette_sse(&src, &cfg, &cu), Ok(3 * 3 + 1));
/// ```
pub fn palette_sse(src: &SourceBlock, cfg: &PaletteConfig, cu: &PaletteCu) -> Result<u64, Refusal> {
    let (config, source, mut figure) = (cfg.numbers(), src.numbers(), [0]);
    Refusal::of(exported!(velomitra_palette_sse: ref src.y, ref src.cb, ref src.cr, ref config, ref source, ref cu.numbers, mut figure))?;
    Ok(figure[0])
}

/// Smooths a lossy block's indices: whether a run was moved. Refusals 1 to 4, 7, 15.
///
/// ```
/// use velomitra::*;
/// let luma = [12, 12, 12, 12, 12, 12, 12, 12, 10, 10, 11, 10, 10, 10, 10, 10];
/// let src = SourceBlock { y: &luma, cb: &[], cr: &[], yw: 4, yh: 4, cw: 0, chh: 0, x0: 0, y0: 0, size: 4 };
/// let cfg = PaletteConfig { num_comps: 1, chroma_idc: 0, bd_luma: 8, bd_chroma: 8, qp: [4; 3], lossless: false };
/// let mut cu = PaletteCu::new();
/// analyze_palette(&src, &PalettePredictor::new(), &cfg, &mut ColorIndex::new(), &mut cu)?;
/// assign_indices(&src, &cfg, false, &mut cu)?;
/// assert_eq!(cu.indices()[8..12], [1, 1, 0, 1]);
///
/// // 11 is as far from 12 as from 10, which its neighbours are
/// assert_eq!(smooth_indices(&src, &cfg, 1.0, SMOOTH_BITS_PER_RUN, &mut cu), Ok(true));
/// assert_eq!(cu.indices()[8..12], [1, 1, 1, 1]);
///
/// assign_indices(&src, &cfg, true, &mut cu)?;
/// assert_eq!(smooth_indices(&src, &cfg, 1.0, SMOOTH_BITS_PER_RUN, &mut cu), Err(Refusal::Smoothing));
/// # Ok::<(), Refusal>(())
/// ```
pub fn smooth_indices(
    src: &SourceBlock,
    cfg: &PaletteConfig,
    lambda: f32,
    bits_per_run: f32,
    out: &mut PaletteCu,
) -> Result<bool, Refusal> {
    let (config, source) = (cfg.numbers(), src.numbers());
    let told = exported!(
        velomitra_smooth_indices: ref src.y, ref src.cb, ref src.cr, ref config, ref source,
        lambda, bits_per_run, mut out.numbers
    );
    Refusal::of((told / 2) as u8)?;
    Ok(told % 2 == 1)
}

/// The runs of a block at the least rate, in place of what `runs` held. Refusals 2, 6, 7.
///
/// ```
/// use velomitra::*;
/// # let cu = include!(concat!(env!("CARGO_MANIFEST_DIR"), "/doc/worked.rs"));
/// let mut runs = Vec::new();
/// assert_eq!(plan_runs(&cu, &PaletteRateModel::flat(), &mut runs), Ok(Planned::Runs { count: 3, total: 4.25 }));
/// assert_eq!(runs[2], PaletteRun { copy_above: true, raw_index: 0, run: 1, scan: 2 });
/// ```
pub fn plan_runs(cu: &PaletteCu, model: &PaletteRateModel, runs: &mut Vec<PaletteRun>) -> Result<Planned, Refusal> {
    let (rates, mut list, mut count, mut total) = (model.numbers(), [[0; 4]; MOST_RUNS], [0], [0.0]);
    let flat = list.as_flattened_mut();
    Refusal::of(exported!(velomitra_plan_runs: ref cu.numbers, ref rates, mut flat, mut count, mut total))?;
    let ([count], [total]) = (count, total);
    runs.clear();
    runs.extend(list[..count].iter().map(PaletteRun::of));
    Ok(if count == 0 { Planned::Nothing } else { Planned::Runs { count, total } })
}

/// Puts a block's bins, a byte each (class × 2 + bin), at the end of `bits`: how many. Refusals 2, 7, 8.
///
/// ```
/// use velomitra::*;
/// # let cu = include!(concat!(env!("CARGO_MANIFEST_DIR"), "/doc/worked.rs"));
/// let (mut runs, mut bits) = (Vec::new(), Vec::new());
/// plan_runs(&cu, &PaletteRateModel::flat(), &mut runs)?;
/// assert_eq!(write_palette_cu(&mut bits, &cu, &runs), Ok(29));
/// assert_eq!(bits[24..], [0, 3, 4, 6, 6]);
/// # Ok::<(), Refusal>(())
/// ```
pub fn write_palette_cu(bits: &mut Vec<u8>, cu: &PaletteCu, runs: &[PaletteRun]) -> Result<usize, Refusal> {
    let start = bits.len();
    let mut put = Err(Refusal::Room);
    for room in [USUAL_BINS, MOST_BINS] {
        bits.resize(start + room, 0);
        put = write_palette_cu_into(&mut bits[start..], cu, runs);
        if put != Err(Refusal::Room) {
            break;
        }
    }
    bits.truncate(start + put.unwrap_or(0));
    put
}

/// The same onto a list that is lent, from its start on; 9 where it is too short.
///
/// ```
/// use velomitra::*;
/// # let cu = include!(concat!(env!("CARGO_MANIFEST_DIR"), "/doc/worked.rs"));
/// let mut runs = Vec::new();
/// plan_runs(&cu, &PaletteRateModel::flat(), &mut runs)?;
/// assert_eq!(write_palette_cu_into(&mut [0; 32], &cu, &runs), Ok(29));
/// assert_eq!(write_palette_cu_into(&mut [0; 28], &cu, &runs), Err(Refusal::Room));
/// assert_eq!(write_palette_cu_into(&mut [0; 32], &cu, &runs[..2]), Err(Refusal::Runs));
/// # Ok::<(), Refusal>(())
/// ```
pub fn write_palette_cu_into(bins: &mut [u8], cu: &PaletteCu, runs: &[PaletteRun]) -> Result<usize, Refusal> {
    let (mut list, mut used) = ([[0; 4]; MOST_RUNS], [0]);
    for (numbers, run) in list.iter_mut().zip(runs) {
        *numbers = run.numbers();
    }
    let flat = list.as_flattened();
    Refusal::of(exported!(velomitra_write_palette_cu: ref cu.numbers, ref flat, runs.len(), mut bins, mut used))?;
    Ok(used[0])
}

/// The block and the runs at the start of a list of bins: how many bins they are. Refusals 1, 2, 5, 10 to 12, with their place.
///
/// Of `cfg` the reader takes format, depths and lossless flag. Bins after the block are not looked at.
///
/// ```
/// use velomitra::*;
/// # let cu = include!(concat!(env!("CARGO_MANIFEST_DIR"), "/doc/worked.rs"));
/// # let (mut runs, mut bits) = (Vec::new(), Vec::new());
/// # plan_runs(&cu, &PaletteRateModel::flat(), &mut runs).unwrap();
/// # write_palette_cu(&mut bits, &cu, &runs).unwrap();
/// let cfg = PaletteConfig { num_comps: 1, chroma_idc: 0, bd_luma: 8, bd_chroma: 8, qp: [4; 3], lossless: false };
/// let (predictor, mut read, mut runs) = (PalettePredictor::new(), PaletteCu::new(), Vec::new());
///
/// assert_eq!(read_palette_cu(&bits, 2, &cfg, &predictor, &mut read, &mut runs), Ok(29));
/// assert_eq!((read.palette_entries(), read.indices(), runs.len()), (cu.palette_entries(), cu.indices(), 3));
///
/// let cut = read_palette_cu(&bits[..28], 2, &cfg, &predictor, &mut read, &mut runs);
/// assert_eq!(cut, Err(RefusedAt { refusal: Refusal::BinsEnd, place: 28 }));
/// ```
pub fn read_palette_cu(
    bits: &[u8],
    size: usize,
    cfg: &PaletteConfig,
    predictor: &PalettePredictor,
    out: &mut PaletteCu,
    runs: &mut Vec<PaletteRun>,
) -> Result<usize, RefusedAt> {
    let (mut list, mut count, mut used, mut place) = ([[0; 4]; MOST_RUNS], [0], [0], [0]);
    let flat = list.as_flattened_mut();
    let number = exported!(
        velomitra_read_palette_cu: ref bits, size, cfg.chroma_idc, cfg.bd_luma, cfg.bd_chroma, cfg.lossless, ref predictor.numbers,
        mut out.numbers, mut flat, mut count, mut used, mut place
    );
    Refusal::of(number).map_err(|refusal| RefusedAt { refusal, place: place[0] })?;
    runs.clear();
    runs.extend(list[..count[0]].iter().map(PaletteRun::of));
    Ok(used[0])
}

/// A block's samples onto planes, at luma column x0 and row y0, where it covers them. Refusals 1, 2, 3, 7.
///
/// ```
/// use velomitra::*;
/// # let cu = include!(concat!(env!("CARGO_MANIFEST_DIR"), "/doc/worked.rs"));
/// let cfg = PaletteConfig { num_comps: 1, chroma_idc: 0, bd_luma: 8, bd_chroma: 8, qp: [4; 3], lossless: false };
/// let mut luma = [7; 3 * 3];
/// let mut dst = ReconTarget { y: &mut luma, cb: &mut [], cr: &mut [], y_width: 3, c_width: 0, y_stride: 3, c_stride: 0, y_height: 3, c_height: 0 };
/// reconstruct(&cu, &cfg, &mut dst, 1, 0)?;
/// assert_eq!(luma, [7, 10, 200, 7, 10, 200, 7, 7, 7]);
/// # Ok::<(), Refusal>(())
/// ```
pub fn reconstruct(cu: &PaletteCu, cfg: &PaletteConfig, dst: &mut ReconTarget, x0: usize, y0: usize) -> Result<(), Refusal> {
    let (config, source) = (cfg.numbers(), [dst.y_width, dst.y_height, dst.c_width, dst.c_height, x0, y0, cu.size()]);
    Refusal::of(exported!(
        velomitra_reconstruct: mut dst.y, mut dst.cb, mut dst.cr, dst.y_stride, dst.c_stride,
        ref config, ref source, ref cu.numbers
    ))
}
