//! The private parts of source 000's records.

use super::super::*;

pub(crate) fn predictor(entries: &[[u16; 3]], num_comps: usize) -> PalettePredictor {
    PalettePredictor { entries: entries.to_vec(), num_comps }
}

pub(crate) fn counter(keys: &[u64], entry: &[u16], stamp: &[u32], generation: u32) -> Box<ColorIndex> {
    let mut counter = ColorIndex::new();
    counter.keys.copy_from_slice(keys);
    counter.entry.copy_from_slice(entry);
    counter.stamp.copy_from_slice(stamp);
    counter.generation = generation;
    counter
}

/// Keys, entries, stamps and generation.
pub(crate) fn slots(counter: &ColorIndex) -> (&[u64], &[u16], &[u32], u32) {
    (&counter.keys, &counter.entry, &counter.stamp, counter.generation)
}

pub(crate) fn set_tolerance(cu: &mut PaletteCu, tolerance: u32) {
    cu.tolerance = tolerance;
}

pub(crate) fn tolerance(cu: &PaletteCu) -> u32 {
    cu.tolerance
}

pub(crate) fn palette_sse(src: &SourceBlock<'_>, cfg: &PaletteConfig, cu: &PaletteCu) -> f32 {
    super::super::palette_sse(src, cfg, cu)
}

/// A rate model of eighteen rates; one that is missing is 0.
pub(crate) fn model(rates: &[f32]) -> PaletteRateModel {
    let rate = |k: usize| rates.get(k).copied().unwrap_or(0.0);
    PaletteRateModel { run_type: [rate(0), rate(1)], run_prefix: std::array::from_fn(|k| [rate(2 + 2 * k), rate(3 + 2 * k)]) }
}

/// The eighteen rates of CABAC states, as source 000 makes them.
pub(crate) fn rates(contexts: &PaletteContexts) -> Vec<f32> {
    let model = PaletteRateModel::new(contexts);
    model.run_type.into_iter().chain(model.run_prefix.concat()).collect()
}

/// Copy-above, index sent, further cells, start.
pub(crate) fn run(run: &PaletteRun) -> [u32; 4] {
    [run.copy_above.into(), run.raw_index, run.run, run.scan as u32]
}

/// The runs that numbers are, four to each.
pub(crate) fn runs(numbers: &[[u32; 4]]) -> Vec<PaletteRun> {
    numbers
        .iter()
        .map(|&[above, raw_index, run, scan]| PaletteRun { copy_above: above == 1, raw_index, run, scan: scan as usize })
        .collect()
}
