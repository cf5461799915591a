//! Calls of the exported entry points.

use crate::calls::{answer, check, Answer, Checked};
use crate::memory::Frame;
use crate::random::Spoiler;
use crate::world::World;
use common::exported::*;
use common::layout::{at, set};

// SAFETY, of every call below: the lists are the frame's, and the functions require nothing.

pub fn analyze(with: bool, w: &World, s: &mut Spoiler, f: &mut Frame) -> Checked {
    let [y, cb, cr] = [0, 1, 2].map(|c| f.read(&s.list(&w.planes[c])));
    let (config, source, predictor) = (f.read(&s.list(&w.config)), f.read(&s.list(&w.source)), f.read(&s.list(&w.predictor)));
    let (keys, entry, stamp) = (f.lend(&s.list(&w.keys)), f.lend(&s.list(&w.entry)), f.lend(&s.list(&w.stamp)));
    let block = f.lend(&s.list(&w.block));
    let tolerance = s.number(w.tolerance);
    #[rustfmt::skip]
    let number = unsafe {
        if with {
            velomitra_analyze_with(
                y.0, y.1, cb.0, cb.1, cr.0, cr.1, config.0, config.1, source.0, source.1, predictor.0, predictor.1, tolerance,
                keys.0, keys.1, entry.0, entry.1, stamp.0, stamp.1, block.0, block.1,
            )
        } else {
            velomitra_analyze_palette(
                y.0, y.1, cb.0, cb.1, cr.0, cr.1, config.0, config.1, source.0, source.1, predictor.0, predictor.1,
                keys.0, keys.1, entry.0, entry.1, stamp.0, stamp.1, block.0, block.1,
            )
        }
    };
    if number != 13 {
        return answer(number);
    }
    // the counter moved one generation on, or not at all
    let (before, now) = (f.before::<u32>(8), f.now::<u32>(8));
    let (old, new) = (before.first().copied(), now.first().copied());
    let on = old.map(|generation| generation.wrapping_add(1).max(1));
    check(new == on || (6..9).all(|k| f.is_kept(k)), "a counter that moved otherwise")?;
    Ok(Answer { number, free: &[6, 7, 8] })
}

pub fn update(w: &World, s: &mut Spoiler, f: &mut Frame) -> Checked {
    let (predictor, block) = (f.lend(&s.list(&w.predictor)), f.read(&s.list(&w.block)));
    let limit = s.number(w.limit);
    let number = unsafe { velomitra_update(predictor.0, predictor.1, block.0, block.1, limit) };
    let size = f.now::<u16>(0).first().map_or(0, |&size| size.into());
    check(number != 0 || size <= limit, "more entries than the limit")?;
    answer(number)
}

pub fn assign(w: &World, s: &mut Spoiler, f: &mut Frame) -> Checked {
    let [y, cb, cr] = [0, 1, 2].map(|c| f.read(&s.list(&w.planes[c])));
    let (config, source) = (f.read(&s.list(&w.config)), f.read(&s.list(&w.source)));
    let (transpose, block) = (s.number(w.transpose), f.lend(&s.list(&w.block)));
    answer(unsafe {
        velomitra_assign_indices(y.0, y.1, cb.0, cb.1, cr.0, cr.1, config.0, config.1, source.0, source.1, transpose, block.0, block.1)
    })
}

pub fn figure(w: &World, s: &mut Spoiler, f: &mut Frame) -> Checked {
    let [y, cb, cr] = [0, 1, 2].map(|c| f.read(&s.list(&w.planes[c])));
    let (config, source, block) = (f.read(&s.list(&w.config)), f.read(&s.list(&w.source)), f.read(&s.list(&w.block)));
    let figure = f.lend(&s.list(&[5u64]));
    let number = unsafe {
        velomitra_palette_sse(
            y.0, y.1, cb.0, cb.1, cr.0, cr.1, config.0, config.1, source.0, source.1, block.0, block.1, figure.0, figure.1,
        )
    };
    check(f.before::<u64>(6).get(1..) == f.now::<u64>(6).get(1..), "more than one figure laid")?;
    answer(number)
}

pub fn smooth(w: &World, s: &mut Spoiler, f: &mut Frame) -> Checked {
    let [y, cb, cr] = [0, 1, 2].map(|c| f.read(&s.list(&w.planes[c])));
    let (config, source) = (f.read(&s.list(&w.config)), f.read(&s.list(&w.source)));
    let (lambda, bits) = (s.number(w.lambda), s.number(w.bits_per_run));
    let mut block = w.block.clone();
    if !s.random.one_in(8) {
        // most are neither transposed nor lossless, which is refused
        (block[at::TRANSPOSE], block[at::LOSSLESS]) = (0, w.config[set::LOSSLESS] as u16);
    }
    let block = f.lend(&s.list(&block));
    let told = unsafe {
        velomitra_smooth_indices(y.0, y.1, cb.0, cb.1, cr.0, cr.1, config.0, config.1, source.0, source.1, lambda, bits, block.0, block.1)
    };
    check(told < 2 || told % 2 == 0 && told < 512, "a refusal that moved a run")?;
    answer((told / 2) as u8)
}

pub fn plan(w: &World, s: &mut Spoiler, f: &mut Frame) -> Checked {
    let (block, rates) = (f.read(&s.list(&w.block)), f.read(&s.list(&w.rates)));
    let (runs, count, total) = (f.lend(&s.list(&w.runs)), f.lend(&s.list(&[w.count])), f.lend(&s.list(&[3f32])));
    let number = unsafe { velomitra_plan_runs(block.0, block.1, rates.0, rates.1, runs.0, runs.1, count.0, count.1, total.0, total.1) };
    let told = f.now::<usize>(3).first().copied();
    if let (0, Some(told)) = (number, told) {
        check(4 * told <= runs.1, "more runs than there is room for")?;
        check(f.before::<u32>(2)[4 * told..] == f.now::<u32>(2)[4 * told..], "written past the runs")?;
    }
    answer(number)
}

pub fn write(w: &World, s: &mut Spoiler, f: &mut Frame) -> Checked {
    let (block, runs) = (f.read(&s.list(&w.block)), f.read(&s.list(&w.runs)));
    let count = s.number(w.count);
    let (bins, used) = (f.lend(&s.list(&w.bins)), f.lend(&s.list(&[5usize])));
    let number = unsafe { velomitra_write_palette_cu(block.0, block.1, runs.0, runs.1, count, bins.0, bins.1, used.0, used.1) };
    let told = f.now::<usize>(3).first().copied();
    if let (0, Some(told)) = (number, told) {
        check(told <= bins.1, "more bins than there is room for")?;
        let (before, now) = (f.before::<u8>(2), f.now::<u8>(2));
        check(before[told..] == now[told..], "written past the bins")?;
        check(now[..told].iter().all(|&bin| bin <= 22), "a bin of no class")?;
    }
    answer(number)
}

pub fn read(w: &World, s: &mut Spoiler, f: &mut Frame) -> Checked {
    let mut bins = w.bins.clone();
    for _ in 0..s.random.below(6) / 3 {
        let k = s.random.below(bins.len());
        bins[k] ^= 1;
    }
    let bins = f.read(&s.list(&bins));
    let (size, format) = (s.number(w.size()), s.number(w.config[set::FORMAT] as u8));
    let lossless = s.number(w.config[set::LOSSLESS] == 1);
    let (luma, chroma) = (s.number(w.config[set::LUMA] as u8), s.number(w.config[set::CHROMA] as u8));
    let predictor = f.read(&s.list(&w.predictor));
    let (block, runs) = (f.lend(&s.list(&w.block)), f.lend(&s.list(&w.runs)));
    let [count, used, place] = [0; 3].map(|_| f.lend(&s.list(&[5usize])));
    #[rustfmt::skip]
    let number = unsafe {
        velomitra_read_palette_cu(
            bins.0, bins.1, size, format, luma, chroma, lossless, predictor.0, predictor.1, block.0, block.1,
            runs.0, runs.1, count.0, count.1, used.0, used.1, place.0, place.1,
        )
    };
    let first = |k: usize| f.now::<usize>(k).first().copied();
    if number == 0 {
        check(first(5).is_none_or(|used| used <= bins.1), "more bins used than there are")?;
        check(first(4).is_none_or(|count| count <= size * size), "more runs than cells")?;
        check(f.is_kept(6), "a place without a refusal")?;
    } else {
        let most = if number < 10 { 0 } else { bins.1 };
        check(first(6).is_none_or(|place| place <= most), "a refusal past the bins")?;
    }
    Ok(Answer { number, free: &[6] })
}

pub fn reconstruct(w: &World, s: &mut Spoiler, f: &mut Frame) -> Checked {
    let [y, cb, cr] = [0, 1, 2].map(|c| f.lend(&s.list(&w.planes[c])));
    let strides = [0, 1].map(|c| s.number(w.strides[c]));
    let (config, source, block) = (f.read(&s.list(&w.config)), f.read(&s.list(&w.source)), f.read(&s.list(&w.block)));
    answer(unsafe {
        velomitra_reconstruct(
            y.0, y.1, cb.0, cb.1, cr.0, cr.1, strides[0], strides[1], config.0, config.1, source.0, source.1, block.0, block.1,
        )
    })
}
