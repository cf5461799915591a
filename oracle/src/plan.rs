//! Run plans: the runs one by one, and the total bit for bit.

use crate::blocks::{at, drawn, given, Input, Op, BLOCK, INDICES};
use crate::cabac::contexts::PaletteContexts;
use crate::draw::{analysed, assigned, input, one_in, one_of, up_to, whole};
use crate::palette::harness::blocks as private;
use crate::palette::plan_runs;
use crate::port;
use crate::refusals::{self, refused, Edit};
use crate::report::{Random, Report};

pub struct Plan;

impl Op for Plan {
    const NAME: &'static str = "plan";

    /// Source 000's list has no end: where the caller's is too short, 9 is due.
    fn source(input: &mut Input) -> u8 {
        let (cu, model) = (input.lent.source_cu(3), private::model(&input.rates));
        let mut runs = Vec::new();
        let total = plan_runs(&cu, &model, &mut runs);
        let lent = &mut input.lent;
        if lent.runs.len() / 4 < runs.len() {
            return 9;
        }
        for (numbers, run) in lent.runs.chunks_exact_mut(4).zip(&runs) {
            numbers.copy_from_slice(&private::run(run));
        }
        lent.count.iter_mut().take(1).for_each(|count| *count = runs.len());
        lent.total.iter_mut().take(1).for_each(|bits| *bits = total.to_bits());
        0
    }

    fn port(input: &mut Input) -> u8 {
        let lent = &mut input.lent;
        port::plan_runs(&lent.block, &input.rates, &mut lent.runs, &mut lent.count, floats(&mut lent.total))
    }
}

/// Floats of these bits.
fn floats(bits: &mut [u32]) -> &mut [f32] {
    // SAFETY: any 32 bits are a float and any float 32 bits
    unsafe { std::slice::from_raw_parts_mut(bits.as_mut_ptr().cast(), bits.len()) }
}

// ---- rates

/// Rates of CABAC states: those that coding from a QP's start leads to.
fn coded_rates(random: &mut Random) -> Vec<f32> {
    let mut contexts = PaletteContexts::init(random.below(52) as u8);
    for context in [&mut contexts.run_type_flag].into_iter().chain(&mut contexts.run_prefix) {
        let often = random.below(9);
        (0..random.below(60)).for_each(|_| context.update((random.below(8) < often).into()));
    }
    private::rates(&contexts)
}

/// Flat, any, of few values so that ties abound, none, from CABAC states, at the limits.
pub fn rates(random: &mut Random) -> Vec<f32> {
    let few: [f32; 3] = [0; 3].map(|_| one_of(random, &[0.0, 0.5, 1.0, 1.0, 2.0, 3.5, 0.1]));
    match random.below(8) {
        0 => vec![1.0; 18],
        1 => (0..18).map(|_| random.below(1 << 24) as f32 / (1 << 18) as f32).collect(),
        2 => (0..18).map(|_| random.below(1 << 24) as f32 / (1 << 22) as f32).collect(),
        3 | 4 => (0..18).map(|_| one_of(random, &few)).collect(),
        5 => vec![0.0; 18],
        6 => coded_rates(random),
        _ => (0..18).map(|_| one_of(random, &[0.0, -0.0, 64.0, f32::MIN_POSITIVE, f32::from_bits(1), 1e-6, 63.999, 1.0 / 3.0])).collect(),
    }
}

// ---- blocks

/// A block of one component with indices of the caller's own.
pub fn own(size: usize, entries: usize, escape: bool, indices: &[u16]) -> Vec<u16> {
    let mut list = vec![0; BLOCK];
    list[at::SIZE] = size as u16;
    (list[at::LUMA], list[at::CHROMA]) = (8, 8);
    (list[at::ENTRIES], list[at::SIGNALED]) = (entries as u16, entries as u16);
    list[at::ESCAPE] = escape.into();
    list[INDICES..INDICES + indices.len()].copy_from_slice(indices);
    list
}

/// A map of few or many values in which cells often are as the one before or above.
fn drawn_map(random: &mut Random) -> Vec<u16> {
    let size = match random.below(4) {
        0 => one_of(random, &[8, 16, 32]),
        1 => 1 + up_to(random, 31),
        _ => 1 + up_to(random, 9),
    };
    let entries = if one_in(random, 3) { 1 + up_to(random, 63) } else { 1 + up_to(random, 7) };
    let escape = one_in(random, 2);
    let most = entries - 1 + usize::from(escape);
    let values = if one_in(random, 2) { most } else { most.min(2) };
    let kinds = 2 + random.below(12);
    let mut indices = vec![0u16; size * size];
    for k in 0..size * size {
        let fresh = (most - up_to(random, values)) as u16;
        indices[k] = match random.below(kinds) {
            0 => fresh,
            1..=4 if k >= size => indices[port::place_above(k, size) as usize],
            _ if k > 0 => indices[k - 1],
            _ => fresh,
        };
    }
    own(size, entries, escape, &indices)
}

/// Room for a plan of every cell, with something in it.
fn lend(case: &mut Input) {
    let cells = usize::from(case.lent.block[at::SIZE]).pow(2);
    (case.lent.runs, case.lent.count, case.lent.total) = (vec![0xabcd; 4 * cells], vec![7], vec![0x1234_5678]);
}

/// An input of nothing but a block and rates.
fn plain(block: Vec<u16>, rates: Vec<f32>) -> Input {
    let mut case = Input { rates, ..Input::default() };
    case.config = vec![0; 8];
    case.lent.block = block;
    lend(&mut case);
    case
}

/// Maps that source 000's analysis led to, any blocks, and maps drawn.
fn plannable(random: &mut Random) -> Input {
    let block = match random.below(4) {
        0 => {
            let case = input(random);
            match analysed(case.clone()).and_then(assigned) {
                Some(made) => made.lent.block,
                None => whole(random, case).lent.block,
            }
        }
        _ => drawn_map(random),
    };
    let mut case = plain(block, rates(random));
    match random.below(32) {
        0 => case.lent.runs.truncate(random.below(40) as usize),
        1 => case.lent.runs.push(5),
        2 => (case.lent.count, case.lent.total) = (vec![], vec![]),
        _ => (),
    }
    case
}

/// All maps of a size over the indices up to M, which is entries, or escapes too.
pub fn maps(size: usize, most: usize) -> impl Iterator<Item = Vec<u16>> {
    let cells = size * size;
    (0..(most + 1).pow(cells as u32)).flat_map(move |word| {
        let indices: Vec<u16> = (0..cells as u32).map(|k| (word / (most + 1).pow(k) % (most + 1)) as u16).collect();
        [(most + 1, false), (most, true)].map(|(entries, escape)| own(size, entries, escape, &indices))
    })
}

/// Blocks of every size, all cells with one index or the columns in turn, with few entries and with as many as there are.
pub fn even() -> impl Iterator<Item = Vec<u16>> {
    (1..=32usize).flat_map(|size| {
        [(2, false), (1, true), (3, false), (64, true)].into_iter().flat_map(move |(entries, escape)| {
            let most = (entries - 1 + usize::from(escape)) as u16;
            let columns = (0..size * size).map(move |k| (port::scan_pos(k, size) % 2) as u16 * most).collect();
            [vec![0; size * size], vec![most; size * size], columns].map(|indices| own(size, entries, escape, &indices))
        })
    })
}

/// All maps of size 2 with M up to 4 at each of some rates, and all of size 3 with M up to 2 at one of them.
fn small() -> impl Iterator<Item = Input> {
    let mut random = Random::new(3);
    let table: Vec<Vec<f32>> = (0..24).map(|_| rates(&mut random)).collect();
    let (for_two, for_three) = (table.clone(), table);
    let two =
        (0..=4).flat_map(|most| maps(2, most)).flat_map(move |map| for_two.clone().into_iter().map(move |rates| plain(map.clone(), rates)));
    let three = (1..=2).flat_map(|most| maps(3, most)).zip(0..).map(move |(map, k)| plain(map, for_three[k % for_three.len()].clone()));
    two.chain(three)
}

/// Plans whose two ends cost the same: small maps with the copy-above bin's rate at which source 000's last run changes its kind, and the rate just below.
fn ties() -> impl Iterator<Item = Input> {
    let flat = vec![1.0; 18];
    (1..=4).flat_map(|most| maps(2, most)).chain(maps(3, 1)).flat_map(move |map| {
        let planned = |rate: f32| {
            let mut case = plain(map.clone(), flat.clone());
            case.rates[1] = rate;
            let mut after = case.clone();
            Plan::source(&mut after);
            let last = 4 * (after.lent.count[0] - 1);
            (case, f32::from_bits(after.lent.total[0]), after.lent.runs[last] == 1)
        };
        let (free, dear) = (planned(0.0), planned(64.0));
        let rate = dear.1 - free.1;
        let below = f32::from_bits(rate.to_bits().saturating_sub(1));
        let (tied, under) = (planned(rate.clamp(0.0, 64.0)), planned(below.clamp(0.0, 64.0)));
        // equal totals, of which the one that does not copy is taken
        match free.2 && !dear.2 && !tied.2 && under.2 {
            true => vec![tied.0, under.0],
            false => vec![],
        }
    })
}

// ---- refusals

pub fn edits() -> Vec<Edit> {
    let mut edits = refusals::block_size();
    edits.extend(refusals::whole());
    edits.extend([
        Edit::new("rate 64", 3, 0, |i| i.rates[17] = 64.0),
        Edit::new("rate over 64", 3, 6, |i| i.rates[17] = f32::from_bits(64f32.to_bits() + 1)),
        Edit::new("first rate below 0", 3, 6, |i| i.rates[0] = -f32::from_bits(1)),
        Edit::new("second rate below 0", 3, 6, |i| i.rates[1] = -1.0),
        Edit::new("prefix rate below 0", 3, 6, |i| i.rates[2] = -1.0),
        Edit::new("rate -0", 3, 0, |i| i.rates[0] = -0.0),
        Edit::new("rates 0", 3, 0, |i| i.rates.fill(0.0)),
        Edit::new("least rate over 0", 3, 0, |i| i.rates[1] = f32::from_bits(1)),
        Edit::new("a rate that is none", 3, 6, |i| i.rates[9] = f32::NAN),
        Edit::new("a rate without end", 3, 6, |i| i.rates[16] = f32::INFINITY),
        Edit::new("a rate without end below 0", 3, 6, |i| i.rates[3] = f32::NEG_INFINITY),
        Edit::new("seventeen rates", 3, 0, |i| i.rates.truncate(17)),
        Edit::new("no rates", 3, 0, |i| i.rates.clear()),
        Edit::new("a nineteenth rate that is none", 3, 0, |i| i.rates.push(f32::NAN)),
        Edit::new("rate where there is nothing to code", 0, 6, |i| {
            i.lent.block = own(2, 1, false, &[0; 4]);
            i.rates[0] = 65.0;
        }),
        Edit::new("nothing to code, and no room", 0, 0, |i| {
            i.lent.block = own(2, 1, false, &[0; 4]);
            i.lent.runs.clear();
        }),
        Edit::new("nothing to code with escapes alone", 0, 0, |i| i.lent.block = own(2, 0, true, &[0; 4])),
        Edit::new("room for three runs of four", 0, 9, |i| {
            i.lent.block = own(2, 3, false, &[0, 1, 2, 1]);
            i.lent.runs.truncate(15);
        }),
        Edit::new("room for four runs", 0, 0, |i| {
            i.lent.block = own(2, 3, false, &[0, 1, 2, 1]);
            i.lent.runs.truncate(16);
        }),
        Edit::new("no room", 3, 9, |i| i.lent.runs.clear()),
        Edit::new("size and rate", 3, 2, |i| {
            i.lent.block[at::SIZE] = 33;
            i.rates[0] = 65.0;
        }),
        Edit::new("rate and block", 3, 6, |i| {
            i.lent.block[at::TOLERANCE] = 17;
            i.rates[0] = 65.0;
        }),
        Edit::new("rate and room", 3, 6, |i| {
            i.lent.runs.clear();
            i.rates[0] = 65.0;
        }),
        Edit::new("block and room", 3, 7, |i| {
            i.lent.block[INDICES] = 255;
            i.lent.runs.clear();
        }),
    ]);
    edits
}

pub fn compare(report: &mut Report) {
    given::<Plan>(report, "plan-small", small());
    given::<Plan>(report, "plan-tie", ties());
    given::<Plan>(report, "plan-even", even().map(|block| plain(block, vec![1.0; 18])));
    drawn::<Plan>(report, "plan", plannable);
    report.compare("plan-refusals", report.once(refused::<Plan>(edits())));
}
