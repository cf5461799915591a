//! Smoothing of index maps: indices, whether a run was moved, the error figure.

use crate::assign;
use crate::blocks::{at, drawn, given, round_figure, set, Call, Input, Op, Refusal, INDICES, LEVELS};
use crate::draw::{assigned, config, made_or_whole, one_in, one_of, with_config};
use crate::palette::smooth_indices;
use crate::port;
use crate::refusals::{self, refused, Edit};
use crate::report::{Random, Report};

pub struct Smooth;

impl Op for Smooth {
    const NAME: &'static str = "smooth";

    fn source(input: &mut Input) -> u8 {
        let config = input.source_config();
        let mut cu = input.lent.source_cu(config.num_comps);
        let changed = smooth_indices(&input.source_block(), &config, input.lambda, input.bits_per_run, &mut cu);
        input.lent.changed = changed;
        input.lent.set_block(&cu, &config);
        0
    }

    /// The error figure is rounded once, as source 000's is.
    fn port(input: &mut Input) -> u8 {
        let ([y, cb, cr], lent) = (&input.planes, &mut input.lent);
        let number = port::smooth_indices(y, cb, cr, &input.config, &input.source, input.lambda, input.bits_per_run, &mut lent.block);
        lent.changed = number % 2 == 1;
        if number < 2 {
            round_figure(&mut lent.block);
        }
        (number / 2) as u8
    }
}

/// A lambda and bits per run: usual ones, limits, any.
fn price(random: &mut Random) -> (f32, f32) {
    let any = [0; 2].map(|_| f32::from_bits(random.next() as u32));
    let whole = random.below(4096) as f32;
    let (usual, limits) =
        ([0.25, 5.7, 57.0, 1000.0, whole, -whole], [0.0, -0.0, -1.0, 1e9, -5e7, f32::INFINITY, f32::NEG_INFINITY, f32::NAN, any[0]]);
    let lambda = if one_in(random, 3) { one_of(random, &limits) } else { one_of(random, &usual) };
    (lambda, one_of(random, &[4.0, 4.0, 4.0, 1.0, 1.0, 0.1, 0.0, -1.0, f32::INFINITY, f32::NAN, any[1]]))
}

/// Indices that often are those of the cell before or above, and no levels.
fn join(random: &mut Random, block: &mut [u16]) {
    let size = usize::from(block[at::SIZE]);
    for k in 1..size * size {
        match random.below(4) {
            0 => (),
            1 if k >= size => block[INDICES + k] = block[INDICES + port::place_above(k, size) as usize],
            _ => block[INDICES + k] = block[INDICES + k - 1],
        }
    }
    block[LEVELS..].fill(0);
}

/// Blocks that source 000 made, and the caller's own; a quarter at 12 bits in format 3.
fn mapped(random: &mut Random) -> Input {
    let mut settings = config(random);
    settings[set::LOSSLESS] = 0;
    if one_in(random, 4) {
        settings[..set::QP].copy_from_slice(&[3, 3, 12, 12]);
    }
    let mut case = with_config(random, settings);
    case.transpose = false;
    case = made_or_whole(random, case);
    let block = &mut case.lent.block;
    block[at::TRANSPOSE] = 0;
    if one_in(random, 2) {
        join(random, block);
        block[at::TOLERANCE] = random.below(17) as u16;
    }
    (case.lambda, case.bits_per_run) = price(random);
    case
}

/// A float's place among all but the NaNs, and back.
fn rank(x: f32) -> i64 {
    let bits = i64::from(x.to_bits());
    if bits < 1 << 31 {
        bits
    } else {
        (1 << 31) - bits
    }
}

fn of_rank(rank: i64) -> f32 {
    f32::from_bits(if rank < 0 { (1 << 31) - rank } else { rank } as u32)
}

/// The greatest lambda at which no run moves, the next, which is just over the cheapest run's cost, and those beside them; none where no run ever moves.
fn at_budget(mut case: Input) -> Vec<Input> {
    case.bits_per_run = 1.0;
    let (config, cu) = (case.source_config(), case.lent.source_cu(case.source_config().num_comps));
    let moves = |lambda: f32| smooth_indices(&case.source_block(), &config, lambda, 1.0, &mut cu.clone());
    if !moves(f32::INFINITY) {
        return vec![];
    }
    let (mut none, mut some) = (rank(f32::NEG_INFINITY), rank(f32::INFINITY));
    while some - none > 1 {
        let middle = (none + some) / 2;
        if moves(of_rank(middle)) {
            some = middle;
        } else {
            none = middle;
        }
    }
    [none - 1, none, some, some + 1]
        .into_iter()
        .filter(|rank| rank.abs() <= i64::from(f32::INFINITY.to_bits()))
        .map(|rank| Input { lambda: of_rank(rank), ..case.clone() })
        .collect()
}

/// All blocks of size 2 with all palettes of up to two entries, and many of size 3, at prices in turn.
fn small() -> impl Iterator<Item = Input> {
    const LAMBDAS: [f32; 8] = [1.0, f32::INFINITY, 0.0, 50.0, 0.25, -1.0, f32::NAN, 1e4];
    assign::small().filter(|case| !case.transpose).filter_map(assigned).zip(0..).map(|(mut case, k)| {
        case.lambda = LAMBDAS[k % LAMBDAS.len()];
        case
    })
}

pub fn edits() -> Vec<Edit> {
    let mut edits = refusals::pictures();
    edits.extend(refusals::matching());
    edits.extend(refusals::whole());
    edits.extend([
        Edit::new("transposed", 3, 15, |i| i.lent.block[at::TRANSPOSE] = 1),
        Edit::new("transposition 2 is off", 3, 0, |i| i.lent.block[at::TRANSPOSE] = 2),
        Edit::new("lossless", 3, 15, |i| {
            i.config[set::LOSSLESS] = 1;
            i.lent.block[at::LOSSLESS] = 1;
            refusals::set_cells(&mut i.lent.block, 0);
        }),
        Edit::new("transposed and lossless", 0, 15, |i| {
            i.config[set::LOSSLESS] = 1;
            (i.lent.block[at::LOSSLESS], i.lent.block[at::TRANSPOSE]) = (1, 1);
            refusals::set_cells(&mut i.lent.block, 0);
        }),
        Edit::new("transposed and no budget", 3, 15, |i| {
            i.lent.block[at::TRANSPOSE] = 1;
            i.lambda = f32::NAN;
        }),
        Edit::new("block and transposed", 3, 7, |i| {
            i.lent.block[at::TRANSPOSE] = 1;
            i.lent.block[at::TOLERANCE] = 17;
        }),
        Edit::new("sample and transposed", 3, 4, |i| {
            i.lent.block[at::TRANSPOSE] = 1;
            i.planes[0].fill(256);
        }),
        Edit::new("no budget", 3, 0, |i| i.lambda = f32::NAN),
        Edit::new("infinite lambda, no bits", 3, 0, |i| (i.lambda, i.bits_per_run) = (f32::INFINITY, 0.0)),
        Edit::new("infinite budget", 3, 0, |i| i.lambda = f32::INFINITY),
        Edit::new("a run that costs nothing", 0, 0, |i| {
            // size 2, rows 10 200: nothing changes, and yet a run is moved
            i.source = vec![2, 2, 0, 0, 0, 0, 2];
            i.planes[0] = vec![10, 200, 10, 200];
            let block = &mut i.lent.block;
            (block[at::SIZE], block[at::ENTRIES], block[at::SIGNALED], block[at::FLAGS], block[at::ESCAPE], block[at::TOLERANCE]) =
                (2, 2, 2, 0, 0, 1);
            refusals::set_cells(block, 0);
            block[INDICES..INDICES + 4].copy_from_slice(&[0, 1, 1, 0]);
            block[crate::blocks::PALETTE..crate::blocks::PALETTE + 6].copy_from_slice(&[10, 0, 0, 200, 0, 0]);
            (i.lambda, i.bits_per_run) = (1.0, 4.0);
        }),
    ]);
    edits
}

/// What falls short for other calls is due 15 where the block is transposed or lossless.
fn refusals() -> impl Iterator<Item = Refusal<Smooth>> {
    refused::<Smooth>(edits()).map(|mut case| {
        let block = &case.call.input.lent.block;
        if case.due == 0 && (block[at::TRANSPOSE] == 1 || block[at::LOSSLESS] == 1) {
            case.due = 15;
        }
        case
    })
}

pub fn compare(report: &mut Report) {
    given::<Smooth>(report, "smooth-small", small());
    drawn::<Smooth>(report, "smooth", mapped);
    let mut random = report.random("smooth-budget");
    report.compare("smooth-budget", (0..report.blocks / 16).flat_map(|_| at_budget(mapped(&mut random))).map(Call::<Smooth>::new));
    report.compare("smooth-refusals", report.once(refusals()));
}
