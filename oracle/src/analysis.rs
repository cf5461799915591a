//! Palettes from planes, with the colour counter after them.

use crate::blocks::{drawn, given, set, side, Input, Op};
use crate::draw::{colorful, input, one_of};
use crate::palette::{analyze_palette, harness, PaletteCu};
use crate::port;
use crate::quant::QPS;
use crate::refusals::{self, refused, Edit};
use crate::report::{Random, Report};

/// Source 000 with a QP in place of the luma QP, or its own.
fn source(input: &mut Input, qp: Option<i32>) -> u8 {
    let config = input.source_config();
    let mut asked = config;
    if let Some(qp) = qp {
        asked.qp[0] = qp;
        asked.lossless = false;
    }
    let predictor = input.lent.source_predictor(config.num_comps);
    let mut counter = input.lent.source_counter();
    let mut cu = PaletteCu::new();
    let found = analyze_palette(&input.source_block(), &predictor, &asked, &mut counter, &mut cu);
    input.lent.set_counter(&counter);
    if !found {
        return 13;
    }
    input.lent.set_block(&cu, &config);
    0
}

pub struct Analyze;

impl Op for Analyze {
    const NAME: &'static str = "analyze";

    fn source(input: &mut Input) -> u8 {
        source(input, None)
    }

    fn port(input: &mut Input) -> u8 {
        let ([y, cb, cr], lent) = (&input.planes, &mut input.lent);
        let counter = (&mut lent.keys, &mut lent.entry, &mut lent.stamp);
        port::analyze_palette(y, cb, cr, &input.config, &input.source, &lent.predictor, counter.0, counter.1, counter.2, &mut lent.block)
    }
}

/// With a tolerance lent: source 000 at a QP that has it.
pub struct Within;

impl Op for Within {
    const NAME: &'static str = "analyze within";

    fn source(input: &mut Input) -> u8 {
        let qp = QPS.into_iter().find(|&qp| u64::from(harness::color_tolerance(qp, false)) == input.tolerance);
        source(input, Some(qp.expect("a tolerance that some QP has")))
    }

    fn port(input: &mut Input) -> u8 {
        let ([y, cb, cr], lent) = (&input.planes, &mut input.lent);
        let counter = (&mut lent.keys, &mut lent.entry, &mut lent.stamp);
        let (config, source) = (&input.config, &input.source);
        port::analyze_with(y, cb, cr, config, source, &lent.predictor, input.tolerance, counter.0, counter.1, counter.2, &mut lent.block)
    }
}

/// Blocks one after the other, each with the counter that the one before left.
fn chained(random: &mut Random, before: &mut Option<Input>) -> Input {
    let mut next = input(random);
    if let Some(last) = before.take() {
        next.lent.keys = last.lent.keys;
        next.lent.entry = last.lent.entry;
        next.lent.stamp = last.lent.stamp;
    }
    let mut after = next.clone();
    Analyze::source(&mut after);
    *before = Some(after);
    next
}

/// A block of one component that fills its plane.
pub fn grey(size: usize, luma: Vec<u16>, qp: i32, predictor: &[u16]) -> Input {
    let mut input = refusals::base(0);
    input.config[set::QP] = qp;
    input.source = vec![size, size, 0, 0, 0, 0, size];
    input.planes = [luma, vec![], vec![]];
    let entries: Vec<[u16; 3]> = predictor.iter().map(|&y| [y, 0, 0]).collect();
    input.lent.set_entries(&entries);
    input
}

/// All planes of so many samples over these values.
pub fn all(values: &'static [u16], samples: u32) -> impl Iterator<Item = Vec<u16>> {
    let k = values.len();
    (0..k.pow(samples)).map(move |word| (0..samples).map(|place| values[word / k.pow(place) % k]).collect())
}

/// Values that lie within a tolerance of 1 or 2 of each other or not, and predictors among them.
pub const VALUES: [&[u16]; 3] = [&[10, 11, 12, 200], &[10, 12, 14, 13], &[0, 1, 254, 255]];
pub const PREDICTORS: [&[u16]; 8] = [&[], &[11], &[11, 11], &[9, 11], &[13, 10], &[200, 12, 10, 11], &[255, 0, 1], &[12, 13, 14, 15, 16]];

/// All blocks of size 2, and many of size 3.
fn small() -> impl Iterator<Item = Input> {
    let two = VALUES.into_iter().flat_map(|values| {
        all(values, 4).flat_map(|luma| {
            [-5, 4, 10, 16, 34].into_iter().flat_map(move |qp| {
                let luma = luma.clone();
                PREDICTORS.into_iter().map(move |predictor| grey(2, luma.clone(), qp, predictor))
            })
        })
    });
    let three = VALUES.into_iter().flat_map(|values| {
        all(&values[..3], 9).enumerate().map(|(k, luma)| grey(3, luma, [4, 10][k % 2], PREDICTORS[k / 2 % PREDICTORS.len()]))
    });
    two.chain(three)
}

/// Blocks whose colours are at the limits: 128 and 129, and half of the cells and one more, with each as often.
fn limits() -> impl Iterator<Item = Input> {
    (2..=32usize).flat_map(|size| {
        let n = size * size;
        [n / 2, n / 2 + 1, 63, 64, 65, 66, 127, 128, 129, 130].into_iter().filter(move |&k| k > 0 && k <= n).flat_map(move |k| {
            // spread over luma by 12 bits, far apart or side by side; and by the third component where luma has too few
            [1, 20, 31].into_iter().map(move |apart| {
                let mut input = refusals::base(3);
                input.config = vec![3, 3, 12, 12, 4, 4, 4, 0];
                input.source = vec![size, size, size, size, 0, 0, size];
                let luma = (0..n).map(|cell| (cell % k * apart % 4096) as u16).collect();
                let third = (0..n).map(|cell| (cell % k * apart / 4096) as u16).collect();
                input.planes = [luma, vec![7; n], third];
                input.lent.set_entries(&[]);
                input
            })
        })
    })
}

pub fn edits() -> Vec<Edit> {
    let mut edits = refusals::pictures();
    edits.extend(refusals::predictor());
    edits.extend([
        Edit::new("a stamp above the generation", 3, 5, |i| i.lent.stamp[256] = 6),
        Edit::new("a stamp above generation 0", 3, 5, |i| {
            i.lent.stamp.fill(0);
            i.lent.stamp[1] = 1;
        }),
        Edit::new("stamps of the generation", 3, 0, |i| i.lent.stamp.fill(5)),
        Edit::new("the last generation", 3, 0, |i| i.lent.stamp.fill(u32::MAX)),
        Edit::new("sample and stamp", 3, 4, |i| {
            i.planes[0].fill(256);
            i.lent.stamp[1] = 6;
        }),
        Edit::new("predictor and too many colours", 3, 5, |i| {
            i.lent.predictor[0] = 129;
            i.planes[0] = (0..64).collect();
        }),
        Edit::new("stamp and too many colours", 3, 5, |i| {
            i.lent.stamp[1] = 6;
            i.planes[0] = (0..64).collect();
        }),
        // the counter moves on one of these, not on the other
        Edit::new("too many colours in luma", 3, 0, |i| i.planes[0] = (0..64).collect()),
        Edit::new("too many colours, few in luma", 3, 0, |i| i.planes[2] = (0..64).collect()),
        Edit::new("two colours of size 2", 3, 0, |i| {
            i.source[side::SIZE] = 2;
            i.planes[0].fill(3);
            i.planes[1].fill(3);
            i.planes[2] = (0..64).map(|k| k % 2).collect();
        }),
        Edit::new("three colours of size 2", 3, 0, |i| {
            i.source[side::SIZE] = 2;
            i.planes[0].fill(3);
            i.planes[1].fill(3);
            i.planes[2] = (0..64).map(|k| k % 8 % 3).collect();
            i.planes[2][18] = 9;
        }),
    ]);
    edits
}

pub fn within_edits() -> Vec<Edit> {
    let mut edits = refusals::pictures();
    edits.extend(refusals::predictor());
    edits.extend([
        Edit::new("a lent tolerance of 17", 3, 7, |i| i.tolerance = 17),
        Edit::new("a lent tolerance without end", 3, 7, |i| i.tolerance = u64::MAX),
        Edit::new("a lent tolerance of 16", 3, 0, |i| i.tolerance = 16),
        Edit::new("a lent tolerance of 0", 3, 0, |i| i.tolerance = 0),
        Edit::new("stamp and tolerance", 3, 5, |i| {
            i.lent.stamp[1] = 6;
            i.tolerance = 17;
        }),
        Edit::new("tolerance and too many colours", 3, 7, |i| {
            i.tolerance = 17;
            i.planes[0] = (0..64).collect();
        }),
    ]);
    edits
}

pub fn compare(report: &mut Report) {
    given::<Analyze>(report, "analyze-small", small());
    given::<Analyze>(report, "analyze-limits", limits());
    drawn::<Analyze>(report, "analyze", input);
    let mut before = None;
    drawn::<Analyze>(report, "analyze-chained", |random| chained(random, &mut before));
    drawn::<Within>(report, "analyze-within", |random| {
        let mut case = input(random);
        case.tolerance = harness::color_tolerance(one_of(random, &[0, 4, 9, 16, 22, 28, 34]), false).into();
        case
    });
    drawn::<Analyze>(report, "analyze-colorful", colorful);
    drawn::<Within>(report, "analyze-within-colorful", |random| {
        let mut case = colorful(random);
        case.tolerance = random.below(2);
        case
    });
    report.compare("analyze-refusals", report.once(refused::<Analyze>(edits())));
    report.compare("analyze-within-refusals", report.once(refused::<Within>(within_edits())));
}
