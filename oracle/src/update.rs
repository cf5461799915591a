//! The predictor's update.

use crate::blocks::{at, drawn, given, Input, Op, LIMIT, MOST_ENTRIES};
use crate::draw::{analysed, assigned, input, one_of, whole};
use crate::port;
use crate::refusals::{self, refused, Edit};
use crate::report::{Random, Report};

pub struct Update;

impl Op for Update {
    const NAME: &'static str = "update";

    fn source(input: &mut Input) -> u8 {
        let mut predictor = input.lent.source_predictor(3);
        let cu = input.lent.source_cu(3);
        predictor.update(cu.palette_entries(), cu.reuse_flags(), input.limit);
        input.lent.set_predictor(&predictor);
        0
    }

    fn port(input: &mut Input) -> u8 {
        port::update(&mut input.lent.predictor, &input.lent.block, input.limit)
    }
}

/// Blocks one after the other as an encoder has them, each with the predictor that the one before left.
fn chained(random: &mut Random, before: &mut Option<Input>) -> Input {
    let mut next = input(random);
    if let Some(last) = before.take() {
        let same = last.config[..4] == next.config[..4];
        let entries = last.lent.predictor;
        if same {
            next.lent.predictor = entries;
        } else {
            next.lent.set_entries(&[]);
        }
    }
    let coded = analysed(next.clone()).and_then(assigned);
    let mut case = match coded {
        Some(coded) => coded,
        None => whole(random, next),
    };
    case.limit = if one_of(random, &[true, false]) { MOST_ENTRIES } else { random.below(MOST_ENTRIES as u64 + 1) as usize };
    let mut after = case.clone();
    Update::source(&mut after);
    *before = Some(after);
    case
}

/// All flags of up to three entries, all limits up to the entries that there are, with palettes of none to two.
fn few() -> impl Iterator<Item = Input> {
    (0..=3u16).flat_map(|old| (0..1u16 << old).map(move |set| (old, set))).flat_map(|(old, set)| {
        (set.count_ones() as u16..=set.count_ones() as u16 + 2).flat_map(move |size| {
            (0..=usize::from(old + size) + 1).flat_map(move |limit| {
                // as many flags as entries, and fewer
                (0..=old).filter(move |&flags| set >> flags == 0).map(move |flags| {
                    let mut case = refusals::base(3);
                    let entries: Vec<[u16; 3]> = (0..old).map(|k| [k + 1, k + 11, k + 21]).collect();
                    case.lent.set_entries(&entries);
                    let block = &mut case.lent.block;
                    block[at::ENTRIES] = size;
                    block[at::FLAGS] = flags;
                    block[at::SIGNALED] = size - set.count_ones() as u16;
                    block[at::ESCAPE] = 1;
                    refusals::set_flags(block, set);
                    refusals::set_palette(block, 100);
                    refusals::set_cells(block, 0);
                    case.limit = limit;
                    case
                })
            })
        })
    })
}

pub fn edits() -> Vec<Edit> {
    let mut edits = refusals::block_size();
    edits.extend(refusals::predictor());
    edits.extend(refusals::whole());
    edits.extend([
        Edit::new("limit 129", 3, 5, |i| i.limit = 129),
        Edit::new("limit without end", 3, 5, |i| i.limit = usize::MAX),
        Edit::new("limit 128", 3, 0, |i| i.limit = 128),
        Edit::new("limit 0", 3, 0, |i| i.limit = 0),
        Edit::new("an entry over a depth of 9", 3, 5, |i| {
            i.lent.block[at::LUMA] = 9;
            i.lent.predictor[1] = 512;
        }),
        Edit::new("an entry up to a depth of 9, which is none", 3, 7, |i| {
            i.lent.block[at::LUMA] = 9;
            i.lent.predictor[1] = 511;
        }),
        Edit::new("an entry over a depth of 0", 3, 5, |i| {
            i.lent.block[at::CHROMA] = 0;
            i.lent.set_entries(&[[0, 0, 1]]);
        }),
        Edit::new("any entry at a depth of 300", 3, 7, |i| {
            i.lent.block[at::LUMA] = 300;
            i.lent.predictor[1] = 65535;
        }),
        Edit::new("size and limit", 3, 2, |i| {
            i.lent.block[at::SIZE] = 33;
            i.limit = 129;
        }),
        Edit::new("size and predictor", 3, 2, |i| {
            i.lent.block[at::SIZE] = 0;
            i.lent.predictor[0] = 129;
        }),
        Edit::new("size and block", 3, 2, |i| {
            i.lent.block[at::SIZE] = 33;
            i.lent.block[at::TOLERANCE] = 17;
        }),
        Edit::new("predictor and block", 3, 5, |i| {
            i.lent.predictor[0] = 129;
            i.lent.block[at::TOLERANCE] = 17;
        }),
        Edit::new("limit and block", 3, 5, |i| {
            i.limit = 129;
            i.lent.block[at::ENTRIES] = LIMIT as u16 + 1;
        }),
    ]);
    edits
}

pub fn compare(report: &mut Report) {
    given::<Update>(report, "update-few", few());
    drawn::<Update>(report, "update", |random| {
        let case = input(random);
        let mut case = whole(random, case);
        case.limit = one_of(random, &[0, 1, 31, 64, 100, 127, 128]);
        case
    });
    let mut before = None;
    drawn::<Update>(report, "update-chained", |random| chained(random, &mut before));
    report.compare("update-refusals", report.once(refused::<Update>(edits())));
}
