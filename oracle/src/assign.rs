//! Indices, levels and error figures of blocks whose palette is given.

use crate::analysis::{all, grey, VALUES};
use crate::blocks::{at, drawn, given, round_figure, rounded, set, Input, Op, INDICES, PALETTE};
use crate::draw::{analysed, assigned, input, made_or_whole, one_of, with_palette};
use crate::palette::{assign_indices, harness};
use crate::port;
use crate::refusals::{self, refused, Edit};
use crate::report::{Random, Report};

pub struct Assign;

impl Op for Assign {
    const NAME: &'static str = "assign";

    /// Where source 000 half-fills a block that it refuses, the block stays as it was.
    fn source(input: &mut Input) -> u8 {
        let config = input.source_config();
        let mut cu = input.lent.source_cu(config.num_comps);
        if !assign_indices(&input.source_block(), &config, input.transpose, &mut cu) {
            return 14;
        }
        input.lent.set_block(&cu, &config);
        0
    }

    /// The error figure is rounded once, as source 000's is.
    fn port(input: &mut Input) -> u8 {
        let ([y, cb, cr], lent) = (&input.planes, &mut input.lent);
        let number = port::assign_indices(y, cb, cr, &input.config, &input.source, input.transpose, &mut lent.block);
        if number == 0 {
            round_figure(&mut lent.block);
        }
        number
    }
}

pub struct Figure;

impl Op for Figure {
    const NAME: &'static str = "error figure";

    fn source(input: &mut Input) -> u8 {
        let config = input.source_config();
        let cu = input.lent.source_cu(config.num_comps);
        input.lent.figure = vec![harness::blocks::palette_sse(&input.source_block(), &config, &cu) as u64];
        0
    }

    fn port(input: &mut Input) -> u8 {
        let ([y, cb, cr], lent) = (&input.planes, &mut input.lent);
        let number = port::palette_sse(y, cb, cr, &input.config, &input.source, &lent.block, &mut lent.figure);
        lent.figure.iter_mut().for_each(|figure| *figure = rounded(*figure));
        number
    }
}

/// Half the blocks with the palette that source 000 finds, half with any.
fn assignable(random: &mut Random) -> Input {
    let case = input(random);
    match analysed(case.clone()) {
        Some(found) if one_of(random, &[true, false]) => found,
        _ => with_palette(random, case),
    }
}

/// All blocks of size 2 with all palettes of up to two entries of their values, both ways round; many of size 3.
pub fn small() -> impl Iterator<Item = Input> {
    let with = |luma: Vec<u16>, size: usize, qp: i32, palette: Vec<u16>, tolerance: u16, transpose: bool| {
        let mut case = grey(size, luma, qp, &[]);
        let block = &mut case.lent.block;
        block[at::SIZE] = size as u16;
        block[at::ENTRIES] = palette.len() as u16;
        block[at::SIGNALED] = palette.len() as u16;
        block[at::FLAGS] = 0;
        block[at::TOLERANCE] = tolerance;
        refusals::set_cells(block, 0);
        for (k, y) in palette.into_iter().enumerate() {
            block[PALETTE + 3 * k..PALETTE + 3 * k + 3].copy_from_slice(&[y, 0, 0]);
        }
        case.transpose = transpose;
        case
    };
    let two = VALUES.into_iter().flat_map(move |values| {
        all(values, 4).flat_map(move |luma| {
            (1..=2).flat_map(move |entries| all(values, entries)).flat_map(move |palette| {
                let luma = luma.clone();
                [(0, 4, false), (1, 22, true), (2, 51, false), (16, -7, true)]
                    .into_iter()
                    .map(move |(tolerance, qp, transpose)| with(luma.clone(), 2, qp, palette.clone(), tolerance, transpose))
            })
        })
    });
    let three = VALUES.into_iter().flat_map(move |values| {
        let palettes: Vec<Vec<u16>> = (1..=3).flat_map(|entries| all(&values[..3], entries)).collect();
        all(&values[..3], 9)
            .enumerate()
            .map(move |(k, luma)| with(luma, 3, [4, 28][k % 2], palettes[k / 2 % palettes.len()].clone(), (k % 3) as u16, k % 4 > 1))
    });
    two.chain(three)
}

pub fn edits() -> Vec<Edit> {
    let mut edits = refusals::pictures();
    edits.extend(refusals::matching());
    edits.extend(refusals::palette());
    edits.extend([
        Edit::new("empty palette", 3, 7, |i| i.lent.block[at::ENTRIES] = 0),
        Edit::new("what assignment does not test", 3, 0, |i| {
            let block = &mut i.lent.block;
            (block[at::FLAGS], block[at::SIGNALED]) = (65535, 65535);
            block[INDICES] = 255;
        }),
        Edit::new("block and too many escapes", 3, 7, |i| {
            i.lent.block[at::TOLERANCE] = 17;
            i.planes[0] = (0..64).map(|k| k * 3).collect();
        }),
        Edit::new("five escapes of 16 cells", 0, 0, |i| escaping(i, 5)),
        Edit::new("four escapes of 16 cells", 0, 0, |i| escaping(i, 4)),
        Edit::new("no escape", 0, 0, |i| escaping(i, 0)),
    ]);
    edits
}

/// The first cells of the block beyond the tolerance of its one entry.
fn escaping(input: &mut Input, cells: usize) {
    input.planes[0].fill(20);
    (0..cells).for_each(|k| input.planes[0][(2 + k / 4) * 8 + 2 + k % 4] = 200);
    let block = &mut input.lent.block;
    block[at::ENTRIES] = 1;
    block[PALETTE] = 20;
}

pub fn figure_edits() -> Vec<Edit> {
    let mut edits = refusals::pictures();
    edits.extend(refusals::matching());
    edits.extend(refusals::whole());
    edits.push(Edit::new("transposed and lossless", 3, 0, |i| {
        i.config[set::LOSSLESS] = 1;
        (i.lent.block[at::LOSSLESS], i.lent.block[at::TRANSPOSE]) = (1, 1);
        refusals::set_cells(&mut i.lent.block, 0);
    }));
    edits
}

pub fn compare(report: &mut Report) {
    given::<Assign>(report, "assign-small", small());
    drawn::<Assign>(report, "assign", assignable);
    report.compare("assign-refusals", report.once(refused::<Assign>(edits())));
    given::<Figure>(report, "figure-small", small().filter_map(assigned));
    drawn::<Figure>(report, "figure", |random| {
        let case = input(random);
        made_or_whole(random, case)
    });
    report.compare("figure-refusals", report.once(refused::<Figure>(figure_edits())));
}
