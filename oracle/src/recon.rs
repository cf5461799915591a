//! Reconstruction onto target planes: sample for sample, what lies beside the block as it was.

use crate::analysis::all;
use crate::blocks::{at, set, side, Input, Lent, BLOCK, INDICES, LEVELS, PALETTE};
use crate::coverage::Coverage;
use crate::draw::{input, made_or_whole, one_in, one_of, up_to};
use crate::palette::{reconstruct, ReconTarget};
use crate::port;
use crate::refusals::{self, Edit};
use crate::report::{Case, Random, Report};
use std::fmt;

pub type Planes = [Vec<u16>; 3];

/// A call: the input's planes are the target. `due` is the refusal that is due, 0 where source 000's planes are.
#[derive(Clone)]
struct Target {
    what: &'static str,
    due: u8,
    strides: [usize; 2],
    input: Input,
}

/// Source 000's planes to reconstruct onto.
pub fn onto<'a>(input: &Input, strides: [usize; 2], [y, cb, cr]: &'a mut Planes) -> ReconTarget<'a> {
    ReconTarget {
        y,
        cb,
        cr,
        y_stride: strides[0],
        c_stride: strides[1],
        y_height: input.source[side::YH],
        c_height: input.source[side::CH],
    }
}

fn source(input: &Input, strides: [usize; 2], planes: &mut Planes) {
    let config = input.source_config();
    let cu = input.lent.source_cu(config.num_comps);
    reconstruct(&cu, &config, &mut onto(input, strides, planes), input.source[side::X0], input.source[side::Y0]);
}

pub fn port(input: &Input, strides: [usize; 2], [y, cb, cr]: &mut Planes) -> u8 {
    port::reconstruct(y, cb, cr, strides[0], strides[1], &input.config, &input.source, &input.lent.block)
}

impl Case for Target {
    type Answer = (u8, Planes);
    fn source(&self) -> (u8, Planes) {
        let mut planes = self.input.planes.clone();
        if self.due == 0 {
            source(&self.input, self.strides, &mut planes);
        }
        (self.due, planes)
    }
    fn port(&self) -> (u8, Planes) {
        let mut planes = self.input.planes.clone();
        (port(&self.input, self.strides, &mut planes), planes)
    }
    fn seen(&self, answer: &(u8, Planes), coverage: &mut Coverage) {
        coverage.call("reconstruct", &self.input, answer.0, &self.input.lent);
    }
    /// One index less, no transposition.
    fn smaller(&self) -> Vec<Target> {
        let places = (INDICES..LEVELS).chain([at::TRANSPOSE]);
        let set: Vec<usize> = places.filter(|&k| self.input.lent.block.get(k).is_some_and(|&number| number != 0)).collect();
        let less = |k: usize| {
            let mut one = self.clone();
            one.input.lent.block[k] = 0;
            one
        };
        set.into_iter().map(less).collect()
    }
}

impl fmt::Debug for Target {
    fn fmt(&self, f: &mut fmt::Formatter) -> fmt::Result {
        write!(f, "reconstruct {} strides {:?} {:?}", self.what, self.strides, self.input)
    }
}

/// Planes of stride × height, or longer, with any samples.
fn lend(random: &mut Random, case: &mut Target) {
    let heights = [side::YH, side::CH, side::CH].map(|place| case.input.source[place]);
    for c in 0..3 {
        let more = if one_in(random, 4) { up_to(random, 5) } else { 0 };
        let used = c == 0 || case.input.format() != 0 || one_in(random, 4);
        let len = if used { case.strides[c.min(1)] * heights[c] + more } else { 0 };
        case.input.planes[c] = (0..len).map(|_| random.next() as u16).collect();
    }
}

/// A stride of its width, or more.
fn stride(random: &mut Random, width: usize) -> usize {
    match random.below(4) {
        0 | 1 => width,
        2 => width + 1 + up_to(random, 7),
        _ => width + one_of(random, &[1, 16, 32, 64]),
    }
}

/// Blocks that source 000 made, and others that hold together, onto planes of any samples.
fn drawn(random: &mut Random) -> Target {
    let case = input(random);
    let input = made_or_whole(random, case);
    let strides = [side::YW, side::CW].map(|place| stride(random, input.source[place]));
    let mut case = Target { what: "drawn", due: 0, strides, input };
    lend(random, &mut case);
    case
}

/// All maps of a size over two entries and an escape.
fn maps(size: usize, format: i32) -> impl Iterator<Item = Input> {
    all(&[0, 1, 2], (size * size) as u32).map(move |indices| {
        let mut block = vec![0; BLOCK];
        block[..at::ENTRIES].copy_from_slice(&[size as u16, format as u16, 8, 10, 0]);
        (block[at::ENTRIES], block[at::SIGNALED], block[at::ESCAPE]) = (2, 2, 1);
        let entries: [u16; 6] = if format == 0 { [10, 0, 0, 200, 0, 0] } else { [10, 500, 7, 200, 1023, 8] };
        block[PALETTE..PALETTE + 6].copy_from_slice(&entries);
        block[INDICES..INDICES + indices.len()].copy_from_slice(&indices);
        (0..3 * indices.len()).for_each(|k| block[LEVELS + k] = k as u16);
        Input {
            config: vec![if format == 0 { 1 } else { 3 }, format, 8, 10, 22, 4, 30, 0],
            lent: Lent { block, ..Lent::default() },
            ..Input::default()
        }
    })
}

/// A map on planes of these sides, from an origin on, both ways round, lossless or not.
fn placed(input: &Input, sides: [usize; 2], origin: [usize; 2], wider: usize, flags: usize) -> Target {
    let mut input = input.clone();
    let (sub_w, sub_h) = input.sub();
    let chroma = [sides[0].div_ceil(sub_w), sides[1].div_ceil(sub_h)];
    input.source = vec![sides[0], sides[1], chroma[0], chroma[1], origin[0], origin[1], input.lent.block[at::SIZE].into()];
    input.lent.block[at::TRANSPOSE] = (flags % 2) as u16;
    (input.lent.block[at::LOSSLESS], input.config[set::LOSSLESS]) = ((flags / 2) as u16, (flags / 2) as i32);
    let strides = [sides[0] + wider, chroma[0] + wider];
    let lens = [strides[0] * sides[1] + wider, strides[1] * chroma[1] + wider, strides[1] * chroma[1]];
    input.planes = lens.map(|len| (0..len).map(|k| 60_000 + k as u16).collect());
    Target { what: "small", due: 0, strides, input }
}

/// Every map of size 2 in every format on planes of 1 to 3 columns and rows from every near origin on; every map of size 3 at places in turn; size 1.
fn small() -> impl Iterator<Item = Target> {
    const SIDES: [[usize; 2]; 9] = [[1, 1], [1, 2], [1, 3], [2, 1], [2, 2], [2, 3], [3, 1], [3, 2], [3, 3]];
    let places = |format: i32| {
        let even = if format == 1 || format == 2 { 2 } else { 1 };
        (0..4 * 4).map(|k| [k % 4, k / 4]).filter(move |[x, y]| x % even + y % even == 0)
    };
    let two = (0..4).flat_map(move |format| {
        maps(2, format).flat_map(move |map| {
            places(format).flat_map(move |origin| {
                let map = map.clone();
                SIDES.into_iter().flat_map(move |sides| {
                    let map = map.clone();
                    (0..8).map(move |k| placed(&map, sides, origin, k / 4, k % 4))
                })
            })
        })
    });
    let odd = [0, 3].into_iter().flat_map(move |format| {
        maps(1, format).chain(maps(3, format)).zip(0..).flat_map(move |(map, k)| {
            let [x, y] = SIDES[k % 9];
            [0, 1].map(|transpose| placed(&map, [x + 1, y + 1], [k / 9 % 3, k / 27 % 3], k / 81 % 2, transpose))
        })
    });
    two.chain(odd)
}

/// What a change to the base is due: no sample of the target is tested, and the block is after the planes.
fn pictured(edit: Edit) -> Target {
    let mut input = refusals::base(edit.format);
    (edit.change)(&mut input);
    let strides = [side::YW, side::CW].map(|place| input.source.get(place).copied().unwrap_or(0));
    let due = match edit.due {
        4 if input.lent.block[at::TOLERANCE] == 17 => 7,
        4 => 0,
        due => due,
    };
    Target { what: edit.what, due, strides, input }
}

/// A change to a call on planes whose strides are wider than they need be.
fn target(what: &'static str, format: i32, due: u8, change: fn(&mut Target)) -> Target {
    let input = refusals::base(format);
    let mut case = Target { what, due, strides: [11, input.source[side::CW] + 2], input };
    let lens = [(0, side::YH), (1, side::CH), (1, side::CH)].map(|(c, place)| case.strides[c] * case.input.source[place]);
    case.input.planes = lens.map(|len| (0..len).map(|k| k as u16).collect());
    change(&mut case);
    case
}

fn targets() -> Vec<Target> {
    const NONE: usize = usize::MAX;
    vec![
        target("wider strides", 3, 0, |_| ()),
        target("wider strides in format 1", 1, 0, |_| ()),
        target("a luma sample short of stride × height", 3, 3, |t| t.input.planes[0].truncate(t.input.planes[0].len() - 1)),
        target("a second sample short of stride × height", 3, 3, |t| t.input.planes[1].truncate(t.input.planes[1].len() - 1)),
        target("a third sample short of stride × height", 3, 3, |t| t.input.planes[2].truncate(t.input.planes[2].len() - 1)),
        target("a third sample short in format 1", 1, 3, |t| t.input.planes[2].truncate(t.input.planes[2].len() - 1)),
        target("a second sample short in format 2", 2, 3, |t| t.input.planes[1].truncate(t.input.planes[1].len() - 1)),
        target("a luma sample short in format 0", 0, 3, |t| t.input.planes[0].truncate(t.input.planes[0].len() - 1)),
        target("no chroma planes in format 0", 0, 0, |t| (t.input.planes[1], t.input.planes[2]) = (vec![], vec![])),
        target("chroma stride 0 in format 0", 0, 0, |t| t.strides[1] = 0),
        target("luma stride below the width", 3, 3, |t| t.strides[0] = 7),
        target("luma stride of the width", 3, 0, |t| t.strides[0] = 8),
        target("luma stride 0", 3, 3, |t| t.strides[0] = 0),
        target("chroma stride below the width", 3, 3, |t| t.strides[1] = 7),
        target("chroma stride below the width in format 1", 1, 3, |t| t.strides[1] = 3),
        target("chroma stride of the width in format 1", 1, 0, |t| t.strides[1] = 4),
        target("a luma stride without end", 3, 3, |t| t.strides[0] = NONE),
        target("a stride whose product with the height wraps to 0", 3, 3, |t| t.strides[0] = 1 << 61),
        target("a stride whose product with the height wraps to 8", 3, 3, |t| t.strides[0] = (1 << 61) + 1),
        target("a chroma stride without end", 3, 3, |t| t.strides[1] = NONE),
        target("a chroma stride without end in format 0", 0, 0, |t| t.strides[1] = NONE),
        target("a chroma stride without end and no chroma rows", 3, 0, |t| (t.strides[1], t.input.source[side::CH]) = (NONE, 0)),
        target("chroma stride 0, width 0", 3, 0, |t| (t.strides[1], t.input.source[side::CW]) = (0, 0)),
        target("chroma stride 0, width 1", 3, 3, |t| (t.strides[1], t.input.source[side::CW]) = (0, 1)),
        target("chroma stride below the width and no chroma rows", 3, 3, |t| (t.strides[1], t.input.source[side::CH]) = (7, 0)),
        target("a height of one more row", 3, 3, |t| t.input.source[side::YH] += 1),
        target("size and stride", 3, 2, |t| (t.input.source[side::SIZE], t.strides[0]) = (33, 0)),
        target("configuration and stride", 3, 1, |t| (t.input.config[set::QP], t.strides[0]) = (76, 0)),
        target("stride and block", 3, 3, |t| (t.input.lent.block[at::TOLERANCE], t.strides[1]) = (17, 0)),
        target("block, whose cells lie outside", 3, 7, |t| (t.input.lent.block[at::TOLERANCE], t.input.source[side::X0]) = (17, 100)),
        target("a block outside", 3, 0, |t| t.input.source[side::X0] = 100),
        target("a block below", 3, 0, |t| t.input.source[side::Y0] = 8),
        target("a block past the width and before the stride", 3, 0, |t| t.input.source[side::X0] = 9),
        target("transposed and overhanging", 3, 0, |t| {
            t.input.lent.block[at::TRANSPOSE] = 1;
            (t.input.source[side::X0], t.input.source[side::Y0]) = (8, 5);
        }),
        target("transposed and overhanging in format 2", 2, 0, |t| {
            t.input.lent.block[at::TRANSPOSE] = 1;
            (t.input.source[side::X0], t.input.source[side::Y0]) = (8, 6);
        }),
    ]
}

fn refused() -> impl Iterator<Item = Target> {
    let mut edits = refusals::pictures();
    edits.extend(refusals::matching());
    edits.extend(refusals::whole());
    edits.into_iter().map(pictured).chain(targets())
}

pub fn compare(report: &mut Report) {
    report.compare("recon-small", report.once(small()));
    let mut random = report.random("recon");
    report.compare("recon", (0..report.blocks).map(move |_| drawn(&mut random)));
    report.compare("recon-refusals", report.once(refused()));
}
