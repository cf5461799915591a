//! Inputs that meet one ground of refusal, that fall just short of it, and that meet two.

use crate::blocks::{at, set, side, Call, Input, Lent, Op, Refusal, FLAGS, INDICES, LEVELS, LIMIT, MOST_ENTRIES, PALETTE};
use crate::draw::{analysed, assigned};

/// A change to the base of a format, and the refusal that is then due; 0 where source 000's answer is.
pub struct Edit {
    pub what: &'static str,
    pub format: i32,
    pub due: u8,
    pub change: fn(&mut Input),
}

impl Edit {
    pub fn new(what: &'static str, format: i32, due: u8, change: fn(&mut Input)) -> Edit {
        Edit { what, format, due, change }
    }
}

pub fn refused<O: Op>(edits: Vec<Edit>) -> impl Iterator<Item = Refusal<O>> {
    edits.into_iter().map(|edit| {
        let mut input = base(edit.format);
        (edit.change)(&mut input);
        Refusal { what: edit.what, due: edit.due, call: Call::new(input) }
    })
}

/// An input that every call takes: a block of size 4 within planes, with a predictor, a counter, and a block with escapes that source 000 made of it.
pub fn base(format: i32) -> Input {
    let (comps, sub_w, sub_h) = [(1, 1, 1), (3, 2, 2), (3, 2, 1), (3, 1, 1)][format as usize];
    let (w, h) = (8, 8);
    let (cw, ch) = (w / sub_w, h / sub_h);
    let luma = (0..w * h).map(|k| [20, 20, 90, 20, 20, 90, 91, 20][(k + k / w) % 8] + u16::from(k == 27) * 100).collect();
    let chroma = |first: u16| (0..cw * ch).map(|k| first + 500 * u16::from(k % cw > cw / 2)).collect::<Vec<u16>>();
    let planes = if format == 0 { [luma, vec![], vec![]] } else { [luma, chroma(100), chroma(200)] };
    let mut lent = Lent { stamp: vec![5; 257], runs: vec![7; 64], count: vec![7], total: vec![7], ..Lent::default() };
    lent.stamp[7] = 4;
    let color = |y: u16| if format == 0 { [y, 0, 0] } else { [y, 100, 200] };
    lent.set_entries(&[color(21), color(255)]);
    let input = Input {
        config: vec![comps, format, 8, 10, 22, 23, 24, 0],
        source: vec![w, h, cw, ch, 2, 2, 4],
        planes,
        transpose: false,
        limit: MOST_ENTRIES,
        tolerance: 4,
        lambda: 20.0,
        bits_per_run: 4.0,
        rates: (0..18).map(|k| 1.0 + k as f32 / 8.0).collect(),
        lent,
    };
    analysed(input).and_then(assigned).expect("source 000 takes the base")
}

/// Where row 2, column 2 of the planes stands: the block's first cell.
const FIRST: usize = 2 * 8 + 2;

fn set_depths(input: &mut Input, luma: u16, chroma: u16) {
    (input.config[set::LUMA], input.config[set::CHROMA]) = (luma.into(), chroma.into());
    (input.lent.block[at::LUMA], input.lent.block[at::CHROMA]) = (luma, chroma);
}

fn set_size(input: &mut Input, size: u16) {
    input.source[side::SIZE] = size.into();
    input.lent.block[at::SIZE] = size;
}

pub fn set_flags(block: &mut [u16], bits: u16) {
    (0..16).for_each(|k| block[FLAGS + k] = bits >> k & 1);
}

/// Entries that count up from a number.
pub fn set_palette(block: &mut [u16], from: u16) {
    (0..3 * LIMIT).for_each(|k| block[PALETTE + k] = from + k as u16 % 100);
}

/// All indices the same, and no levels.
pub fn set_cells(block: &mut [u16], index: u16) {
    block[INDICES..LEVELS].fill(index);
    block[LEVELS..].fill(0);
}

/// An empty palette, whose every cell escapes.
fn empty(input: &mut Input) {
    let block = &mut input.lent.block;
    (block[at::ENTRIES], block[at::SIGNALED], block[at::FLAGS], block[at::ESCAPE]) = (0, 0, 0, 1);
    set_cells(block, 0);
}

/// One entry, cell 0 an escape with these levels, lossless or not.
fn escape(input: &mut Input, lossless: u16, levels: [u16; 3]) {
    input.config[set::LOSSLESS] = lossless.into();
    let block = &mut input.lent.block;
    block[at::LOSSLESS] = lossless;
    (block[at::ENTRIES], block[at::SIGNALED], block[at::FLAGS], block[at::ESCAPE]) = (1, 1, 0, 1);
    set_cells(block, 0);
    block[INDICES] = 1;
    block[LEVELS..LEVELS + 3].copy_from_slice(&levels);
}

// ---- 1 to 4, of the calls that are given planes

pub fn pictures() -> Vec<Edit> {
    let mut edits = configs();
    edits.extend(geometries());
    edits.extend(samples());
    edits
}

fn configs() -> Vec<Edit> {
    vec![
        Edit::new("one component in format 3", 3, 1, |i| i.config[set::COMPS] = 1),
        Edit::new("two components", 3, 1, |i| i.config[set::COMPS] = 2),
        Edit::new("four components", 3, 1, |i| i.config[set::COMPS] = 4),
        Edit::new("no component", 0, 1, |i| i.config[set::COMPS] = 0),
        Edit::new("three components in format 0", 0, 1, |i| i.config[set::COMPS] = 3),
        Edit::new("one component in format 1", 1, 1, |i| i.config[set::COMPS] = 1),
        Edit::new("one component in format 2", 2, 1, |i| i.config[set::COMPS] = 1),
        Edit::new("257 components", 0, 1, |i| i.config[set::COMPS] = 257),
        Edit::new("-1 components", 3, 1, |i| i.config[set::COMPS] = -1),
        Edit::new("format 4", 3, 1, |i| i.config[set::FORMAT] = 4),
        Edit::new("format 256", 0, 1, |i| i.config[set::FORMAT] = 256),
        Edit::new("format 259", 3, 1, |i| i.config[set::FORMAT] = 259),
        Edit::new("format -1", 0, 1, |i| i.config[set::FORMAT] = -1),
        Edit::new("luma of 9 bits", 3, 1, |i| set_depths(i, 9, 10)),
        Edit::new("luma of 7 bits", 3, 1, |i| set_depths(i, 7, 10)),
        Edit::new("luma of 11 bits", 3, 1, |i| set_depths(i, 11, 10)),
        Edit::new("luma of 13 bits", 3, 1, |i| set_depths(i, 13, 10)),
        Edit::new("luma of 264 bits", 3, 1, |i| set_depths(i, 264, 10)),
        Edit::new("luma of 10 bits", 3, 0, |i| set_depths(i, 10, 10)),
        Edit::new("luma of 12 bits", 3, 0, |i| set_depths(i, 12, 10)),
        Edit::new("chroma of 9 bits", 3, 1, |i| set_depths(i, 8, 9)),
        Edit::new("chroma of 14 bits", 3, 1, |i| set_depths(i, 8, 14)),
        Edit::new("chroma of 12 bits", 3, 0, |i| set_depths(i, 8, 12)),
        Edit::new("chroma of 9 bits in format 0", 0, 1, |i| set_depths(i, 8, 9)),
        Edit::new("luma QP 76", 3, 1, |i| i.config[set::QP] = 76),
        Edit::new("luma QP 75", 3, 0, |i| i.config[set::QP] = 75),
        Edit::new("luma QP -129", 3, 1, |i| i.config[set::QP] = -129),
        Edit::new("luma QP -128", 3, 0, |i| i.config[set::QP] = -128),
        Edit::new("second QP 76", 3, 1, |i| i.config[set::QP + 1] = 76),
        Edit::new("second QP 75", 3, 0, |i| i.config[set::QP + 1] = 75),
        Edit::new("third QP -129", 3, 1, |i| i.config[set::QP + 2] = -129),
        Edit::new("third QP -128", 3, 0, |i| i.config[set::QP + 2] = -128),
        Edit::new("third QP 76 in format 0", 0, 1, |i| i.config[set::QP + 2] = 76),
        Edit::new("least QP of all", 3, 1, |i| i.config[set::QP] = i32::MIN),
        Edit::new("greatest QP of all", 3, 1, |i| i.config[set::QP + 1] = i32::MAX),
        Edit::new("no configuration", 3, 1, |i| i.config.clear()),
        Edit::new("configuration without its lossless flag", 3, 0, |i| i.config.truncate(7)),
        Edit::new("lossless 2 is off", 3, 0, |i| i.config[set::LOSSLESS] = 2),
        Edit::new("configuration and size", 3, 1, |i| {
            i.config[set::QP] = 76;
            i.source[side::SIZE] = 0;
        }),
        Edit::new("configuration and planes", 3, 1, |i| {
            i.config[set::COMPS] = 1;
            i.planes[0].clear();
        }),
        Edit::new("configuration and sample", 3, 1, |i| {
            i.config[set::QP] = 76;
            i.planes[0][FIRST] = 256;
        }),
        Edit::new("configuration and predictor, configuration and block", 3, 1, |i| {
            i.config[set::QP] = 76;
            i.lent.predictor[0] = 129;
            i.lent.block[at::TOLERANCE] = 17;
        }),
    ]
}

fn geometries() -> Vec<Edit> {
    vec![
        Edit::new("size 0", 3, 2, |i| set_size(i, 0)),
        Edit::new("size 33", 3, 2, |i| set_size(i, 33)),
        Edit::new("size 1", 3, 0, |i| set_size(i, 1)),
        Edit::new("size 32", 3, 0, |i| {
            set_size(i, 32);
            set_cells(&mut i.lent.block, 0);
        }),
        Edit::new("size 3", 3, 0, |i| set_size(i, 3)),
        Edit::new("size 3 in format 0", 0, 0, |i| set_size(i, 3)),
        Edit::new("size 3 in format 1", 1, 2, |i| set_size(i, 3)),
        Edit::new("size 3 in format 2", 2, 2, |i| set_size(i, 3)),
        Edit::new("size without end", 3, 2, |i| i.source[side::SIZE] = usize::MAX),
        Edit::new("no width", 3, 2, |i| i.source[side::YW] = 0),
        Edit::new("no height", 3, 2, |i| i.source[side::YH] = 0),
        Edit::new("width 65536", 3, 2, |i| (i.source[side::YW], i.source[side::YH], i.planes[0]) = (65536, 1, vec![0; 65536])),
        Edit::new("height 65536", 3, 2, |i| (i.source[side::YW], i.source[side::YH], i.planes[0]) = (1, 65536, vec![0; 65536])),
        Edit::new("width 65535", 3, 0, |i| (i.source[side::YW], i.source[side::YH], i.planes[0]) = (65535, 1, vec![9; 65535])),
        Edit::new("height 65535", 3, 0, |i| (i.source[side::YW], i.source[side::YH], i.planes[0]) = (1, 65535, vec![9; 65535])),
        Edit::new("width and height without end", 3, 2, |i| (i.source[side::YW], i.source[side::YH]) = (usize::MAX, usize::MAX)),
        Edit::new("chroma width 65536", 3, 2, |i| (i.source[side::CW], i.source[side::CH]) = (65536, 0)),
        Edit::new("chroma height 65536", 3, 2, |i| (i.source[side::CW], i.source[side::CH]) = (0, 65536)),
        Edit::new("chroma width 65535, height 0", 3, 0, |i| (i.source[side::CW], i.source[side::CH]) = (65535, 0)),
        Edit::new("no chroma samples", 3, 0, |i| {
            (i.source[side::CW], i.source[side::CH]) = (0, 0);
            (i.planes[1], i.planes[2]) = (vec![], vec![]);
        }),
        Edit::new("chroma width 65536 in format 0", 0, 2, |i| i.source[side::CW] = 65536),
        Edit::new("chroma sides 65535 in format 0", 0, 0, |i| (i.source[side::CW], i.source[side::CH]) = (65535, 65535)),
        Edit::new("column 65536", 3, 2, |i| i.source[side::X0] = 65536),
        Edit::new("column 65535", 3, 0, |i| i.source[side::X0] = 65535),
        Edit::new("row 65536", 3, 2, |i| i.source[side::Y0] = 65536),
        Edit::new("row 65535", 3, 0, |i| i.source[side::Y0] = 65535),
        Edit::new("row without end", 3, 2, |i| i.source[side::Y0] = usize::MAX),
        Edit::new("odd column in format 1", 1, 2, |i| i.source[side::X0] = 3),
        Edit::new("odd row in format 1", 1, 2, |i| i.source[side::Y0] = 3),
        Edit::new("odd column in format 2", 2, 2, |i| i.source[side::X0] = 3),
        Edit::new("odd row in format 2", 2, 2, |i| i.source[side::Y0] = 3),
        Edit::new("odd column and row in format 3", 3, 0, |i| (i.source[side::X0], i.source[side::Y0]) = (3, 3)),
        Edit::new("odd column and row in format 0", 0, 0, |i| (i.source[side::X0], i.source[side::Y0]) = (3, 3)),
        Edit::new("last even column and row in format 1", 1, 0, |i| (i.source[side::X0], i.source[side::Y0]) = (65534, 65534)),
        Edit::new("last column in format 1", 1, 2, |i| i.source[side::X0] = 65535),
        Edit::new("no geometry", 3, 2, |i| i.source.clear()),
        Edit::new("size and planes", 3, 2, |i| {
            i.source[side::SIZE] = 33;
            i.planes[0].pop();
        }),
        Edit::new("row and sample", 3, 2, |i| {
            i.source[side::Y0] = 65536;
            i.planes[0].fill(256);
        }),
        Edit::new("size and predictor, size and block", 3, 2, |i| {
            i.source[side::SIZE] = 0;
            i.lent.predictor[0] = 129;
            i.lent.block[at::TOLERANCE] = 17;
        }),
    ]
}

fn samples() -> Vec<Edit> {
    vec![
        Edit::new("luma a sample short", 3, 3, |i| i.planes[0].truncate(63)),
        Edit::new("second plane a sample short", 3, 3, |i| i.planes[1].truncate(63)),
        Edit::new("third plane a sample short", 3, 3, |i| i.planes[2].truncate(63)),
        Edit::new("third plane a sample short in format 1", 1, 3, |i| i.planes[2].truncate(15)),
        Edit::new("second plane a sample short in format 2", 2, 3, |i| i.planes[1].truncate(31)),
        Edit::new("luma a sample short in format 0", 0, 3, |i| i.planes[0].truncate(63)),
        Edit::new("no chroma planes in format 0", 0, 0, |i| (i.planes[1], i.planes[2]) = (vec![], vec![])),
        Edit::new("planes longer than they need be", 3, 0, |i| i.planes.iter_mut().for_each(|plane| plane.push(65535))),
        Edit::new("planes and sample", 3, 3, |i| {
            i.planes[0][FIRST] = 256;
            i.planes[2].truncate(63);
        }),
        Edit::new("planes and predictor, planes and block", 3, 3, |i| {
            i.planes[0].truncate(63);
            i.lent.predictor[0] = 129;
            i.lent.block[at::TOLERANCE] = 17;
        }),
        Edit::new("luma sample 256 of 8 bits", 3, 4, |i| i.planes[0][FIRST] = 256),
        Edit::new("luma sample 255 of 8 bits", 3, 0, |i| i.planes[0][FIRST] = 255),
        Edit::new("luma sample 256 in the block's last cell", 3, 4, |i| i.planes[0][5 * 8 + 5] = 256),
        Edit::new("luma sample 256 beside the block", 3, 0, |i| {
            i.planes[0][2 * 8 + 6] = 256;
            i.planes[0][2 * 8 + 1] = 256;
            i.planes[0][8 + 2] = 256;
            i.planes[0][6 * 8 + 2] = 256;
        }),
        Edit::new("luma sample 256 that an overhanging block reads", 3, 4, |i| {
            (i.source[side::X0], i.source[side::Y0]) = (6, 6);
            i.planes[0][63] = 256;
        }),
        Edit::new("second sample 1024 of 10 bits", 3, 4, |i| i.planes[1][FIRST] = 1024),
        Edit::new("second sample 1023 of 10 bits", 3, 0, |i| i.planes[1][FIRST] = 1023),
        Edit::new("third sample 1024 of 10 bits", 3, 4, |i| i.planes[2][FIRST] = 1024),
        Edit::new("third sample 1023 of 10 bits", 3, 0, |i| i.planes[2][FIRST] = 1023),
        Edit::new("chroma sample 1024 in format 1", 1, 4, |i| i.planes[2][4 + 1] = 1024),
        Edit::new("chroma sample 1024 beside the block in format 1", 1, 0, |i| {
            i.planes[2][4] = 1024;
            i.planes[2][4 + 3] = 1024;
            i.planes[1][1] = 1024;
            i.planes[1][3 * 4 + 1] = 1024;
        }),
        Edit::new("chroma sample 1024 in format 2", 2, 4, |i| i.planes[1][5 * 4 + 2] = 1024),
        Edit::new("chroma sample 65535 in format 0", 0, 0, |i| (i.planes[1], i.planes[2]) = (vec![65535; 64], vec![65535; 64])),
        Edit::new("sample and predictor, sample and block", 3, 4, |i| {
            i.planes[0][FIRST] = 256;
            i.lent.predictor[0] = 129;
            i.lent.block[at::TOLERANCE] = 17;
        }),
    ]
}

// ---- 5

pub fn predictor() -> Vec<Edit> {
    vec![
        Edit::new("129 predictor entries", 3, 5, |i| i.lent.predictor[0] = 129),
        Edit::new("65535 predictor entries", 3, 5, |i| i.lent.predictor[0] = 65535),
        Edit::new("128 predictor entries", 3, 0, |i| i.lent.predictor[0] = 128),
        Edit::new("entry 256 of 8 bits", 3, 5, |i| i.lent.predictor[1] = 256),
        Edit::new("entry 255 of 8 bits", 3, 0, |i| i.lent.predictor[1] = 255),
        Edit::new("last entry's second component 1024 of 10 bits", 3, 5, |i| i.lent.predictor[5] = 1024),
        Edit::new("last entry's second component 1023 of 10 bits", 3, 0, |i| i.lent.predictor[5] = 1023),
        Edit::new("last entry's third component 1024 of 10 bits", 3, 5, |i| i.lent.predictor[6] = 1024),
        Edit::new("last entry's third component 1023 of 10 bits", 3, 0, |i| i.lent.predictor[6] = 1023),
        Edit::new("an entry's second component in format 0", 0, 5, |i| i.lent.predictor[2] = 1),
        Edit::new("an entry's third component in format 0", 0, 5, |i| i.lent.predictor[6] = 1),
        Edit::new("no predictor entries", 3, 0, |i| i.lent.set_entries(&[])),
    ]
}

// ---- 2 and 7, of the calls that are given a block

pub fn block_size() -> Vec<Edit> {
    vec![
        Edit::new("block of size 0", 3, 2, |i| i.lent.block[at::SIZE] = 0),
        Edit::new("block of size 33", 3, 2, |i| i.lent.block[at::SIZE] = 33),
        Edit::new("block of size 65535", 3, 2, |i| i.lent.block[at::SIZE] = 65535),
        Edit::new("block of size 3 in format 1", 1, 2, |i| i.lent.block[at::SIZE] = 3),
        Edit::new("block of size 3 in format 2", 2, 2, |i| i.lent.block[at::SIZE] = 3),
        Edit::new("block of size 3 in format 3", 3, 0, |i| i.lent.block[at::SIZE] = 3),
        Edit::new("no block", 3, 2, |i| i.lent.block.clear()),
    ]
}

/// The block's record against the call's.
pub fn matching() -> Vec<Edit> {
    vec![
        Edit::new("block of another size", 3, 7, |i| i.lent.block[at::SIZE] = 3),
        Edit::new("block of size 0 for a call of size 4", 3, 7, |i| i.lent.block[at::SIZE] = 0),
        Edit::new("block of another format", 3, 7, |i| i.lent.block[at::FORMAT] = 1),
        Edit::new("block of format 3 in a call of format 0", 0, 7, |i| i.lent.block[at::FORMAT] = 3),
        Edit::new("block of format 259", 3, 7, |i| i.lent.block[at::FORMAT] = 259),
        Edit::new("block of another luma depth", 3, 7, |i| i.lent.block[at::LUMA] = 10),
        Edit::new("block of another chroma depth", 3, 7, |i| i.lent.block[at::CHROMA] = 8),
        Edit::new("block of another chroma depth in format 0", 0, 7, |i| i.lent.block[at::CHROMA] = 8),
        Edit::new("lossless block in a lossy call", 3, 7, |i| i.lent.block[at::LOSSLESS] = 1),
        Edit::new("lossy block in a lossless call", 3, 7, |i| i.config[set::LOSSLESS] = 1),
        Edit::new("no block for a call of size 4", 3, 7, |i| i.lent.block.clear()),
    ]
}

/// The clauses that assignment tests too.
pub fn palette() -> Vec<Edit> {
    vec![
        Edit::new("65 palette entries", 3, 7, |i| {
            i.lent.block[at::SIGNALED] += 65 - i.lent.block[at::ENTRIES];
            i.lent.block[at::ENTRIES] = 65;
        }),
        Edit::new("tolerance 17", 3, 7, |i| i.lent.block[at::TOLERANCE] = 17),
        Edit::new("tolerance 16", 3, 0, |i| i.lent.block[at::TOLERANCE] = 16),
        Edit::new("palette entry 256 of 8 bits", 3, 7, |i| i.lent.block[PALETTE] = 256),
        Edit::new("palette entry 255 of 8 bits", 3, 0, |i| i.lent.block[PALETTE] = 255),
        Edit::new("palette entry's second component 1024 of 10 bits", 3, 7, |i| i.lent.block[PALETTE + 1] = 1024),
        Edit::new("palette entry's second component 1023 of 10 bits", 3, 0, |i| i.lent.block[PALETTE + 1] = 1023),
        Edit::new("last entry's third palette component 1024 of 10 bits", 3, 7, |i| {
            let last = usize::from(i.lent.block[at::ENTRIES]) - 1;
            i.lent.block[PALETTE + 3 * last + 2] = 1024;
        }),
        Edit::new("palette component past the palette 65535", 3, 0, |i| {
            let size = usize::from(i.lent.block[at::ENTRIES]);
            i.lent.block[PALETTE + 3 * size] = 65535;
        }),
        Edit::new("palette entry's second component in format 0", 0, 7, |i| i.lent.block[PALETTE + 1] = 1),
        Edit::new("palette entry's third component in format 0", 0, 7, |i| i.lent.block[PALETTE + 2] = 1),
        Edit::new("64 palette entries", 3, 0, |i| {
            let block = &mut i.lent.block;
            (block[at::ENTRIES], block[at::SIGNALED], block[at::FLAGS]) = (64, 64, 0);
            set_palette(block, 20);
            set_cells(block, 0);
        }),
    ]
}

/// All clauses of a block that holds together, but for its size.
pub fn whole() -> Vec<Edit> {
    let mut edits = palette();
    edits.extend([
        Edit::new("format 4 of a block", 3, 7, |i| i.lent.block[at::FORMAT] = 4),
        Edit::new("luma of 9 bits of a block", 3, 7, |i| i.lent.block[at::LUMA] = 9),
        Edit::new("chroma of 264 bits of a block", 3, 7, |i| i.lent.block[at::CHROMA] = 264),
        Edit::new("129 flags", 3, 7, |i| i.lent.block[at::FLAGS] = 129),
        Edit::new("128 flags", 3, 0, |i| i.lent.block[at::FLAGS] = 128),
        Edit::new("one signalled entry too many", 3, 7, |i| i.lent.block[at::SIGNALED] += 1),
        Edit::new("one signalled entry too few", 3, 7, |i| i.lent.block[at::SIGNALED] -= 1),
        Edit::new("one flag too many", 3, 7, |i| i.lent.block[FLAGS + 1] ^= 1),
        Edit::new("a flag past their count", 3, 0, |i| i.lent.block[FLAGS + 2] = 1),
        Edit::new("flag 2 is off", 3, 0, |i| {
            i.lent.block[at::FLAGS] = 3;
            i.lent.block[FLAGS + 2] = 2;
        }),
        Edit::new("an index over M, escapes on", 3, 7, |i| i.lent.block[INDICES + 3] = i.lent.block[at::ENTRIES] + 1),
        Edit::new("index 255", 3, 7, |i| i.lent.block[INDICES + 15] = 255),
        Edit::new("index 256", 3, 7, |i| i.lent.block[INDICES + 15] = 256),
        Edit::new("an index over M past the block", 3, 0, |i| i.lent.block[INDICES + 16] = 255),
        Edit::new("an escape without escapes", 3, 7, |i| {
            escape(i, 0, [0; 3]);
            i.lent.block[at::ESCAPE] = 0;
        }),
        Edit::new("the last index without escapes", 3, 0, |i| {
            escape(i, 0, [0; 3]);
            i.lent.block[at::ESCAPE] = 0;
            i.lent.block[INDICES] = 0;
        }),
        Edit::new("level 32768", 3, 7, |i| escape(i, 0, [32768, 0, 0])),
        Edit::new("second level 32768", 3, 7, |i| escape(i, 0, [0, 32768, 0])),
        Edit::new("third level 32768", 3, 7, |i| escape(i, 0, [0, 0, 32768])),
        Edit::new("levels 32767", 3, 0, |i| escape(i, 0, [32767; 3])),
        Edit::new("lossless level 256 of 8 bits", 3, 7, |i| escape(i, 1, [256, 0, 0])),
        Edit::new("lossless second level 1024 of 10 bits", 3, 7, |i| escape(i, 1, [0, 1024, 0])),
        Edit::new("lossless third level 1024 of 10 bits", 3, 7, |i| escape(i, 1, [0, 0, 1024])),
        Edit::new("greatest lossless levels", 3, 0, |i| escape(i, 1, [255, 1023, 1023])),
        Edit::new("levels not in use in format 0", 0, 0, |i| escape(i, 0, [32767, 65535, 65535])),
        Edit::new("level 32768 in format 0", 0, 7, |i| escape(i, 0, [32768, 0, 0])),
        Edit::new("level 65535 where no cell escapes", 3, 0, |i| {
            escape(i, 0, [0; 3]);
            i.lent.block[LEVELS + 3] = 65535;
        }),
        Edit::new("empty palette with escapes", 3, 0, empty),
        Edit::new("empty palette without escapes", 3, 7, |i| {
            empty(i);
            i.lent.block[at::ESCAPE] = 0;
        }),
        Edit::new("empty palette, transposed", 3, 7, |i| {
            empty(i);
            i.lent.block[at::TRANSPOSE] = 1;
        }),
        Edit::new("escape flag 2 is off", 3, 7, |i| {
            empty(i);
            i.lent.block[at::ESCAPE] = 2;
        }),
    ]);
    edits
}
