//! What the calls on whole blocks share: their input as the port's lists of numbers (laid out in crates/flat/src/lib.rt), the same as source 000's records, and both sides' answers.

use crate::coverage::Coverage;
use crate::palette::harness::blocks as private;
use crate::palette::{ColorIndex, PaletteConfig, PaletteCu, PalettePredictor, SourceBlock};
use crate::report::{Case, Random, Report};
use std::fmt;
use std::marker::PhantomData;

pub use common::layout::*;

/// All that a call may be given; each takes what it needs.
#[derive(Clone, Default)]
pub struct Input {
    pub config: Vec<i32>,
    pub source: Vec<usize>,
    pub planes: [Vec<u16>; 3],
    pub transpose: bool,
    pub limit: usize,
    pub tolerance: u64,
    pub lambda: f32,
    pub bits_per_run: f32,
    /// Of the run type's bins, then of each run-prefix context's.
    pub rates: Vec<f32>,
    pub lent: Lent,
}

/// The memory that calls change.
#[derive(Clone, PartialEq)]
pub struct Lent {
    pub predictor: Vec<u16>,
    pub keys: Vec<u64>,
    pub entry: Vec<u16>,
    /// The generation, then the stamps.
    pub stamp: Vec<u32>,
    pub block: Vec<u16>,
    pub figure: Vec<u64>,
    /// What smoothing says of its runs.
    pub changed: bool,
    /// Four numbers a run, the number of runs, and the bits of their total.
    pub runs: Vec<u32>,
    pub count: Vec<usize>,
    pub total: Vec<u32>,
    /// A byte a bin, the number of bins, and where a refusal stands.
    pub bins: Vec<u8>,
    pub used: Vec<usize>,
    pub place: Vec<usize>,
}

impl Default for Lent {
    fn default() -> Lent {
        Lent {
            predictor: vec![0; PREDICTOR],
            keys: vec![0; SLOTS],
            entry: vec![0; SLOTS],
            stamp: vec![0; SLOTS + 1],
            block: vec![0; BLOCK],
            figure: vec![0],
            changed: false,
            runs: vec![],
            count: vec![],
            total: vec![],
            bins: vec![],
            used: vec![],
            place: vec![],
        }
    }
}

// ---- lists and records

/// Three numbers a colour.
pub fn triples(list: &[u16]) -> Vec<[u16; 3]> {
    list.chunks_exact(3).map(|c| [c[0], c[1], c[2]]).collect()
}

/// The error figure that a block's list holds.
pub fn figure(block: &[u16]) -> u64 {
    (0..4).map(|k| u64::from(block[at::FIGURE + k]) << (16 * k)).sum()
}

fn set_figure(block: &mut [u16], figure: u64) {
    for k in 0..4 {
        block[at::FIGURE + k] = (figure >> (16 * k)) as u16;
    }
}

/// A whole number as source 000 has it: rounded once.
pub fn rounded(figure: u64) -> u64 {
    f64::from(figure as f64 as f32) as u64
}

/// The same done to a block's error figure.
pub fn round_figure(block: &mut [u16]) {
    if block.len() == BLOCK {
        set_figure(block, rounded(figure(block)));
    }
}

impl Input {
    pub fn size(&self) -> usize {
        self.source[side::SIZE]
    }

    pub fn format(&self) -> i32 {
        self.config[set::FORMAT]
    }

    /// Luma samples to one of chroma, across and down.
    pub fn sub(&self) -> (usize, usize) {
        match self.format() {
            1 => (2, 2),
            2 => (2, 1),
            _ => (1, 1),
        }
    }

    pub fn source_config(&self) -> PaletteConfig {
        let (sub_w, sub_h) = self.sub();
        PaletteConfig {
            num_comps: self.config[set::COMPS] as usize,
            chroma_idc: self.config[set::FORMAT] as u8,
            sub_w,
            sub_h,
            bd_luma: self.config[set::LUMA] as u8,
            bd_chroma: self.config[set::CHROMA] as u8,
            qp: [0, 1, 2].map(|c| self.config[set::QP + c]),
            lossless: self.config.get(set::LOSSLESS) == Some(&1),
        }
    }

    pub fn source_block(&self) -> SourceBlock<'_> {
        SourceBlock {
            y: &self.planes[0],
            cb: &self.planes[1],
            cr: &self.planes[2],
            yw: self.source[side::YW],
            yh: self.source[side::YH],
            cw: self.source[side::CW],
            chh: self.source[side::CH],
            x0: self.source[side::X0],
            y0: self.source[side::Y0],
            size: self.source[side::SIZE],
        }
    }

    /// The most a sample of a component may be.
    pub fn most(&self, comp: usize) -> u16 {
        let depth = self.config[if comp == 0 { set::LUMA } else { set::CHROMA }];
        (1u16 << depth) - 1
    }
}

impl Lent {
    pub fn source_predictor(&self, comps: usize) -> PalettePredictor {
        private::predictor(&triples(&self.predictor[1..])[..usize::from(self.predictor[0])], comps)
    }

    /// Source 000's predictor in the list: past its size 0.
    pub fn set_predictor(&mut self, predictor: &PalettePredictor) {
        let entries: Vec<[u16; 3]> = (0..predictor.size()).map(|k| predictor.entry(k)).collect();
        self.set_entries(&entries);
    }

    pub fn set_entries(&mut self, entries: &[[u16; 3]]) {
        self.predictor = vec![0; PREDICTOR];
        self.predictor[0] = entries.len() as u16;
        for (list, entry) in self.predictor[1..].chunks_exact_mut(3).zip(entries) {
            list.copy_from_slice(entry);
        }
    }

    pub fn source_counter(&self) -> Box<ColorIndex> {
        private::counter(&self.keys, &self.entry, &self.stamp[1..], self.stamp[0])
    }

    pub fn set_counter(&mut self, counter: &ColorIndex) {
        let (keys, entry, stamp, generation) = private::slots(counter);
        self.keys = keys.to_vec();
        self.entry = entry.to_vec();
        self.stamp = vec![generation];
        self.stamp.extend(stamp);
    }

    pub fn source_cu(&self, comps: usize) -> Box<PaletteCu> {
        let list = &self.block;
        let mut cu = PaletteCu::new();
        cu.size = list[at::SIZE].into();
        cu.num_comps = comps;
        cu.palette_size = list[at::ENTRIES].into();
        cu.palette.copy_from_slice(&triples(&list[PALETTE..FLAGS]));
        cu.pred_size = list[at::FLAGS].into();
        cu.num_signaled = list[at::SIGNALED].into();
        cu.escape_present = list[at::ESCAPE] == 1;
        cu.transpose = list[at::TRANSPOSE] == 1;
        private::set_tolerance(&mut cu, list[at::TOLERANCE].into());
        cu.sse = figure(list) as f32;
        for (flag, &number) in cu.reused.iter_mut().zip(&list[FLAGS..]) {
            *flag = number == 1;
        }
        for (index, &number) in cu.indices.iter_mut().zip(&list[INDICES..]) {
            *index = number.into();
        }
        for (levels, numbers) in cu.escapes.iter_mut().zip(triples(&list[LEVELS..])) {
            *levels = numbers.map(i32::from);
        }
        cu
    }

    /// Source 000's block in the list, with what the port's record carries besides.
    pub fn set_block(&mut self, cu: &PaletteCu, config: &PaletteConfig) {
        let mut list = vec![0; BLOCK];
        list[at::SIZE] = cu.size as u16;
        list[at::FORMAT] = config.chroma_idc.into();
        list[at::LUMA] = config.bd_luma.into();
        list[at::CHROMA] = config.bd_chroma.into();
        list[at::LOSSLESS] = config.lossless.into();
        list[at::ENTRIES] = cu.palette_size as u16;
        list[at::FLAGS] = cu.pred_size as u16;
        list[at::SIGNALED] = cu.num_signaled as u16;
        list[at::ESCAPE] = cu.escape_present.into();
        list[at::TRANSPOSE] = cu.transpose.into();
        list[at::TOLERANCE] = private::tolerance(cu) as u16;
        if cu.sse < f32::MAX {
            set_figure(&mut list, cu.sse as u64);
        }
        list[PALETTE..FLAGS].copy_from_slice(&cu.palette.concat());
        for (number, &flag) in list[FLAGS..].iter_mut().zip(&cu.reused) {
            *number = flag.into();
        }
        for (number, &index) in list[INDICES..].iter_mut().zip(&cu.indices) {
            *number = index as u16;
        }
        for (numbers, levels) in list[LEVELS..].chunks_exact_mut(3).zip(&cu.escapes) {
            numbers.copy_from_slice(&levels.map(|l| l as u16));
        }
        self.block = list;
    }
}

// ---- calls

/// One of the port's calls, with what source 000 does in its place. Each changes the lent memory and answers a refusal's number, or 0.
pub trait Op {
    const NAME: &'static str;
    /// For inputs of the domain.
    fn source(input: &mut Input) -> u8;
    fn port(input: &mut Input) -> u8;
}

pub struct Call<O> {
    pub input: Input,
    op: PhantomData<O>,
}

impl<O: Op> Call<O> {
    pub fn new(input: Input) -> Call<O> {
        Call { input, op: PhantomData }
    }
}

impl<O> Clone for Call<O> {
    fn clone(&self) -> Call<O> {
        Call { input: self.input.clone(), op: PhantomData }
    }
}

impl<O: Op> fmt::Debug for Call<O> {
    fn fmt(&self, f: &mut fmt::Formatter) -> fmt::Result {
        write!(f, "{} {:?}", O::NAME, self.input)
    }
}

impl<O: Op> Case for Call<O> {
    type Answer = (u8, Lent);
    fn source(&self) -> (u8, Lent) {
        let mut input = self.input.clone();
        (O::source(&mut input), input.lent)
    }
    fn port(&self) -> (u8, Lent) {
        let mut input = self.input.clone();
        (O::port(&mut input), input.lent)
    }
    fn seen(&self, answer: &(u8, Lent), coverage: &mut Coverage) {
        coverage.call(O::NAME, &self.input, answer.0, &answer.1);
    }
    fn smaller(&self) -> Vec<Call<O>> {
        smaller(&self.input).into_iter().map(Call::new).collect()
    }
}

/// Compares a call on inputs that are the same for every seed.
pub fn given<O: Op>(report: &mut Report, name: &'static str, inputs: impl IntoIterator<Item = Input>) {
    report.compare(name, report.once(inputs).map(Call::<O>::new));
}

/// Compares a call on drawn inputs.
pub fn drawn<O: Op>(report: &mut Report, name: &'static str, mut draw: impl FnMut(&mut Random) -> Input) {
    let mut random = report.random(name);
    report.compare(name, (0..report.blocks).map(|_| Call::<O>::new(draw(&mut random))));
}

/// Inputs with one thing less: a predictor entry, a colour of the planes, a QP, the transposition, an index, a rate, a bin.
fn smaller(input: &Input) -> Vec<Input> {
    let mut less = Vec::new();
    let mut with = |change: &dyn Fn(&mut Input)| {
        let mut one = input.clone();
        change(&mut one);
        less.push(one);
    };
    let entries = triples(&input.lent.predictor[1..])[..usize::from(input.lent.predictor[0])].to_vec();
    for k in 0..entries.len() {
        with(&|one| {
            let mut fewer = entries.clone();
            fewer.remove(k);
            one.lent.set_entries(&fewer);
        });
    }
    for c in 0..3 {
        if input.config[set::QP + c] != 0 {
            with(&|one| one.config[set::QP + c] = 0);
        }
        let mut colors = input.planes[c].clone();
        colors.sort_unstable();
        colors.dedup();
        for pair in colors.windows(2) {
            with(&|one| one.planes[c].iter_mut().filter(|s| **s == pair[1]).for_each(|s| *s = pair[0]));
        }
    }
    if input.transpose {
        with(&|one| one.transpose = false);
    }
    let cells = input.lent.block.first().map_or(0, |&size| usize::from(size).pow(2)).min(LEVELS - INDICES);
    for k in (INDICES..INDICES + cells).filter(|&k| input.lent.block.get(k).is_some_and(|&index| index != 0)) {
        with(&|one| one.lent.block[k] = 0);
    }
    for k in (0..input.rates.len()).filter(|&k| input.rates[k] != 1.0) {
        with(&|one| one.rates[k] = 1.0);
    }
    for k in (0..input.lent.bins.len()).rev().take(200) {
        with(&|one| one.lent.bins.drain(k..=k).for_each(|_| ()));
    }
    less
}

/// An input with the refusal that is due, 0 where source 000's answer is.
pub struct Refusal<O> {
    pub what: &'static str,
    pub due: u8,
    pub call: Call<O>,
}

impl<O> Clone for Refusal<O> {
    fn clone(&self) -> Refusal<O> {
        Refusal { what: self.what, due: self.due, call: self.call.clone() }
    }
}

impl<O: Op> fmt::Debug for Refusal<O> {
    fn fmt(&self, f: &mut fmt::Formatter) -> fmt::Result {
        write!(f, "{}: {:?}", self.what, self.call)
    }
}

impl<O: Op> Case for Refusal<O> {
    type Answer = (u8, Lent);
    /// A refusal leaves the lent memory as it was.
    fn source(&self) -> (u8, Lent) {
        match self.due {
            0 => self.call.source(),
            due => (due, self.call.input.lent.clone()),
        }
    }
    fn port(&self) -> (u8, Lent) {
        self.call.port()
    }
    fn seen(&self, answer: &(u8, Lent), coverage: &mut Coverage) {
        self.call.seen(answer, coverage);
    }
}

// ---- what is shown of a disagreement

/// A list with what stands in it more than once in a row counted.
struct Runs<'a, T>(&'a [T]);

impl<T: PartialEq + fmt::Debug> fmt::Debug for Runs<'_, T> {
    fn fmt(&self, f: &mut fmt::Formatter) -> fmt::Result {
        for run in self.0.chunk_by(PartialEq::eq) {
            match run.len() {
                1 => write!(f, " {:?}", run[0])?,
                times => write!(f, " {:?}×{times}", run[0])?,
            }
        }
        Ok(())
    }
}

impl fmt::Debug for Lent {
    fn fmt(&self, f: &mut fmt::Formatter) -> fmt::Result {
        if self.block.len() == BLOCK {
            write!(f, "\n    block {:?} figure {}", &self.block[..at::FIGURE], figure(&self.block))?;
            write!(f, "\n    palette{:?} flags{:?}", Runs(&self.block[PALETTE..FLAGS]), Runs(&self.block[FLAGS..INDICES]))?;
            write!(f, "\n    indices{:?} levels{:?}", Runs(&self.block[INDICES..LEVELS]), Runs(&self.block[LEVELS..]))?;
        } else {
            write!(f, "\n    block{:?}", Runs(&self.block))?;
        }
        write!(f, "\n    predictor{:?}", Runs(&self.predictor))?;
        write!(f, "\n    keys{:?} entry{:?} stamp{:?}", Runs(&self.keys), Runs(&self.entry), Runs(&self.stamp))?;
        write!(f, "\n    figure{:?} changed {}", Runs(&self.figure), self.changed)?;
        write!(f, "\n    runs{:?} count {:?} total {:x?}", Runs(&self.runs), self.count, self.total)?;
        write!(f, "\n    bins{:?} used {:?} place {:?}", Runs(&self.bins), self.used, self.place)
    }
}

impl fmt::Debug for Input {
    fn fmt(&self, f: &mut fmt::Formatter) -> fmt::Result {
        write!(f, "config {:?} source {:?}", self.config, self.source)?;
        write!(f, " transpose {} limit {} tolerance {}", self.transpose, self.limit, self.tolerance)?;
        write!(f, " lambda {:?} bits {:?} rates {:?}", self.lambda, self.bits_per_run, self.rates)?;
        for plane in &self.planes {
            write!(f, "\n    plane{:?}", Runs(plane))?;
        }
        write!(f, "{:?}", self.lent)
    }
}
