//! What is timed: the calls of both sides, on a block with both sides' memory for it.

use crate::analysis::Analyze;
use crate::assign::{Assign, Figure};
use crate::bins::Bins;
use crate::blocks::{at, side, Input, Op, INDICES, MOST_ENTRIES};
use crate::palette::{
    analyze_palette, assign_indices, harness, plan_runs, reconstruct, smooth_indices, write_palette_cu, ColorIndex, PaletteConfig,
    PaletteCu, PalettePredictor, PaletteRateModel, PaletteRun,
};
use crate::plan::Plan;
use crate::read::Read;
use crate::recon::{self, Planes};
use crate::smooth::Smooth;
use crate::speed_pictures::ROOM;
use crate::update::Update;
use crate::write::Write;
use std::hint::black_box;

/// A block as assignment made it, with its runs and bins: source 000's records, the port's lists, and each side's planes to reconstruct onto.
pub struct Block {
    input: Input,
    config: PaletteConfig,
    predictor: PalettePredictor,
    counter: Box<ColorIndex>,
    cu: Box<PaletteCu>,
    model: PaletteRateModel,
    runs: Vec<PaletteRun>,
    bins: Bins,
    made: (Box<PaletteCu>, Vec<u16>),
    strides: [usize; 2],
    targets: [Planes; 2],
}

impl Block {
    /// A block that both sides take.
    pub fn new(input: Input) -> Block {
        let config = input.source_config();
        let mut block = Block {
            predictor: input.lent.source_predictor(config.num_comps),
            counter: input.lent.source_counter(),
            cu: PaletteCu::new(),
            model: harness::blocks::model(&input.rates),
            runs: Vec::with_capacity(input.size() * input.size()),
            bins: Bins(Vec::with_capacity(ROOM)),
            made: (PaletteCu::new(), vec![]),
            strides: [0; 2],
            targets: Default::default(),
            config,
            input,
        };
        assert!(block.analyze() && block.assign(), "source 000 refuses the block at {:?}", block.input.source);
        block.plan();
        block.write();
        assert_eq!(block.chain(), 0, "the port refuses what source 000 takes");
        let lent = &block.input.lent;
        assert!(block.bins.0 == lent.bins[..lent.used[0]], "the sides' bins differ");
        block.made = (block.cu.clone(), lent.block.clone());
        block
    }

    /// The block as it was made.
    pub fn restore(&mut self) {
        self.cu.clone_from(&self.made.0);
        self.input.lent.block.clone_from(&self.made.1);
    }

    /// Runs, bins and cells that escape.
    pub fn counts(&self) -> [usize; 3] {
        let (lent, list) = (&self.input.lent, &self.made.1);
        let cells = &list[INDICES..INDICES + self.input.size().pow(2)];
        [lent.count[0], lent.used[0], cells.iter().filter(|&&index| index == list[at::ENTRIES]).count()]
    }

    /// Whether both sides have laid the same samples.
    pub fn agrees(&self) -> bool {
        self.targets[0] == self.targets[1]
    }

    /// Planes to reconstruct onto: whole, or 5 of 8 columns and rows of the block in them.
    fn aim(&mut self, clipped: bool, transposed: bool) {
        let (sub_w, sub_h) = self.input.sub();
        if clipped {
            let [w, h] = [side::X0, side::Y0].map(|place| self.input.source[place] + inside(self.input.size()));
            self.input.source[..4].copy_from_slice(&[w, h, w.div_ceil(sub_w), h.div_ceil(sub_h)]);
        }
        (self.made.0.transpose, self.made.1[at::TRANSPOSE]) = (transposed, transposed.into());
        let [w, h, cw, ch] = [side::YW, side::YH, side::CW, side::CH].map(|place| self.input.source[place]);
        self.strides = [w, cw];
        self.targets = [0; 2].map(|_| [w * h, cw * ch, cw * ch].map(|len| vec![7; len]));
    }

    // ---- source 000's calls

    fn analyze(&mut self) -> bool {
        analyze_palette(&self.input.source_block(), &self.predictor, &self.config, &mut self.counter, &mut self.cu)
    }

    fn assign(&mut self) -> bool {
        assign_indices(&self.input.source_block(), &self.config, false, &mut self.cu)
    }

    fn figure(&mut self) {
        black_box(harness::blocks::palette_sse(&self.input.source_block(), &self.config, &self.cu));
    }

    /// The predictor goes on from call to call, and is full after some.
    fn update(&mut self) {
        self.predictor.update(self.cu.palette_entries(), self.cu.reuse_flags(), MOST_ENTRIES);
    }

    fn smooth(&mut self) {
        black_box(smooth_indices(&self.input.source_block(), &self.config, self.input.lambda, self.input.bits_per_run, &mut self.cu));
    }

    fn plan(&mut self) {
        black_box(plan_runs(&self.cu, &self.model, &mut self.runs));
    }

    /// Onto a list of bytes, as the port's writer.
    fn write(&mut self) {
        self.bins.0.clear();
        write_palette_cu(&mut self.bins, &self.cu, &self.config, self.input.source[side::X0], self.input.source[side::Y0], &self.runs);
        black_box(&self.bins.0);
    }

    fn reconstruct(&mut self) {
        let mut target = recon::onto(&self.input, self.strides, &mut self.targets[0]);
        reconstruct(&self.cu, &self.config, &mut target, self.input.source[side::X0], self.input.source[side::Y0]);
    }

    // ---- the port's

    fn chain(&mut self) -> u8 {
        [Analyze::port, Assign::port, Plan::port, Write::port].into_iter().map(|call| call(&mut self.input)).max().unwrap()
    }
}

/// Of so many columns or rows, those that a clipped block has in the planes.
fn inside(size: usize) -> usize {
    size * 5 / 8
}

/// A call of both sides; source 000 does not read.
pub struct Call {
    pub name: &'static str,
    pub clipped: bool,
    /// What is done to a block before.
    pub ready: fn(&mut Block),
    pub source: Option<fn(&mut Block)>,
    pub port: fn(&mut Block) -> u8,
}

impl Call {
    const fn new(name: &'static str, source: fn(&mut Block), port: fn(&mut Block) -> u8) -> Call {
        Call { name, clipped: false, ready: |_| (), source: Some(source), port }
    }

    const fn reconstruct(name: &'static str, clipped: bool, ready: fn(&mut Block)) -> Call {
        Call { name, clipped, ready, source: Some(Block::reconstruct), port: |b| recon::port(&b.input, b.strides, &mut b.targets[1]) }
    }

    /// The cells that it is about, of a block of a size.
    pub fn cells(&self, size: usize) -> f64 {
        let side = if self.clipped { inside(size) } else { size };
        (side * side) as f64
    }
}

pub static CALLS: [Call; 14] = [
    Call::new(
        "analysis and assignment",
        |b| assert!(b.analyze() && b.assign()),
        |b| Analyze::port(&mut b.input).max(Assign::port(&mut b.input)),
    ),
    Call::new("analysis", |b| assert!(b.analyze()), |b| Analyze::port(&mut b.input)),
    Call::new("assignment", |b| assert!(b.assign()), |b| Assign::port(&mut b.input)),
    Call::new("error figure", Block::figure, |b| Figure::port(&mut b.input)),
    Call::new("update", Block::update, |b| Update::port(&mut b.input)),
    Call::new("smoothing", Block::smooth, |b| Smooth::port(&mut b.input)),
    Call::new("planning", Block::plan, |b| Plan::port(&mut b.input)),
    Call::reconstruct("reconstruction", false, |b| b.aim(false, false)),
    Call::reconstruct("reconstruction, clipped", true, |b| b.aim(true, false)),
    Call::reconstruct("reconstruction, transposed", false, |b| b.aim(false, true)),
    Call::reconstruct("reconstruction, clipped, transposed", true, |b| b.aim(true, true)),
    Call::new("writing", Block::write, |b| Write::port(&mut b.input)),
    Call::new(
        "analysis to writing",
        |b| {
            assert!(b.analyze() && b.assign());
            b.plan();
            b.write();
        },
        Block::chain,
    ),
    Call { name: "reading", clipped: false, ready: |_| (), source: None, port: |b| Read::port(&mut b.input) },
];
