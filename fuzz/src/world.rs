//! Arguments that every call takes, drawn: settings, a picture with a block in it, predictor, counter, rates, and a block that holds together.

use crate::random::Random;
use common::layout::{set, side, BLOCK, FLAGS, INDICES, LEVELS, MOST_ENTRIES, PALETTE, PREDICTOR, SLOTS};

/// The lists that calls are lent, as crates/flat and crates/flatplan lay them out.
#[derive(Default)]
pub struct World {
    pub config: Vec<i32>,
    pub source: Vec<usize>,
    pub planes: [Vec<u16>; 3],
    pub strides: [usize; 2],
    pub predictor: Vec<u16>,
    pub keys: Vec<u64>,
    pub entry: Vec<u16>,
    pub stamp: Vec<u32>,
    pub block: Vec<u16>,
    pub rates: Vec<f32>,
    pub runs: Vec<u32>,
    pub count: usize,
    pub bins: Vec<u8>,
    pub transpose: bool,
    pub tolerance: u64,
    pub limit: usize,
    pub lambda: f32,
    pub bits_per_run: f32,
}

impl World {
    pub fn drawn(random: &mut Random) -> World {
        let mut world =
            World { transpose: random.one_in(2), tolerance: random.below(17) as u64, limit: random.below(129), ..World::default() };
        world.settings(random);
        world.picture(random);
        world.counter(random);
        world.whole(random);
        world.rates = (0..18).map(|_| random.below(1 << 12) as f32 / 256.0).collect();
        (world.lambda, world.bits_per_run) = (random.below(4000) as f32 / 8.0, 4.0);
        (world.runs, world.bins) = (vec![7; 4 * world.cells()], vec![99; random.within(1, 3) * 4000]);
        world
    }

    pub fn size(&self) -> usize {
        self.source[side::SIZE]
    }

    fn cells(&self) -> usize {
        self.size() * self.size()
    }

    fn format(&self) -> i32 {
        self.config[set::FORMAT]
    }

    fn most(&self, c: usize) -> usize {
        (1 << self.config[if c == 0 { set::LUMA } else { set::CHROMA }]) - 1
    }

    fn settings(&mut self, random: &mut Random) {
        let format = random.below(4) as i32;
        let depths = [0; 2].map(|_| random.of(&[8, 10, 12]));
        let qps = [0; 3].map(|_| random.within(0, 203) as i32 - 128);
        self.config =
            [if format == 0 { 1 } else { 3 }, format].into_iter().chain(depths).chain(qps).chain([random.one_in(4).into()]).collect();
        let even = if format == 1 || format == 2 { 2 } else { 1 };
        let size = if random.one_in(8) { random.within(1, 32) } else { random.within(1, 8) }.div_ceil(even) * even;
        let sides = [0; 2].map(|_| size + random.below(8));
        let origin = sides.map(|side| random.below(side) / even * even);
        let chroma = [sides[0].div_ceil(even), sides[1].div_ceil(if format == 1 { 2 } else { 1 })];
        self.source = [sides, chroma, origin].concat().into_iter().chain([size]).collect();
        self.strides = [sides[0] + random.below(3), chroma[0] + random.below(3)];
    }

    /// Planes of few colours in patches, long enough for the strides.
    fn picture(&mut self, random: &mut Random) {
        let count = if random.one_in(6) { random.within(1, 140) } else { random.within(1, 8) };
        let colors: Vec<[u16; 3]> = (0..count).map(|_| [0, 1, 2].map(|c| random.below(self.most(c) + 1) as u16)).collect();
        let patch = random.within(1, 4);
        for c in 0..3 {
            let len = self.strides[c.min(1)] * self.source[if c == 0 { side::YH } else { side::CH }];
            let places = if c > 0 && self.format() == 0 { 0 } else { len };
            self.planes[c] = (0..places).map(|k| colors[k / patch % count][c]).collect();
        }
        let size = if random.one_in(4) { MOST_ENTRIES } else { random.below(9) };
        let color = |k: usize| if self.format() == 0 { [colors[k % count][0], 0, 0] } else { colors[k % count] };
        self.predictor = [size as u16].into_iter().chain((0..size).flat_map(color)).collect();
        self.predictor.resize(PREDICTOR, 0);
    }

    fn counter(&mut self, random: &mut Random) {
        let generation = random.of(&[0, 1, 77, u32::MAX - 1, u32::MAX]);
        self.keys = (0..SLOTS).map(|_| random.wide() >> 16).collect();
        self.entry = (0..SLOTS).map(|_| random.below(129) as u16).collect();
        self.stamp = [generation].into_iter().chain((0..SLOTS).map(|_| random.below(generation as usize + 1) as u32)).collect();
    }

    /// A block that holds together, with indices in stretches.
    fn whole(&mut self, random: &mut Random) {
        let mut list = vec![0; BLOCK];
        let entries = if random.one_in(4) { random.below(65) } else { random.within(1, 5) };
        let flags = self.predictor[0] as usize;
        let mut reused = 0;
        for k in 0..flags {
            if reused < entries && random.one_in(2) {
                list[FLAGS + k] = 1;
                reused += 1;
            }
        }
        let escape = entries == 0 || random.one_in(2);
        let transpose = entries > 0 && random.one_in(2);
        let told = |place: usize| self.config[place] as usize;
        let head = [self.size(), told(set::FORMAT), told(set::LUMA), told(set::CHROMA), told(set::LOSSLESS)];
        let more = [entries, flags, entries - reused, escape.into(), transpose.into(), random.below(17)];
        head.into_iter().chain(more).zip(&mut list).for_each(|(number, place)| *place = number as u16);
        for k in 0..3 * entries {
            list[PALETTE + k] = if k % 3 > 0 && self.format() == 0 { 0 } else { random.below(self.most(k % 3) + 1) as u16 };
        }
        let most = (entries + usize::from(escape)).saturating_sub(1);
        let long = random.within(1, 9);
        for k in 0..self.cells() {
            let fresh = k == 0 || random.one_in(long);
            list[INDICES + k] = if fresh { random.below(most + 1) as u16 } else { list[INDICES + k - 1] };
            for c in 0..3 {
                let top = if self.config[set::LOSSLESS] == 1 { self.most(c) } else { 32767 };
                list[LEVELS + 3 * k + c] = (random.wide() as usize % (top + 1)) as u16;
            }
        }
        self.block = list;
    }
}
