//! Pictures whose blocks are timed: a map, text, and patches with noise.

use crate::blocks::{Input, Lent, MOST_ENTRIES};
use crate::cabac::contexts::PaletteContexts;
use crate::draw::Color;
use crate::palette::harness;
use crate::report::Random;

/// A picture has sixteen spots, each as large as the largest block.
const ACROSS: usize = 4;
pub const SPOTS: usize = ACROSS * ACROSS;
pub const LARGEST: usize = 32;
const SIDE: usize = ACROSS * LARGEST;
/// The longest bin list that a block has.
pub const ROOM: usize = 88_378;

/// The colour of each place, row by row, and the entries of the predictor.
pub struct Picture {
    colors: Vec<Color>,
    known: Vec<Color>,
}

fn colors(mut at: impl FnMut(usize, usize) -> Color) -> Vec<Color> {
    (0..SIDE * SIDE).map(|k| at(k % SIDE, k / SIDE)).collect()
}

/// Numbers below n for patches of 7 × 5 places.
fn patches(random: &mut Random, n: usize) -> impl Fn(usize, usize) -> usize {
    let drawn: Vec<usize> = (0..SIDE * SIDE).map(|_| random.below(n as u64) as usize).collect();
    move |x, y| drawn[y / 5 * SIDE + x / 7]
}

/// Flat patches, with a track one place wide through them. Every second colour is known.
pub fn map(count: usize) -> Picture {
    let mut random = Random::new(count as u64);
    let table: Vec<Color> = (0..count).map(|_| [0; 3].map(|_| random.below(32) as u16 * 8)).collect();
    let patch = patches(&mut random, count);
    let at = |x: usize, y: usize| if (x + y / 3) % 29 == 0 { table[0] } else { table[patch(x, y)] };
    Picture { colors: colors(at), known: table.iter().step_by(2).copied().collect() }
}

// ---- text

const GROUND: Color = [232, 128, 128];
/// Black, and blue for some words.
const INKS: [Color; 2] = [[16, 128, 128], [88, 200, 104]];
/// A letter's width and a line's height, with the gaps.
const WIDE: usize = 6;
const HIGH: usize = 9;
const LETTERS: u64 = 26;

/// From one of nine points of a letter to another.
type Stroke = [[f32; 2]; 2];

fn stroke(random: &mut Random) -> Stroke {
    let from = random.below(9);
    let to = (from + 1 + random.below(8)) % 9;
    [from, to].map(|k| [0.25 + 1.75 * (k % 3) as f32, 0.25 + 2.75 * (k / 3) as f32])
}

/// How much of a place a stroke covers, in quarters: by its distance from the stroke.
fn quarters(x: usize, y: usize, [from, to]: &Stroke) -> i32 {
    let (along, away) = ([to[0] - from[0], to[1] - from[1]], [x as f32 - from[0], y as f32 - from[1]]);
    let part = (along[0] * away[0] + along[1] * away[1]) / (along[0] * along[0] + along[1] * along[1]);
    let part = part.clamp(0.0, 1.0);
    let distance = (away[0] - part * along[0]).hypot(away[1] - part * along[1]);
    (4.0 * (1.1 - distance)).round().clamp(0.0, 4.0) as i32
}

/// From ground to ink, in quarters.
fn shade(ink: Color, quarters: i32) -> Color {
    std::array::from_fn(|c| (i32::from(GROUND[c]) + (i32::from(ink[c]) - i32::from(GROUND[c])) * quarters / 4) as u16)
}

/// Lines of letters of three strokes each on a flat ground, edges in three shades between ink and ground. Every second colour is known.
pub fn text() -> Picture {
    let mut random = Random::new(2);
    let letters: Vec<[Stroke; 3]> = (0..LETTERS).map(|_| [0; 3].map(|_| stroke(&mut random))).collect();
    let written: Vec<usize> = (0..SIDE * SIDE).map(|_| random.below(LETTERS) as usize).collect();
    let at = |x: usize, y: usize| {
        let (column, line) = (x / WIDE, y / HIGH);
        let letter = &letters[written[line * SIDE + column]];
        let covered = letter.iter().map(|stroke| quarters(x % WIDE, y % HIGH, stroke)).max().unwrap();
        shade(INKS[usize::from((column / 5 + line) % 4 == 3)], covered)
    };
    let table = INKS.iter().flat_map(|&ink| (0..=4).map(move |k| shade(ink, k)));
    Picture { colors: colors(at), known: table.step_by(2).collect() }
}

// ---- noise

const FLAT: [Color; 4] = [[48, 112, 144], [96, 128, 96], [160, 96, 160], [208, 144, 112]];

/// Flat patches of four colours, luma of half of the places moved by up to 3. The colours are known 3 darker, which the tolerance of 4 at QP 22 takes for
/// the patches' own, so that places lighter by 2 or 3 escape.
pub fn noise() -> Picture {
    let mut random = Random::new(3);
    let patch = patches(&mut random, FLAT.len());
    let at = |x: usize, y: usize| {
        let [luma, cb, cr] = FLAT[patch(x, y)];
        let moved = if random.below(2) == 0 { random.below(7) as u16 } else { 3 };
        [luma - 3 + moved, cb, cr]
    };
    Picture { colors: colors(at), known: FLAT.map(|[luma, cb, cr]| [luma - 3, cb, cr]).to_vec() }
}

// ---- blocks

impl Picture {
    /// The blocks of a size, one at each spot, in format 3 or 1.
    pub fn blocks(&self, format: i32, size: usize) -> Vec<Input> {
        let sub = if format == 1 { 2 } else { 1 };
        let side = SIDE / sub;
        let chroma = |c: usize| (0..side * side).map(|k| self.colors[k / side * sub * SIDE + k % side * sub][c]).collect();
        let planes = [self.colors.iter().map(|color| color[0]).collect(), chroma(1), chroma(2)];
        let spots = (0..SPOTS).map(|k| [k % ACROSS * LARGEST, k / ACROSS * LARGEST]);
        let block = |[x, y]: [usize; 2]| Input {
            config: vec![3, format, 8, 8, 22, 22, 22, 0],
            source: vec![SIDE, SIDE, side, side, x, y, size],
            planes: planes.clone(),
            limit: MOST_ENTRIES,
            lambda: 6.0,
            bits_per_run: 4.0,
            rates: harness::blocks::rates(&PaletteContexts::init(22)),
            lent: self.lent(size),
            ..Input::default()
        };
        spots.map(block).collect()
    }

    /// Memory with room for a block of a size.
    fn lent(&self, size: usize) -> Lent {
        let (runs, one) = (vec![0; 4 * size * size], vec![0]);
        let mut lent =
            Lent { runs, count: one.clone(), total: vec![0], bins: vec![0; ROOM], used: one.clone(), place: one, ..Lent::default() };
        lent.set_entries(&self.known);
        lent
    }
}
