//! Inputs of the domain for the calls on whole blocks, drawn.

use crate::blocks::{at, set, side, Input, Lent, BLOCK, FLAGS, INDICES, LEVELS, LIMIT, MOST_ENTRIES, PALETTE, SLOTS};
use crate::palette::{analyze_palette, assign_indices, PaletteCu};
use crate::quant::{DEPTHS, QPS};
use crate::report::Random;

pub type Color = [u16; 3];

pub fn one_of<T: Copy>(random: &mut Random, from: &[T]) -> T {
    from[random.below(from.len() as u64) as usize]
}

/// A number from 0 to `most`.
pub fn up_to(random: &mut Random, most: usize) -> usize {
    random.below(most as u64 + 1) as usize
}

pub fn one_in(random: &mut Random, n: u64) -> bool {
    random.below(n) == 0
}

pub fn config(random: &mut Random) -> Vec<i32> {
    let format = random.below(4) as i32;
    let mut list = vec![if format == 0 { 1 } else { 3 }, format];
    list.extend([0; 2].map(|_| i32::from(one_of(random, &DEPTHS))));
    list.extend([0; 3].map(|_| match random.below(3) {
        0 => QPS.start() + up_to(random, 203) as i32,
        1 => up_to(random, 51) as i32,
        _ => one_of(random, &[-128, -1, 0, 3, 4, 5, 22, 33, 34, 75]),
    }));
    list.push(one_in(random, 5).into());
    list
}

/// Sides around the block's own, origins within the picture and outside, chroma as it should be, other or none.
fn geometry(random: &mut Random, format: i32) -> Vec<usize> {
    let even = if format == 1 || format == 2 { 2 } else { 1 };
    let size = match random.below(4) {
        0 => 1 + up_to(random, 31),
        1 => 2 + up_to(random, 6),
        2 => one_of(random, &[4, 8, 16, 32]),
        _ => 2 + up_to(random, 14),
    };
    let size = size.div_ceil(even) * even;
    let mut sides = [0; 2].map(|_| match random.below(4) {
        0 => 1 + up_to(random, size - 1),
        1 => size,
        _ => size + up_to(random, 8),
    });
    if one_in(random, 64) {
        sides = one_of(random, &[[65535, 1], [1, 65535]]);
    }
    let origin = sides.map(|side| match random.below(8) {
        0 => side + up_to(random, 8),
        1 => one_of(random, &[0, 65534, 65535]),
        _ => up_to(random, side - 1),
    });
    let chroma = match random.below(8) {
        0 => one_of(random, &[[0, 0], [0, 5], [5, 0]]),
        1 => [0; 2].map(|_| 1 + up_to(random, size)),
        _ => [sides[0].div_ceil(even), sides[1].div_ceil(if format == 1 { 2 } else { 1 })],
    };
    let origin = origin.map(|place| place.min(65535) / even * even);
    vec![sides[0], sides[1], chroma[0], chroma[1], origin[0], origin[1], size]
}

/// An input without planes yet.
fn blank(random: &mut Random, config: Vec<i32>) -> Input {
    let source = geometry(random, config[set::FORMAT]);
    let mut input =
        Input { config, source, planes: [vec![], vec![], vec![]], transpose: one_in(random, 2), limit: MOST_ENTRIES, ..Input::default() };
    input.lent.block.iter_mut().for_each(|number| *number = random.below(3) as u16);
    input
}

/// Colours that lie near each other, differ in luma alone, are extreme, or have nothing in common.
fn colors(random: &mut Random, input: &Input, count: usize) -> Vec<Color> {
    let most = [0, 1, 2].map(|c| input.most(c));
    let base = most.map(|m| random.below(u64::from(m) + 1) as u16);
    let spread = 1 + random.below(40) as u16;
    let kind = random.below(5);
    let mut color = || -> Color {
        std::array::from_fn(|c| match kind {
            0 => random.below(u64::from(most[c]) + 1) as u16,
            1 | 2 => (base[c] + random.below(spread.into()) as u16).min(most[c]),
            3 if c == 0 => (base[c] + random.below(spread.into()) as u16).min(most[c]),
            3 => base[c],
            _ => one_of(random, &[0, 1, most[c] - 1, most[c]]),
        })
    };
    (0..count).map(|_| color()).collect()
}

/// How many colours a block of n cells is drawn with: few, or about as many as are let through.
fn count(random: &mut Random, n: usize) -> usize {
    match random.below(8) {
        0 => (n / 2).max(1),
        1 => n / 2 + 1,
        2 => one_of(random, &[64, 65, 66, 127, 128, 129]),
        3 => 1 + up_to(random, n / 2 + 1),
        4 => 40,
        _ => 1 + up_to(random, 10),
    }
}

/// Which colour a place has: a map's patches with a track one cell wide, other patches, stripes, lines on a ground, noise, or each as often.
fn pattern(random: &mut Random, input: &Input, count: usize) -> Box<dyn Fn(usize, usize) -> usize> {
    let (a, b) = (1 + up_to(random, 7), 1 + up_to(random, 7));
    let (x0, y0, size) = (input.source[side::X0], input.source[side::Y0], input.size());
    let noise: Vec<usize> = (0..1024).map(|_| up_to(random, count - 1)).collect();
    let drawn = move |x: usize, y: usize| noise[(x * 31 + y * 37) % 1024];
    match random.below(7) {
        5 => Box::new(move |x, y| if (x + y / b) % 23 == a { 0 } else { drawn(x / (a + 1) * 3, y / (b + 1) * 5) }),
        0 => Box::new(move |x, y| (x / a + y / b) % count),
        1 => Box::new(move |_, y| y % count),
        2 => Box::new(move |x, y| if x % (a + 3) == 0 || y % (b + 3) == 0 { drawn(x, y) } else { 0 }),
        3 => Box::new(move |x, y| (x.wrapping_sub(x0).wrapping_add(y.wrapping_sub(y0).wrapping_mul(size))) % count),
        _ => Box::new(drawn),
    }
}

/// The places of each plane that the block reads.
pub fn read_places(input: &Input) -> [Vec<usize>; 3] {
    let s = &input.source;
    let (sub_w, sub_h) = input.sub();
    let mut places = [vec![], vec![], vec![]];
    for row in 0..input.size() {
        for col in 0..input.size() {
            let (x, y) = (s[side::X0] + col, s[side::Y0] + row);
            places[0].push(y.min(s[side::YH] - 1) * s[side::YW] + x.min(s[side::YW] - 1));
            if input.format() != 0 && s[side::CW] != 0 && s[side::CH] != 0 {
                let place = (y / sub_h).min(s[side::CH] - 1) * s[side::CW] + (x / sub_w).min(s[side::CW] - 1);
                places[1].push(place);
                places[2].push(place);
            }
        }
    }
    places
}

/// Planes of a picture with these colours; what the block does not read may be over its depth.
fn fill(random: &mut Random, input: &mut Input, colors: &[Color]) {
    let index = pattern(random, input, colors.len());
    let photo = one_in(random, 6);
    let (sub_w, sub_h) = input.sub();
    let s = input.source.clone();
    for c in 0..3 {
        let (w, h, dx, dy) = match c {
            0 => (s[side::YW], s[side::YH], 1, 1),
            _ => (s[side::CW], s[side::CH], sub_w, sub_h),
        };
        let most = input.most(c);
        let sample = |random: &mut Random, k: usize| match photo {
            true => (colors[0][c] / 2 + random.below(u64::from(most) / 2 + 1) as u16).min(most),
            false => colors[index(k % w * dx, k / w * dy)][c],
        };
        input.planes[c] = match c > 0 && input.format() == 0 {
            true => vec![],
            false => (0..w * h).map(|k| sample(random, k)).collect(),
        };
        let more = random.below(4) as usize / 3;
        input.planes[c].extend(vec![65535; more]);
    }
    if one_in(random, 4) {
        let places = read_places(input);
        for (plane, read) in input.planes.iter_mut().zip(places) {
            let mut kept = vec![false; plane.len()];
            read.iter().for_each(|&place| kept[place] = true);
            plane.iter_mut().zip(kept).filter(|(_, kept)| !kept).for_each(|(sample, _)| *sample = 65535);
        }
    }
}

/// The colours of the block's cells, row by row.
pub fn cells(input: &Input) -> Vec<Color> {
    let places = read_places(input);
    (0..places[0].len()).map(|k| std::array::from_fn(|c| places[c].get(k).map_or(0, |&p| input.planes[c][p]))).collect()
}

/// A colour of the block, often moved a little; or any.
fn near(random: &mut Random, input: &Input, cells: &[Color]) -> Color {
    let color = one_of(random, cells);
    let kind = random.below(4);
    std::array::from_fn(|c| {
        let most = u64::from(input.most(c));
        match kind {
            _ if c > 0 && input.format() == 0 => 0,
            0 => random.below(most + 1) as u16,
            1 => color[c],
            _ => (u64::from(color[c]) + random.below(5)).saturating_sub(2).min(most) as u16,
        }
    })
}

fn entries(random: &mut Random, input: &Input, most: usize) -> Vec<Color> {
    let cells = cells(input);
    let count = match random.below(4) {
        0 => 0,
        1 => up_to(random, most),
        2 if one_in(random, 2) => most,
        _ => up_to(random, 8),
    };
    (0..count).map(|_| near(random, input, &cells)).collect()
}

/// A counter in any state that its calls could meet: no stamp is above the generation.
fn counter(random: &mut Random, lent: &mut Lent) {
    let any = random.next() as u32;
    let generation = one_of(random, &[0, 1, any, u32::MAX - 1, u32::MAX]);
    lent.stamp = vec![generation];
    for slot in 0..SLOTS {
        let older = random.below(u64::from(generation) + 1) as u32;
        let stamp = one_of(random, &[0, older, generation]);
        lent.stamp.push(stamp);
        lent.keys[slot] = random.wide() % (1 << 48);
        lent.entry[slot] = random.below(129) as u16;
    }
}

/// An input of the domain, with a predictor and a counter.
pub fn input(random: &mut Random) -> Input {
    let config = config(random);
    with_config(random, config)
}

/// The same with a configuration given.
pub fn with_config(random: &mut Random, config: Vec<i32>) -> Input {
    let mut input = blank(random, config);
    let n = input.size() * input.size();
    let count = count(random, n);
    let colors = colors(random, &input, count);
    fill(random, &mut input, &colors);
    let entries = entries(random, &input, MOST_ENTRIES);
    input.lent.set_entries(&entries);
    if one_in(random, 2) {
        counter(random, &mut input.lent);
    }
    input
}

/// A block that fills its picture, of 1 to 64 colours that a tolerance of 1 tells apart, each about as often.
pub fn colorful(random: &mut Random) -> Input {
    let mut settings = config(random);
    settings[set::QP] = QPS.start() + up_to(random, 137) as i32;
    let mut input = with_config(random, settings);
    let (sub_w, sub_h) = input.sub();
    let count = 1 + up_to(random, LIMIT - 1);
    let least = (1..).find(|side| side * side >= 2 * count).unwrap();
    let size = (least + up_to(random, 32 - least)).div_ceil(sub_w) * sub_w;
    input.source = vec![size, size, size / sub_w, size / sub_h, 0, 0, size];
    let (apart, first) = (usize::from(input.most(0)) / LIMIT, random.next() as usize);
    input.planes[0] = (0..size * size).map(|k| ((k + first) % count * apart) as u16).collect();
    for c in 1..3 {
        let chroma = random.below(u64::from(input.most(c)) + 1) as u16;
        input.planes[c] = vec![chroma; if input.format() == 0 { 0 } else { size / sub_w * (size / sub_h) }];
    }
    input
}

/// The same input with the palette that source 000 finds for it, if it finds one.
pub fn analysed(mut input: Input) -> Option<Input> {
    let config = input.source_config();
    let predictor = input.lent.source_predictor(config.num_comps);
    let mut counter = input.lent.source_counter();
    let mut cu = PaletteCu::new();
    let found = analyze_palette(&input.source_block(), &predictor, &config, &mut counter, &mut cu);
    input.lent.set_block(&cu, &config);
    found.then_some(input)
}

/// The same input with the indices that source 000 gives it, if it takes it.
pub fn assigned(mut input: Input) -> Option<Input> {
    let config = input.source_config();
    let mut cu = input.lent.source_cu(config.num_comps);
    let taken = assign_indices(&input.source_block(), &config, input.transpose, &mut cu);
    input.lent.set_block(&cu, &config);
    taken.then_some(input)
}

/// What a block carries of its call, in a list of zeros.
fn started(input: &Input) -> Vec<u16> {
    let mut list = vec![0; BLOCK];
    list[at::SIZE] = input.size() as u16;
    list[at::FORMAT] = input.format() as u16;
    list[at::LUMA] = input.config[set::LUMA] as u16;
    list[at::CHROMA] = input.config[set::CHROMA] as u16;
    list[at::LOSSLESS] = input.config[set::LOSSLESS] as u16;
    list
}

/// A palette of any near colours, equal ones among them; what assignment does not test is anything.
pub fn with_palette(random: &mut Random, mut input: Input) -> Input {
    let cells = cells(&input);
    let count = if one_in(random, 4) { 1 + up_to(random, LIMIT - 1) } else { 1 + up_to(random, 5) };
    let mut list = started(&input);
    list[at::ENTRIES] = count as u16;
    list[at::TOLERANCE] = one_of(random, &[0, 0, 1, 2, 3, 8, 15, 16]);
    for place in [at::FLAGS, at::SIGNALED] {
        list[place] = random.next() as u16;
    }
    for k in (at::FIGURE..PALETTE - 1).chain(INDICES..LEVELS) {
        list[k] = random.next() as u16 % 256;
    }
    for k in [at::ESCAPE, at::TRANSPOSE].into_iter().chain(FLAGS..INDICES) {
        list[k] = random.below(2) as u16;
    }
    for k in 0..LIMIT {
        let color = near(random, &input, &cells);
        list[PALETTE + 3 * k..PALETTE + 3 * k + 3].copy_from_slice(&color);
    }
    if input.format() != 0 {
        list[LEVELS..].iter_mut().for_each(|level| *level = random.next() as u16);
    }
    input.lent.block = list;
    input
}

/// A block that holds together, of any make.
pub fn whole(random: &mut Random, mut input: Input) -> Input {
    let cells = cells(&input);
    let mut list = started(&input);
    let n = input.size() * input.size();
    let count = if one_in(random, 8) { 0 } else { 1 + up_to(random, LIMIT - 1) };
    let flags = up_to(random, MOST_ENTRIES);
    let mut reused = 0;
    for k in 0..flags {
        if reused < count && one_in(random, 2) {
            list[FLAGS + k] = 1;
            reused += 1;
        }
    }
    list[FLAGS + flags..INDICES].iter_mut().for_each(|flag| *flag = random.below(2) as u16);
    list[at::ENTRIES] = count as u16;
    list[at::FLAGS] = flags as u16;
    list[at::SIGNALED] = (count - reused) as u16;
    list[at::TOLERANCE] = random.below(17) as u16;
    let escape = count == 0 || one_in(random, 2);
    list[at::ESCAPE] = escape.into();
    list[at::TRANSPOSE] = (count > 0 && one_in(random, 2)).into();
    for k in 0..LIMIT {
        let color = near(random, &input, &cells);
        list[PALETTE + 3 * k..PALETTE + 3 * k + 3].copy_from_slice(&color);
    }
    let most_index = (count + usize::from(escape)).saturating_sub(1);
    for k in 0..1024 {
        let index = if k < n { up_to(random, most_index) } else { up_to(random, 255) };
        list[INDICES + k] = index as u16;
        let held = k < n && index == count;
        for c in 0..3 {
            let most = match input.config[set::LOSSLESS] {
                1 => u64::from(input.most(c)),
                _ => 32767,
            };
            let used = held && (c == 0 || input.format() != 0);
            let wide = random.wide();
            list[LEVELS + 3 * k + c] = if used { (wide % (most + 1)) as u16 } else { wide as u16 };
        }
    }
    input.lent.block = list;
    input
}

/// The block that source 000 makes of an input, or any that holds together.
pub fn made_or_whole(random: &mut Random, input: Input) -> Input {
    match analysed(input.clone()).and_then(assigned) {
        Some(made) if one_of(random, &[true, false]) => made,
        _ => whole(random, input),
    }
}
