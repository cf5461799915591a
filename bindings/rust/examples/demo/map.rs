//! A land-cover map: forty flat colours in patches, with lakes, a river and a crane's track over them. Whole numbers only, so the same everywhere.

use crate::picture::{Color, Picture};

pub const WIDTH: usize = 256;
pub const HEIGHT: usize = 192;
/// The track is of no land-cover colour.
pub const TRACK: Color = [214, 20, 60];

const DEEP: Color = [46, 94, 140];
const SHALLOW: Color = [98, 150, 190];
const RIVER: Color = [70, 120, 170];
const REED: [Color; 5] = [[150, 190, 170], [134, 176, 150], [120, 164, 140], [166, 200, 160], [142, 170, 128]];
const MEADOW: [Color; 8] = [
    [198, 220, 140],
    [184, 212, 126],
    [210, 226, 160],
    [172, 202, 112],
    [190, 206, 120],
    [204, 214, 132],
    [178, 194, 104],
    [218, 232, 176],
];
const FIELD: [Color; 12] = [
    [240, 226, 160],
    [232, 210, 132],
    [246, 236, 184],
    [222, 196, 110],
    [236, 218, 146],
    [214, 184, 120],
    [244, 220, 170],
    [228, 200, 150],
    [250, 230, 140],
    [218, 206, 160],
    [206, 176, 104],
    [238, 206, 120],
];
const FOREST: [Color; 10] = [
    [60, 110, 60],
    [48, 96, 54],
    [74, 124, 66],
    [40, 82, 50],
    [88, 136, 74],
    [66, 102, 72],
    [54, 118, 80],
    [96, 128, 60],
    [34, 70, 44],
    [80, 112, 50],
];
const VILLAGE: Color = [196, 120, 104];
const ROCK: Color = [168, 164, 158];
/// Land-cover colours: water 3, reed 5, meadow 8, field 12, forest 10, village and rock.
pub const COLORS: usize = 40;

/// From wetland to wetland, with a rest at each place.
const FLIGHT: [(i32, i32); 9] = [(10, 176), (44, 150), (58, 118), (97, 108), (121, 83), (118, 60), (160, 47), (203, 36), (246, 12)];

fn hash(x: i32, y: i32, seed: u32) -> i32 {
    let mut h = (x as u32).wrapping_mul(0x85eb_ca6b) ^ (y as u32).wrapping_mul(0xc2b2_ae35) ^ seed.wrapping_mul(0x27d4_eb2f);
    h = (h ^ (h >> 15)).wrapping_mul(0x2c1b_3c6d);
    h = (h ^ (h >> 12)).wrapping_mul(0x297a_2d39);
    ((h ^ (h >> 15)) >> 8 & 0xff) as i32
}

/// 0 to 255, even over some `scale` cells.
fn ground(x: i32, y: i32, scale: i32, seed: u32) -> i32 {
    let (cx, cy) = (x.div_euclid(scale), y.div_euclid(scale));
    let (fx, fy) = (x.rem_euclid(scale), y.rem_euclid(scale));
    let across = |row: i32| hash(cx, row, seed) * (scale - fx) + hash(cx + 1, row, seed) * fx;
    (across(cy) * (scale - fy) + across(cy + 1) * fy) / (scale * scale)
}

fn height(x: i32, y: i32) -> i32 {
    (2 * ground(x, y, 72, 3) + ground(x, y, 29, 5)) / 3
}

/// The middle of the patch that a cell lies in, by its place in a grid of 18.
fn patch(x: i32, y: i32) -> (i32, i32) {
    let (wx, wy) = (x + ground(x, y, 16, 11) / 20, y + ground(x, y, 16, 13) / 20);
    let (gx, gy) = (wx.div_euclid(18), wy.div_euclid(18));
    let middle = |i: i32, j: i32| (18 * i + hash(i, j, 17) * 18 / 256, 18 * j + hash(i, j, 19) * 18 / 256);
    let near = (gx - 1..=gx + 1).flat_map(|i| (gy - 1..=gy + 1).map(move |j| (i, j)));
    near.min_by_key(|&(i, j)| {
        let (mx, my) = middle(i, j);
        (mx - wx).pow(2) + (my - wy).pow(2)
    })
    .expect("nine patches")
}

fn cover(x: i32, y: i32) -> Color {
    let here = height(x, y);
    match here {
        ..=52 => return DEEP,
        53..=62 => return SHALLOW,
        _ => {}
    }
    let bank = 150 + (ground(0, y, 40, 23) - 128) / 4 + y / 6;
    if (bank..bank + 3).contains(&x) {
        return RIVER;
    }
    let (i, j) = patch(x, y);
    let kind = |list: &[Color]| list[(hash(i, j, 29) + 5 * i + 3 * j).rem_euclid(list.len() as i32) as usize];
    match height(18 * i + 9, 18 * j + 9) {
        ..=86 => kind(&REED),
        87..=112 => kind(&MEADOW),
        113..=146 if hash(i, j, 31) < 20 => VILLAGE,
        113..=146 => kind(&FIELD),
        147..=188 => kind(&FOREST),
        _ => ROCK,
    }
}

/// The cells from one place to another, one for each step of the longer side.
fn line((x0, y0): (i32, i32), (x1, y1): (i32, i32)) -> impl Iterator<Item = (i32, i32)> {
    let (dx, dy) = (x1 - x0, y1 - y0);
    let steps = dx.abs().max(dy.abs());
    let part = move |d: i32, k: i32| (2 * d * k + d.signum() * steps) / (2 * steps);
    (0..=steps).map(move |k| (x0 + part(dx, k), y0 + part(dy, k)))
}

pub fn land_cover() -> Picture {
    let mut map = Picture::filled(WIDTH, HEIGHT, ROCK);
    for y in 0..HEIGHT {
        for x in 0..WIDTH {
            map.set(x, y, cover(x as i32, y as i32));
        }
    }
    for leg in FLIGHT.windows(2) {
        line(leg[0], leg[1]).for_each(|(x, y)| map.set(x as usize, y as usize, TRACK));
    }
    for (x, y) in FLIGHT {
        for (dx, dy) in [(-1, 0), (1, 0), (0, -1), (0, 1)] {
            map.set((x + dx) as usize, (y + dy) as usize, TRACK);
        }
    }
    map
}
