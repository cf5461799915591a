//! A land-cover map taken block by block through the port, lossless, and back: `cargo run --example demo [FOLDER]`.
//!
//! Writes before and after as PPM and PNG to FOLDER (target/demo), and says how many cells differ.

mod map;
mod picture;

use map::{COLORS, HEIGHT, WIDTH, land_cover};
use picture::Picture;
use std::error::Error;
use std::path::PathBuf;
use velomitra::*;

/// Blocks that analysis or assignment refuses are cut in four, down to this side.
const LEAST: usize = 8;
/// What no cell of the map is: a cell that no block covers would show.
const UNSEEN: picture::Color = [255, 0, 255];

const CONFIG: PaletteConfig = PaletteConfig { num_comps: 3, chroma_idc: 3, bd_luma: 8, bd_chroma: 8, qp: [0; 3], lossless: true };

/// The side that codes: samples to bins.
struct Encoder {
    predictor: PalettePredictor,
    seen: ColorIndex,
    cu: PaletteCu,
    runs: Vec<PaletteRun>,
}

/// The side that has the bins alone.
struct Decoder {
    predictor: PalettePredictor,
    cu: PaletteCu,
    runs: Vec<PaletteRun>,
    picture: Picture,
}

#[derive(Default)]
struct Count {
    blocks: usize,
    split: usize,
    /// Cells of blocks that were refused at the least side, carried as they are.
    raw: usize,
    runs: usize,
    bins: usize,
}

fn source(picture: &Picture, x0: usize, y0: usize, size: usize) -> SourceBlock<'_> {
    let [y, cb, cr] = &picture.planes;
    SourceBlock { y, cb, cr, yw: picture.width, yh: picture.height, cw: picture.width, chh: picture.height, x0, y0, size }
}

fn target(picture: &mut Picture) -> ReconTarget<'_> {
    let (width, height) = (picture.width, picture.height);
    let [y, cb, cr] = &mut picture.planes;
    ReconTarget { y, cb, cr, y_width: width, c_width: width, y_stride: width, c_stride: width, y_height: height, c_height: height }
}

impl Encoder {
    /// The bins of a block, put at the end of a list.
    fn code(&mut self, src: &SourceBlock, bits: &mut Vec<u8>) -> Result<usize, Refusal> {
        analyze_palette(src, &self.predictor, &CONFIG, &mut self.seen, &mut self.cu)?;
        assign_indices(src, &CONFIG, false, &mut self.cu)?;
        plan_runs(&self.cu, &PaletteRateModel::flat(), &mut self.runs)?;
        let laid = write_palette_cu(bits, &self.cu, &self.runs)?;
        self.predictor.update(&self.cu, MAX_PREDICTOR_SIZE)?;
        Ok(laid)
    }
}

impl Decoder {
    /// The block at the start of a list of bins, on the picture: how many bins it has.
    fn decode(&mut self, bits: &[u8], x0: usize, y0: usize, size: usize) -> Result<usize, Box<dyn Error>> {
        let used = read_palette_cu(bits, size, &CONFIG, &self.predictor, &mut self.cu, &mut self.runs)?;
        reconstruct(&self.cu, &CONFIG, &mut target(&mut self.picture), x0, y0)?;
        self.predictor.update(&self.cu, MAX_PREDICTOR_SIZE)?;
        Ok(used)
    }

    /// A block's samples as they are.
    fn carry(&mut self, from: &Picture, x0: usize, y0: usize, size: usize) {
        for (onto, plane) in self.picture.planes.iter_mut().zip(&from.planes) {
            for y in y0..y0 + size {
                let row = y * from.width + x0..y * from.width + x0 + size;
                onto[row.clone()].copy_from_slice(&plane[row]);
            }
        }
    }
}

/// One block there and back, or the four that it is cut into.
fn block(
    map: &Picture,
    (x0, y0): (usize, usize),
    size: usize,
    encoder: &mut Encoder,
    decoder: &mut Decoder,
    count: &mut Count,
) -> Result<(), Box<dyn Error>> {
    let mut bits = Vec::new();
    match encoder.code(&source(map, x0, y0, size), &mut bits) {
        Ok(laid) => {
            let used = decoder.decode(&bits, x0, y0, size)?;
            if (used, &decoder.runs, &decoder.predictor) != (laid, &encoder.runs, &encoder.predictor) {
                return Err(format!("the block at {x0}, {y0} is not read as it was written").into());
            }
            count.blocks += 1;
            count.runs += encoder.runs.len();
            count.bins += laid;
        }
        Err(Refusal::TooManyColors | Refusal::TooManyEscapes) if size > LEAST => {
            count.split += 1;
            let half = size / 2;
            for (dx, dy) in [(0, 0), (half, 0), (0, half), (half, half)] {
                block(map, (x0 + dx, y0 + dy), half, encoder, decoder, count)?;
            }
        }
        Err(Refusal::TooManyColors | Refusal::TooManyEscapes) => {
            decoder.carry(map, x0, y0, size);
            count.raw += size * size;
        }
        Err(why) => return Err(why.into()),
    }
    Ok(())
}

/// The whole map in blocks of a size: what was counted, and the picture that the bins give.
fn picture_of(map: &Picture, size: usize) -> Result<(Count, Picture), Box<dyn Error>> {
    let mut encoder = Encoder { predictor: PalettePredictor::new(), seen: ColorIndex::new(), cu: PaletteCu::new(), runs: Vec::new() };
    let picture = Picture::filled(map.width, map.height, UNSEEN);
    let mut decoder = Decoder { predictor: PalettePredictor::new(), cu: PaletteCu::new(), runs: Vec::new(), picture };
    let mut count = Count::default();
    for y0 in (0..map.height).step_by(size) {
        for x0 in (0..map.width).step_by(size) {
            block(map, (x0, y0), size, &mut encoder, &mut decoder, &mut count)?;
        }
        println!("  rows {:3} to {:3}: {:3} blocks, {:4} runs, {:5} bins so far", y0, y0 + size - 1, count.blocks, count.runs, count.bins);
    }
    Ok((count, decoder.picture))
}

fn main() -> Result<(), Box<dyn Error>> {
    let folder = PathBuf::from(std::env::args().nth(1).unwrap_or("target/demo".into()));
    std::fs::create_dir_all(&folder)?;
    let map = land_cover();
    let cells = WIDTH * HEIGHT;
    println!("a map of {WIDTH} x {HEIGHT} cells, {COLORS} flat colours and a track");
    assert_eq!(map.colors().len(), COLORS + 1, "the map's colours");
    map.write_ppm(&folder.join("before.ppm"))?;
    map.write_png(&folder.join("before.png"))?;

    let mut last = String::new();
    for size in [16, 32] {
        println!("blocks of {size} x {size}, 4:4:4, 8 bits, lossless:");
        let (count, after) = picture_of(&map, size)?;
        println!("  {} cut in four, {} cells carried raw, {:.3} bins a cell", count.split, count.raw, count.bins as f64 / cells as f64);
        let differ = map.differing(&after);
        after.write_ppm(&folder.join("after.ppm"))?;
        after.write_png(&folder.join("after.png"))?;
        last += &format!("{differ} of {cells} cells differ, {} bins, in blocks of {size}; ", count.bins);
        if differ != 0 {
            return Err(last.into());
        }
    }
    println!("before and after are in {}", folder.display());
    println!("{}", last.trim_end_matches("; "));
    Ok(())
}

/// A corner of noise, which palette mode is not for: cut down to the least side, then carried, and nothing is lost.
#[test]
fn noise_is_cut_and_carried() {
    let mut map = land_cover();
    let mut h = 1u32;
    for y in 0..24 {
        for x in 0..40 {
            h = h.wrapping_mul(1_664_525).wrapping_add(1_013_904_223);
            map.set(x, y, [(h >> 24) as u8, (h >> 16) as u8, (h >> 8) as u8]);
        }
    }
    let (count, after) = picture_of(&map, 32).unwrap();
    assert!(map == after);
    // all but the one of 8 x 8 that lies in a block of 16 of few colours
    assert_eq!(count.raw, 14 * 8 * 8);
    // the block of 32 in the corner, its four of 16, the next block of 32 and the first of its four
    assert_eq!(count.split, 1 + 4 + 1 + 1);
}
