//! Random blocks one after the other: what is written is read back, both sides' predictors stay the same, and lossless gives the samples.

mod common;
use common::{Picture, Random};
use velomitra::*;

/// Depths, format and QPs of the domain.
fn config(random: &mut Random) -> PaletteConfig {
    let chroma_idc = random.below(4) as u8;
    PaletteConfig {
        num_comps: if chroma_idc == 0 { 1 } else { 3 },
        chroma_idc,
        bd_luma: random.one_of(&[8, 10, 12]),
        bd_chroma: random.one_of(&[8, 10, 12]),
        qp: [0; 3].map(|_| random.below(204) as i32 - 128),
        lossless: random.one_in(2),
    }
}

/// Patches of a few colours with a line over them; now and then a sample of its own.
fn picture(random: &mut Random, cfg: &PaletteConfig, side: usize) -> Picture {
    let (across, down) = cfg.sub();
    let colours: Vec<[u16; 3]> = (0..1 + random.below(40))
        .map(|_| [cfg.bd_luma, cfg.bd_chroma, cfg.bd_chroma].map(|depth| random.below(1 << depth) as u16))
        .collect();
    let (patch, track) = (1 + random.below(8), random.below(side));
    let at = |x: usize, y: usize| (x / patch * 7 + y / patch * 13 + usize::from(x == (track + y / 3) % side)) % colours.len();
    let spoilt = random.one_in(3);
    let plane = |random: &mut Random, comp: usize, w: usize, h: usize, sub: (usize, usize), depth: u8| -> Vec<u16> {
        (0..w * h)
            .map(|i| {
                if spoilt && random.one_in(40) { random.below(1 << depth) as u16 } else { colours[at(i % w * sub.0, i / w * sub.1)][comp] }
            })
            .collect()
    };
    let (cw, chh) = if cfg.chroma_idc == 0 { (0, 0) } else { (side / across, side / down) };
    Picture {
        planes: [
            plane(random, 0, side, side, (1, 1), cfg.bd_luma),
            plane(random, 1, cw, chh, (across, down), cfg.bd_chroma),
            plane(random, 2, cw, chh, (across, down), cfg.bd_chroma),
        ],
        yw: side,
        yh: side,
        cw,
        chh,
    }
}

fn rates(random: &mut Random) -> PaletteRateModel {
    let mut rate = || random.below(65) as f32;
    PaletteRateModel { run_type: [rate(), rate()], run_prefix: [[0.0; 2]; 8].map(|_| [rate(), rate()]) }
}

fn blank(picture: &Picture) -> Picture {
    let mut blank = picture.clone();
    blank.planes.iter_mut().for_each(|plane| plane.fill(0));
    blank
}

#[test]
fn blocks_in_a_row() {
    let mut random = Random(1);
    let (mut coded, mut escaped, mut refused, mut reused) = (0, 0, [0; 17], 0);
    for _ in 0..300 {
        let cfg = config(&mut random);
        let picture = picture(&mut random, &cfg, 64);
        let (mut written, mut read_by) = (PalettePredictor::new(), PalettePredictor::new());
        let (mut seen, mut cu, mut read) = (ColorIndex::new(), PaletteCu::new(), PaletteCu::new());
        let (mut runs, mut read_runs, mut bits) = (Vec::new(), Vec::new(), Vec::new());
        let (mut before, mut after) = (blank(&picture), blank(&picture));
        for _ in 0..8 {
            let size = if matches!(cfg.chroma_idc, 1 | 2) { 2 * (1 + random.below(16)) } else { 1 + random.below(32) };
            let (x0, y0) = (2 * random.below(32), 2 * random.below(32));
            let src = picture.source(x0, y0, size);
            let transpose = random.one_in(3);
            let made =
                analyze_palette(&src, &written, &cfg, &mut seen, &mut cu).and_then(|()| assign_indices(&src, &cfg, transpose, &mut cu));
            if let Err(why) = made {
                refused[usize::from(why.number())] += 1;
                continue;
            }
            if !cfg.lossless && !transpose && random.one_in(2) {
                smooth_indices(&src, &cfg, random.below(50) as f32, SMOOTH_BITS_PER_RUN, &mut cu).unwrap();
            }
            let planned = plan_runs(&cu, &rates(&mut random), &mut runs).unwrap();
            assert_eq!(planned == Planned::Nothing, runs.is_empty());
            let start = bits.len();
            let laid = write_palette_cu(&mut bits, &cu, &runs).unwrap();
            assert_eq!(bits.len(), start + laid);
            assert!(bits[start..].iter().all(|&byte| Bin::from_byte(byte).is_some()));

            assert_eq!(read_palette_cu(&bits[start..], size, &cfg, &read_by, &mut read, &mut read_runs), Ok(laid));
            assert_eq!(read_runs, runs);
            assert_eq!((read.palette_entries(), read.indices()), (cu.palette_entries(), cu.indices()));
            assert!(read.reuse_flags().eq(cu.reuse_flags()));
            assert_eq!((read.num_signaled(), read.escape_present()), (cu.num_signaled(), cu.escape_present()));
            assert_eq!(read.transpose(), transpose && cu.max_palette_index() > 0);

            reconstruct(&cu, &cfg, &mut before.target(), x0, y0).unwrap();
            reconstruct(&read, &cfg, &mut after.target(), x0, y0).unwrap();
            assert_eq!(before.planes, after.planes);
            if cfg.lossless {
                same_within(&picture, &after, &cfg, x0, y0, size);
            }

            written.update(&cu, MAX_PREDICTOR_SIZE).unwrap();
            read_by.update(&read, MAX_PREDICTOR_SIZE).unwrap();
            assert_eq!(written, read_by);
            coded += 1;
            escaped += usize::from(cu.escape_present());
            reused += usize::from(cu.reuse_flags().any(|flag| flag));
        }
    }
    assert!(coded > 1000 && escaped > 100 && reused > 100 && refused[13] > 10, "{coded} {escaped} {reused} {refused:?}");
}

/// The two pictures agree where the block lies.
fn same_within(picture: &Picture, after: &Picture, cfg: &PaletteConfig, x0: usize, y0: usize, size: usize) {
    for comp in 0..cfg.num_comps {
        let (across, down) = if comp == 0 { (1, 1) } else { cfg.sub() };
        let (w, h) = if comp == 0 { (picture.yw, picture.yh) } else { (picture.cw, picture.chh) };
        for y in y0 / down..((y0 + size) / down).min(h) {
            let row = y * w + x0 / across..y * w + ((x0 + size) / across).min(w);
            assert_eq!(picture.planes[comp][row.clone()], after.planes[comp][row]);
        }
    }
}

#[test]
fn spoilt_bins() {
    let mut random = Random(2);
    let (mut accepted, mut refused) = (0, 0);
    while accepted + refused < 4000 {
        let cfg = config(&mut random);
        let picture = picture(&mut random, &cfg, 32);
        let size = 2 * (1 + random.below(8));
        let src = picture.source(0, 0, size);
        let (predictor, mut cu) = (PalettePredictor::new(), PaletteCu::new());
        let made = analyze_palette(&src, &predictor, &cfg, &mut ColorIndex::new(), &mut cu)
            .and_then(|()| assign_indices(&src, &cfg, false, &mut cu));
        if made.is_err() {
            continue;
        }
        let (mut runs, mut bits) = (Vec::new(), Vec::new());
        plan_runs(&cu, &PaletteRateModel::flat(), &mut runs).unwrap();
        write_palette_cu(&mut bits, &cu, &runs).unwrap();
        for _ in 0..20 {
            let mut spoilt = bits.clone();
            let at = random.below(spoilt.len());
            spoilt[at] = if random.one_in(2) { spoilt[at] ^ 1 } else { random.below(256) as u8 };
            spoilt.extend((0..random.below(40)).map(|_| random.below(2) as u8));
            let (before, mut read, mut read_runs) = (cu.clone(), cu.clone(), runs.clone());
            match read_palette_cu(&spoilt, size, &cfg, &predictor, &mut read, &mut read_runs) {
                // what is accepted is what the writer would have written
                Ok(used) => {
                    let mut again = Vec::new();
                    assert_eq!(write_palette_cu(&mut again, &read, &read_runs), Ok(used));
                    assert_eq!(again, spoilt[..used]);
                    accepted += 1;
                }
                Err(why) => {
                    assert!((10..=12).contains(&why.refusal.number()) && why.place <= spoilt.len());
                    assert!(read == before && read_runs == runs);
                    refused += 1;
                }
            }
        }
    }
    assert!(accepted > 100 && refused > 100, "{accepted} {refused}");
}

#[test]
fn longest_block() {
    // 12 bits in 4:4:4, 64 signalled entries, every cell an escape of 32,767, 128 unflagged predictor entries, one index run a cell at best
    let mut numbers = [0; PaletteCu::NUMBERS];
    numbers[..11].copy_from_slice(&[32, 3, 12, 12, 0, 64, 128, 64, 1, 0, 0]);
    numbers[336..1360].fill(64);
    numbers[1360..].fill(32_767);
    let cu = PaletteCu::from_numbers(&numbers).unwrap();
    let (mut runs, mut bits) = (Vec::new(), vec![1, 2]);
    plan_runs(&cu, &PaletteRateModel::flat(), &mut runs).unwrap();
    let laid = write_palette_cu(&mut bits, &cu, &runs).unwrap();
    assert!(laid > 80_000 && laid <= MOST_BINS, "{laid}");
    assert_eq!((bits.len(), &bits[..2]), (laid + 2, &[1, 2][..]));
    let cfg = PaletteConfig { num_comps: 3, chroma_idc: 3, bd_luma: 12, bd_chroma: 12, qp: [0; 3], lossless: false };
    let predictor = PalettePredictor::from_entries(&[[0; 3]; 128]).unwrap();
    let (mut read, mut read_runs) = (PaletteCu::new(), Vec::new());
    assert_eq!(read_palette_cu(&bits[2..], 32, &cfg, &predictor, &mut read, &mut read_runs), Ok(laid));
    assert_eq!((read, read_runs), (cu, runs));
}
