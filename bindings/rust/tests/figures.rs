//! Document 01's figures; those of single codes stand in src/codes.rs.

mod common;
use common::{LUMA, Picture, made};
use velomitra::*;

#[test]
fn scan() {
    assert_eq!(scan_pos(4, 4), Some((3, 1)));
    for size in 1..=32 {
        for i in 0..size * size {
            let (col, row) = scan_pos(i, size).unwrap();
            assert_eq!((row, scan_pos_inv(col, row, size)), (i / size, Some(i)));
        }
    }
}

#[test]
fn escapes() {
    assert_eq!(quantize_escape(100, 22, 8, false), Some(12));
    assert_eq!(dequant_escape(-1, 4, 8, false), Some(0));
    assert_eq!(dequant_escape(300, 4, 8, false), Some(255));
    assert_eq!(dequant_escape(1, 76, 8, false), None);
    assert_eq!(dequant_escape(1, 4, 17, false), None);
}

#[test]
fn tolerance() {
    assert_eq!([3, 4, 33, 34].map(|qp| color_tolerance(&PaletteConfig { qp: [qp, 0, 0], ..LUMA })), [0, 1, 14, 16].map(Some));
    assert_eq!(color_tolerance(&PaletteConfig { lossless: true, ..LUMA }), Some(0));
}

#[test]
fn distinct_colours() {
    let analyze = |luma: &[u16], size| {
        let picture = Picture::luma(luma, 2);
        analyze_palette(&picture.source(0, 0, size), &PalettePredictor::new(), &LUMA, &mut ColorIndex::new(), &mut PaletteCu::new())
    };
    assert_eq!(analyze(&[10, 10, 10, 10], 1), Err(Refusal::TooManyColors));
    assert_eq!(analyze(&[10, 200, 10, 200], 2), Ok(()));
    assert_eq!(analyze(&[10, 200, 10, 30], 2), Err(Refusal::TooManyColors));
}

#[test]
fn worked_block() {
    let picture = Picture::luma(&[10, 200, 10, 200], 2);
    let cu = made(&picture.source(0, 0, 2), &LUMA, &PalettePredictor::new());
    assert_eq!((cu.palette_entries(), cu.num_signaled(), cu.indices()), (&[[10, 0, 0], [200, 0, 0]][..], 2, &[0, 1, 1, 0][..]));
    let (mut runs, mut bits) = (Vec::new(), Vec::new());
    assert_eq!(plan_runs(&cu, &PaletteRateModel::flat(), &mut runs), Ok(Planned::Runs { count: 3, total: 4.25 }));
    let run = |copy_above, raw_index, run, scan| PaletteRun { copy_above, raw_index, run, scan };
    assert_eq!(runs, [run(false, 0, 0, 0), run(false, 0, 0, 1), run(true, 0, 1, 2)]);
    assert_eq!(write_palette_cu(&mut bits, &cu, &runs), Ok(29));
    assert_eq!(bits, [1, 0, 1, 0, 0, 0, 0, 1, 0, 1, 0, 1, 1, 0, 0, 1, 0, 0, 0, 0, 0, 0, 0, 1, 0, 3, 4, 6, 6]);
}

#[test]
fn plan_of_seventeen_and_a_half_bits() {
    // the planner's own paths: a list outside them costs 16.5
    let mut numbers = [0; PaletteCu::NUMBERS];
    numbers[..11].copy_from_slice(&[3, 0, 8, 8, 0, 3, 0, 3, 0, 0, 1]);
    [10, 20, 30].iter().enumerate().for_each(|(k, &y)| numbers[16 + 3 * k] = y);
    numbers[336..345].copy_from_slice(&[0, 0, 0, 0, 0, 1, 0, 1, 0]);
    let cu = PaletteCu::from_numbers(&numbers).unwrap();
    assert_eq!(plan_runs(&cu, &PaletteRateModel::flat(), &mut Vec::new()).unwrap().total(), 17.5);
}
