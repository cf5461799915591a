//! Every refusal of every call, each on an input that it applies to: memory lent stays as it was.

mod common;
use common::{LUMA, Picture, made};
use velomitra::*;

/// What calls change.
#[derive(Clone, PartialEq, Debug)]
struct Lent {
    predictor: PalettePredictor,
    seen: ColorIndex,
    cu: PaletteCu,
    runs: Vec<PaletteRun>,
    bits: Vec<u8>,
    planes: [Vec<u16>; 3],
}

const SAMPLES: [u16; 4] = [10, 200, 10, 200];

fn lent() -> Lent {
    let picture = Picture::luma(&SAMPLES, 2);
    let src = picture.source(0, 0, 2);
    let (mut seen, mut runs, mut bits) = (ColorIndex::new(), Vec::new(), vec![7, 8, 9]);
    analyze_palette(&src, &PalettePredictor::new(), &LUMA, &mut seen, &mut PaletteCu::new()).unwrap();
    let cu = made(&src, &LUMA, &PalettePredictor::new());
    plan_runs(&cu, &PaletteRateModel::flat(), &mut runs).unwrap();
    write_palette_cu(&mut bits, &cu, &runs).unwrap();
    let predictor = PalettePredictor::from_entries(&[[9, 0, 0]]).unwrap();
    Lent { predictor, seen, cu, runs, bits, planes: [vec![5; 4], vec![], vec![]] }
}

/// A call on memory that may first be changed: its refusal is due and leaves all as it was.
fn refused(due: Refusal, change: impl Fn(&mut Lent), call: impl Fn(&mut Lent) -> Result<(), Refusal>) {
    let mut now = lent();
    change(&mut now);
    let before = now.clone();
    assert_eq!(call(&mut now), Err(due));
    assert!(now == before, "{due}: memory changed");
}

fn none(_: &mut Lent) {}

/// A block with one number of its list changed.
fn with(place: usize, number: u16) -> impl Fn(&mut Lent) {
    move |lent| {
        let mut numbers = *lent.cu.as_numbers();
        numbers[place] = number;
        lent.cu = PaletteCu::from_numbers(&numbers).unwrap();
    }
}

/// The calls on source planes, each with the same change to its input.
fn on_planes(due: Refusal, cfg: PaletteConfig, luma: &[u16], yw: usize, size: usize) {
    let src = SourceBlock { y: luma, cb: &[], cr: &[], yw, yh: 2, cw: 0, chh: 0, x0: 0, y0: 0, size };
    refused(due, none, |lent| analyze_palette(&src, &lent.predictor, &cfg, &mut lent.seen, &mut lent.cu));
    refused(due, none, |lent| analyze_with(&src, &lent.predictor, &cfg, 3, &mut lent.seen, &mut lent.cu));
    refused(due, none, |lent| assign_indices(&src, &cfg, true, &mut lent.cu));
    refused(due, none, |lent| smooth_indices(&src, &cfg, 1.0, 4.0, &mut lent.cu).map(drop));
    refused(due, none, |lent| palette_sse(&src, &cfg, &lent.cu).map(drop));
}

#[test]
fn one_to_four() {
    on_planes(Refusal::Config, PaletteConfig { num_comps: 3, ..LUMA }, &SAMPLES, 2, 2);
    on_planes(Refusal::Config, PaletteConfig { num_comps: usize::MAX, ..LUMA }, &SAMPLES, 2, 2);
    on_planes(Refusal::Config, PaletteConfig { chroma_idc: 4, ..LUMA }, &SAMPLES, 2, 2);
    on_planes(Refusal::Config, PaletteConfig { bd_luma: 9, ..LUMA }, &SAMPLES, 2, 2);
    on_planes(Refusal::Config, PaletteConfig { qp: [76, 0, 0], ..LUMA }, &SAMPLES, 2, 2);
    on_planes(Refusal::Geometry, LUMA, &SAMPLES, 2, 33);
    on_planes(Refusal::Geometry, LUMA, &SAMPLES, 0, 2);
    on_planes(Refusal::Geometry, LUMA, &SAMPLES, usize::MAX, 2);
    on_planes(Refusal::Plane, LUMA, &SAMPLES[..3], 2, 2);
    on_planes(Refusal::Plane, LUMA, &[], 2, 2);
    on_planes(Refusal::Sample, LUMA, &[10, 256, 10, 200], 2, 2);
}

#[test]
fn predictor() {
    let picture = Picture::luma(&SAMPLES, 2);
    let over = |lent: &mut Lent| lent.predictor = PalettePredictor::from_entries(&[[256, 0, 0]]).unwrap();
    refused(Refusal::Predictor, over, |lent| {
        analyze_palette(&picture.source(0, 0, 2), &lent.predictor, &LUMA, &mut lent.seen, &mut lent.cu)
    });
    refused(Refusal::Predictor, over, |lent| lent.predictor.update(&lent.cu, 128));
    refused(Refusal::Predictor, over, |lent| {
        let read = read_palette_cu(&lent.bits[3..], 2, &LUMA, &lent.predictor, &mut lent.cu, &mut lent.runs);
        assert_eq!(read.unwrap_err().place, 0);
        read.map(drop).map_err(|refused| refused.refusal)
    });
    refused(Refusal::Predictor, none, |lent| lent.predictor.update(&lent.cu, 129));
    refused(Refusal::Geometry, with(0, 33), |lent| lent.predictor.update(&lent.cu, 128));
    refused(Refusal::Block, with(2, 9), |lent| lent.predictor.update(&lent.cu, 128));
}

#[test]
fn rates() {
    for rate in [-1.0, 64.5, f32::INFINITY, f32::NAN] {
        let mut model = PaletteRateModel::flat();
        model.run_prefix[7][1] = rate;
        refused(Refusal::Rate, none, |lent| plan_runs(&lent.cu, &model, &mut lent.runs).map(drop));
    }
}

#[test]
fn block_does_not_hold_together() {
    let picture = Picture::luma(&SAMPLES, 2);
    let src = picture.source(0, 0, 2);
    refused(Refusal::Block, none, |lent| analyze_with(&src, &lent.predictor, &LUMA, 17, &mut lent.seen, &mut lent.cu));
    // the palette's size, so that no index fits; a tolerance; a palette over 64
    for spoil in [with(5, 1), with(10, 17), with(5, 65)] {
        refused(Refusal::Block, &spoil, |lent| palette_sse(&src, &LUMA, &lent.cu).map(drop));
        refused(Refusal::Block, &spoil, |lent| smooth_indices(&src, &LUMA, 1.0, 4.0, &mut lent.cu).map(drop));
        refused(Refusal::Block, &spoil, |lent| plan_runs(&lent.cu, &PaletteRateModel::flat(), &mut lent.runs).map(drop));
        refused(Refusal::Block, &spoil, |lent| write_palette_cu(&mut lent.bits, &lent.cu, &lent.runs).map(drop));
        refused(Refusal::Block, &spoil, |lent| {
            let mut target = Picture { planes: lent.planes.clone(), yw: 2, yh: 2, cw: 0, chh: 0 };
            let answer = reconstruct(&lent.cu, &LUMA, &mut target.target(), 0, 0);
            lent.planes = target.planes;
            answer
        });
    }
    refused(Refusal::Block, with(5, 0), |lent| assign_indices(&src, &LUMA, false, &mut lent.cu));
}

#[test]
fn runs_and_room() {
    refused(Refusal::Runs, none, |lent| write_palette_cu(&mut lent.bits, &lent.cu, &lent.runs[..2]).map(drop));
    refused(Refusal::Runs, |lent| lent.runs[2].scan = usize::MAX, |lent| write_palette_cu(&mut lent.bits, &lent.cu, &lent.runs).map(drop));
    refused(
        Refusal::Runs,
        |lent| lent.runs = vec![lent.runs[0]; 1025],
        |lent| write_palette_cu(&mut lent.bits, &lent.cu, &lent.runs).map(drop),
    );
    refused(Refusal::Room, none, |lent| write_palette_cu_into(&mut lent.bits[..28], &lent.cu, &lent.runs).map(drop));
}

#[test]
fn reader() {
    let read = |due: Refusal, place: usize, change: &dyn Fn(&mut Lent), size: usize, cfg: PaletteConfig| {
        refused(due, change, |lent| {
            let read = read_palette_cu(&lent.bits[3..], size, &cfg, &lent.predictor, &mut lent.cu, &mut lent.runs);
            assert_eq!(read, Err(RefusedAt { refusal: due, place }));
            Err(due)
        })
    };
    // the bins were written over an empty predictor
    let empty = |lent: &mut Lent| lent.predictor.reset();
    read(Refusal::Config, 0, &empty, 2, PaletteConfig { bd_chroma: 9, ..LUMA });
    read(Refusal::Geometry, 0, &empty, 0, LUMA);
    for cut in 0..29 {
        let shorter = |lent: &mut Lent| {
            empty(lent);
            lent.bits.truncate(3 + cut);
        };
        read(Refusal::BinsEnd, cut, &shorter, 2, LUMA);
    }
    let foreign = |lent: &mut Lent| {
        empty(lent);
        lent.bits[3 + 25] = 5;
    };
    read(Refusal::BinClass, 25, &foreign, 2, LUMA);
    let many = |lent: &mut Lent| {
        empty(lent);
        lent.bits.splice(3.., [1; 17]);
    };
    read(Refusal::Value, 0, &many, 2, LUMA);
}

#[test]
fn colours_and_escapes() {
    // 13: the counter moves on, all else stays
    let three = Picture::luma(&[10, 200, 10, 30], 2);
    let (mut now, before) = (lent(), lent());
    let answer = analyze_palette(&three.source(0, 0, 2), &now.predictor, &LUMA, &mut now.seen, &mut now.cu);
    assert_eq!((answer, now.seen.generation(), &now.cu), (Err(Refusal::TooManyColors), before.seen.generation(), &before.cu));
    let noisy = Picture { planes: [vec![7; 4], vec![1, 2, 3, 3], vec![1; 4]], yw: 2, yh: 2, cw: 2, chh: 2 };
    let cfg = PaletteConfig { num_comps: 3, chroma_idc: 3, ..LUMA };
    let answer = analyze_palette(&noisy.source(0, 0, 2), &PalettePredictor::new(), &cfg, &mut now.seen, &mut now.cu);
    assert_eq!((answer, now.seen.generation(), &now.cu), (Err(Refusal::TooManyColors), before.seen.generation() + 1, &before.cu));

    // 14: half of the cells are beyond the predictor's entry
    let close = Picture::luma(&[10, 10, 11, 11], 2);
    let src = close.source(0, 0, 2);
    let analysed = |lent: &mut Lent| analyze_palette(&src, &lent.predictor, &LUMA, &mut lent.seen, &mut lent.cu).unwrap();
    refused(Refusal::TooManyEscapes, analysed, |lent| assign_indices(&src, &LUMA, false, &mut lent.cu));
}

#[test]
fn smoothing() {
    let picture = Picture::luma(&SAMPLES, 2);
    let src = picture.source(0, 0, 2);
    refused(Refusal::Smoothing, with(9, 1), |lent| smooth_indices(&src, &LUMA, 1.0, 4.0, &mut lent.cu).map(drop));
    let lossless = PaletteConfig { lossless: true, ..LUMA };
    let made = |lent: &mut Lent| lent.cu = made(&src, &lossless, &lent.predictor);
    refused(Refusal::Smoothing, made, |lent| smooth_indices(&src, &lossless, 1.0, 4.0, &mut lent.cu).map(drop));
}

#[test]
fn target_planes() {
    let onto = |len: usize, width: usize, stride: usize, x0: usize| {
        move |lent: &mut Lent| {
            lent.planes[0].resize(len, 5);
            let before = lent.planes.clone();
            let [y, cb, cr] = &mut lent.planes;
            let mut dst = ReconTarget { y, cb, cr, y_width: width, c_width: 0, y_stride: stride, c_stride: 0, y_height: 2, c_height: 0 };
            let answer = reconstruct(&lent.cu, &LUMA, &mut dst, x0, 0);
            assert_eq!(lent.planes, before);
            lent.planes[0].resize(4, 5);
            answer
        }
    };
    refused(Refusal::Plane, none, onto(3, 2, 2, 0));
    refused(Refusal::Plane, none, onto(8, 4, 3, 0));
    refused(Refusal::Plane, none, onto(8, 2, usize::MAX, 0));
    refused(Refusal::Geometry, none, onto(8, 2, 2, 65536));
}

#[test]
fn numbers_and_texts() {
    for (k, refusal) in Refusal::ALL.into_iter().enumerate() {
        assert_eq!((usize::from(refusal.number()), Refusal::from_number(refusal.number())), (k + 1, Some(refusal)));
        assert_eq!(refusal.to_string(), format!("refused {}: {}", k + 1, refusal.text()));
    }
    assert_eq!((Refusal::from_number(0), Refusal::from_number(17)), (None, None));
    assert_eq!(PaletteCu::from_numbers(&[0; 4431]), Err(WrongLength { due: 4432, given: 4431 }));
}
