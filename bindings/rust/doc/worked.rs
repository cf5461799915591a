// Document 01's worked block, for examples: size 2, format 0, entries 10 and 200, indices 0 1 1 0 along the scan.
{
    use velomitra::*;
    let luma = [10, 200, 10, 200];
    let src = SourceBlock { y: &luma, cb: &[], cr: &[], yw: 2, yh: 2, cw: 0, chh: 0, x0: 0, y0: 0, size: 2 };
    let cfg = PaletteConfig { num_comps: 1, chroma_idc: 0, bd_luma: 8, bd_chroma: 8, qp: [4; 3], lossless: false };
    let mut cu = PaletteCu::new();
    analyze_palette(&src, &PalettePredictor::new(), &cfg, &mut ColorIndex::new(), &mut cu).unwrap();
    assign_indices(&src, &cfg, false, &mut cu).unwrap();
    cu
}
