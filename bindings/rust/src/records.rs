//! What calls are given beside blocks and predictors, with source 000's names.

/// Frame-constant palette parameters. Subsampling follows from the format.
///
/// ```
/// use velomitra::PaletteConfig;
/// let cfg = PaletteConfig { num_comps: 3, chroma_idc: 3, bd_luma: 8, bd_chroma: 8, qp: [0; 3], lossless: true };
/// assert_eq!(cfg.sub(), (1, 1));
/// ```
#[derive(Clone, Copy, Debug, PartialEq, Eq)]
pub struct PaletteConfig {
    /// 1 in format 0, else 3.
    pub num_comps: usize,
    /// The format: 0 one component, 1 4:2:0, 2 4:2:2, 3 4:4:4.
    pub chroma_idc: u8,
    /// 8, 10 or 12.
    pub bd_luma: u8,
    pub bd_chroma: u8,
    /// Component QPs with their depth's offset, -128 to 75.
    pub qp: [i32; 3],
    pub lossless: bool,
}

impl PaletteConfig {
    /// Luma samples to one of chroma, across and down.
    ///
    /// ```
    /// use velomitra::PaletteConfig;
    /// let cfg = PaletteConfig { num_comps: 3, chroma_idc: 1, bd_luma: 8, bd_chroma: 8, qp: [22; 3], lossless: false };
    /// assert_eq!(cfg.sub(), (2, 2));
    /// ```
    pub fn sub(&self) -> (usize, usize) {
        match self.chroma_idc {
            1 => (2, 2),
            2 => (2, 1),
            _ => (1, 1),
        }
    }

    pub(crate) fn numbers(&self) -> [i32; 8] {
        let comps = i32::try_from(self.num_comps).unwrap_or(-1);
        let [y, cb, cr] = self.qp;
        [comps, self.chroma_idc.into(), self.bd_luma.into(), self.bd_chroma.into(), y, cb, cr, self.lossless.into()]
    }
}

/// The source planes around one block, row by row without gaps. In format 0 chroma is not looked at.
///
/// ```
/// use velomitra::SourceBlock;
/// let luma = [10, 200, 10, 200];
/// let src = SourceBlock { y: &luma, cb: &[], cr: &[], yw: 2, yh: 2, cw: 0, chh: 0, x0: 0, y0: 0, size: 2 };
/// assert_eq!(src.y.len(), src.yw * src.yh);
/// ```
#[derive(Clone, Copy, Debug)]
pub struct SourceBlock<'a> {
    pub y: &'a [u16],
    pub cb: &'a [u16],
    pub cr: &'a [u16],
    /// Luma width and height.
    pub yw: usize,
    pub yh: usize,
    /// Chroma width and height; where one is 0, chroma reads as 0.
    pub cw: usize,
    pub chh: usize,
    /// The block's luma column and row; what hangs over the picture repeats its edge.
    pub x0: usize,
    pub y0: usize,
    pub size: usize,
}

impl SourceBlock<'_> {
    pub(crate) fn numbers(&self) -> [usize; 7] {
        [self.yw, self.yh, self.cw, self.chh, self.x0, self.y0, self.size]
    }
}

/// The planes that reconstruction writes onto, up to their strides. Widths count in refusal 3 alone.
///
/// ```
/// use velomitra::ReconTarget;
/// let mut luma = [0; 8 * 4];
/// let dst = ReconTarget { y: &mut luma, cb: &mut [], cr: &mut [], y_width: 6, c_width: 0, y_stride: 8, c_stride: 0, y_height: 4, c_height: 0 };
/// assert!(dst.y_width <= dst.y_stride);
/// ```
#[derive(Debug)]
pub struct ReconTarget<'a> {
    pub y: &'a mut [u16],
    pub cb: &'a mut [u16],
    pub cr: &'a mut [u16],
    pub y_width: usize,
    pub c_width: usize,
    pub y_stride: usize,
    pub c_stride: usize,
    pub y_height: usize,
    pub c_height: usize,
}

/// Some cells along the scan: those above copied, or one index.
///
/// ```
/// use velomitra::PaletteRun;
/// let run = PaletteRun { copy_above: true, raw_index: 0, run: 1, scan: 2 };
/// assert_eq!(run.cells(), 2..4);
/// ```
#[derive(Clone, Copy, Debug, PartialEq, Eq)]
pub struct PaletteRun {
    pub copy_above: bool,
    /// The index as sent, 0 in a copy-above run: less 1 where it is above its reference.
    pub raw_index: u32,
    /// Further cells after the first.
    pub run: u32,
    /// Where it starts.
    pub scan: usize,
}

impl PaletteRun {
    /// The scan places that it covers.
    ///
    /// ```
    /// use velomitra::PaletteRun;
    /// assert_eq!(PaletteRun { copy_above: false, raw_index: 4, run: 0, scan: 7 }.cells(), 7..8);
    /// ```
    pub fn cells(&self) -> std::ops::Range<usize> {
        self.scan..self.scan.saturating_add(1).saturating_add(self.run as usize)
    }

    pub(crate) fn numbers(&self) -> [u32; 4] {
        [self.copy_above.into(), self.raw_index, self.run, u32::try_from(self.scan).unwrap_or(u32::MAX)]
    }

    pub(crate) fn of(numbers: &[u32; 4]) -> PaletteRun {
        let &[above, raw_index, run, scan] = numbers;
        PaletteRun { copy_above: above == 1, raw_index, run, scan: scan as usize }
    }
}

/// What context-coded bins cost, in bits, each from 0 to 64.
///
/// ```
/// use velomitra::PaletteRateModel;
/// assert_eq!(PaletteRateModel::flat().run_type, [1.0; 2]);
/// ```
#[derive(Clone, Copy, Debug, PartialEq)]
pub struct PaletteRateModel {
    /// Bins 0 and 1 of the run type.
    pub run_type: [f32; 2],
    /// Bins 0 and 1 in each run-prefix context.
    pub run_prefix: [[f32; 2]; 8],
}

impl PaletteRateModel {
    /// Every bin costs one bit.
    ///
    /// ```
    /// assert_eq!(velomitra::PaletteRateModel::flat().run_prefix, [[1.0; 2]; 8]);
    /// ```
    pub fn flat() -> PaletteRateModel {
        PaletteRateModel { run_type: [1.0; 2], run_prefix: [[1.0; 2]; 8] }
    }

    pub(crate) fn numbers(&self) -> [f32; 18] {
        let mut list = [0.0; 18];
        list[..2].copy_from_slice(&self.run_type);
        list[2..].copy_from_slice(self.run_prefix.as_flattened());
        list
    }
}

/// What the planner answers.
///
/// ```
/// use velomitra::Planned;
/// assert_eq!(Planned::Runs { count: 3, total: 4.25 }.total(), 4.25);
/// ```
#[derive(Clone, Copy, Debug, PartialEq)]
pub enum Planned {
    /// One index for the whole block: nothing is sent.
    Nothing,
    /// So many runs, at so many bits.
    Runs { count: usize, total: f32 },
}

impl Planned {
    /// The total as source 000 answers it: 0 where there is nothing to code.
    ///
    /// ```
    /// assert_eq!(velomitra::Planned::Nothing.total(), 0.0);
    /// ```
    pub fn total(self) -> f32 {
        match self {
            Planned::Nothing => 0.0,
            Planned::Runs { total, .. } => total,
        }
    }
}

/// A bin with what codes it: a byte of a bin list, class × 2 + bin.
///
/// ```
/// use velomitra::Bin;
/// assert_eq!([0, 3, 4, 7].map(Bin::from_byte), [Bin::Bypass(0), Bin::RunType(1), Bin::Transpose(0), Bin::RunPrefix(0, 1)].map(Some));
/// ```
#[derive(Clone, Copy, Debug, PartialEq, Eq)]
pub enum Bin {
    Bypass(u8),
    /// The run type's flag, and the final run's.
    RunType(u8),
    Transpose(u8),
    /// A run-prefix context, 0 to 7, and the bin.
    RunPrefix(usize, u8),
    /// Where the QP syntax of escapes stands; no bin of its own.
    EscapeQp,
}

impl Bin {
    /// The bin of a byte; one over 22 is of no class.
    ///
    /// ```
    /// use velomitra::Bin;
    /// assert_eq!(Bin::from_byte(21), Some(Bin::RunPrefix(7, 1)));
    /// assert_eq!(Bin::from_byte(22), Some(Bin::EscapeQp));
    /// assert_eq!(Bin::from_byte(23), None);
    /// ```
    pub fn from_byte(byte: u8) -> Option<Bin> {
        let bin = byte % 2;
        match byte / 2 {
            0 => Some(Bin::Bypass(bin)),
            1 => Some(Bin::RunType(bin)),
            2 => Some(Bin::Transpose(bin)),
            class @ 3..=10 => Some(Bin::RunPrefix(usize::from(class) - 3, bin)),
            11 if bin == 0 => Some(Bin::EscapeQp),
            _ => None,
        }
    }
}
