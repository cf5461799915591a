//! A block, held as the port's list of numbers.

use crate::WrongLength;
use std::fmt;

/// Places of a block's list, as `include/velomitra.h` has them.
mod at {
    pub const SIZE: usize = 0;
    pub const FORMAT: usize = 1;
    pub const LUMA_DEPTH: usize = 2;
    pub const CHROMA_DEPTH: usize = 3;
    pub const LOSSLESS: usize = 4;
    pub const ENTRIES: usize = 5;
    pub const FLAG_COUNT: usize = 6;
    pub const SIGNALED: usize = 7;
    pub const ESCAPE: usize = 8;
    pub const TRANSPOSE: usize = 9;
    pub const TOLERANCE: usize = 10;
    pub const FIGURE: usize = 11;
    pub const PALETTE: usize = 16;
    pub const FLAGS: usize = 208;
    pub const INDICES: usize = 336;
    pub const LEVELS: usize = 1360;
}

/// One palette-coded block: what writing and reconstruction need. Calls fill it; a refusal leaves it as it was.
///
/// ```
/// use velomitra::PaletteCu;
/// # let cu = include!(concat!(env!("CARGO_MANIFEST_DIR"), "/doc/worked.rs"));
/// assert_eq!(cu.palette_entries(), [[10, 0, 0], [200, 0, 0]]);
/// assert_eq!(cu.indices(), [0, 1, 1, 0]);
/// ```
#[derive(Clone, PartialEq, Eq)]
pub struct PaletteCu {
    pub(crate) numbers: Box<[u16; PaletteCu::NUMBERS]>,
}

impl PaletteCu {
    /// The length of a block's list of numbers.
    pub const NUMBERS: usize = 4432;

    /// A blank block.
    ///
    /// ```
    /// assert_eq!(velomitra::PaletteCu::new().palette_size(), 0);
    /// ```
    pub fn new() -> PaletteCu {
        PaletteCu { numbers: Box::new([0; PaletteCu::NUMBERS]) }
    }

    /// A block of the caller's own, laid out as `include/velomitra.h` says. Calls test whether it holds together.
    ///
    /// ```
    /// use velomitra::{PaletteCu, PalettePredictor, Refusal};
    /// let cu = PaletteCu::from_numbers(&[0; PaletteCu::NUMBERS]).unwrap();
    /// assert_eq!(PalettePredictor::new().update(&cu, 128), Err(Refusal::Geometry));
    /// assert!(PaletteCu::from_numbers(&[0; 12]).is_err());
    /// ```
    pub fn from_numbers(numbers: &[u16]) -> Result<PaletteCu, WrongLength> {
        let list = numbers.try_into().map_err(|_| WrongLength { due: PaletteCu::NUMBERS, given: numbers.len() })?;
        Ok(PaletteCu { numbers: Box::new(list) })
    }

    /// The block's list of numbers.
    ///
    /// ```
    /// use velomitra::PaletteCu;
    /// # let cu = include!(concat!(env!("CARGO_MANIFEST_DIR"), "/doc/worked.rs"));
    /// assert_eq!(PaletteCu::from_numbers(cu.as_numbers()), Ok(cu));
    /// ```
    pub fn as_numbers(&self) -> &[u16; PaletteCu::NUMBERS] {
        &self.numbers
    }

    fn number(&self, place: usize) -> usize {
        self.numbers[place].into()
    }

    fn flag(&self, place: usize) -> bool {
        self.numbers[place] == 1
    }

    fn cells(&self) -> usize {
        self.size().saturating_mul(self.size()).min(at::LEVELS - at::INDICES)
    }

    /// The side, in cells.
    ///
    /// ```
    /// # let cu = include!(concat!(env!("CARGO_MANIFEST_DIR"), "/doc/worked.rs"));
    /// assert_eq!(cu.size(), 2);
    /// ```
    pub fn size(&self) -> usize {
        self.number(at::SIZE)
    }

    /// The format: 0 to 3.
    ///
    /// ```
    /// # let cu = include!(concat!(env!("CARGO_MANIFEST_DIR"), "/doc/worked.rs"));
    /// assert_eq!(cu.chroma_idc(), 0);
    /// ```
    pub fn chroma_idc(&self) -> usize {
        self.number(at::FORMAT)
    }

    /// Luma's depth.
    ///
    /// ```
    /// # let cu = include!(concat!(env!("CARGO_MANIFEST_DIR"), "/doc/worked.rs"));
    /// assert_eq!(cu.bd_luma(), 8);
    /// ```
    pub fn bd_luma(&self) -> usize {
        self.number(at::LUMA_DEPTH)
    }

    /// Chroma's depth.
    ///
    /// ```
    /// # let cu = include!(concat!(env!("CARGO_MANIFEST_DIR"), "/doc/worked.rs"));
    /// assert_eq!(cu.bd_chroma(), 8);
    /// ```
    pub fn bd_chroma(&self) -> usize {
        self.number(at::CHROMA_DEPTH)
    }

    /// Whether it was made lossless.
    ///
    /// ```
    /// # let cu = include!(concat!(env!("CARGO_MANIFEST_DIR"), "/doc/worked.rs"));
    /// assert!(!cu.lossless());
    /// ```
    pub fn lossless(&self) -> bool {
        self.flag(at::LOSSLESS)
    }

    /// How many entries the palette has.
    ///
    /// ```
    /// # let cu = include!(concat!(env!("CARGO_MANIFEST_DIR"), "/doc/worked.rs"));
    /// assert_eq!(cu.palette_size(), 2);
    /// ```
    pub fn palette_size(&self) -> usize {
        self.number(at::ENTRIES)
    }

    /// How many predictor entries have a flag.
    ///
    /// ```
    /// # let cu = include!(concat!(env!("CARGO_MANIFEST_DIR"), "/doc/worked.rs"));
    /// assert_eq!(cu.pred_size(), 0);
    /// ```
    pub fn pred_size(&self) -> usize {
        self.number(at::FLAG_COUNT)
    }

    /// How many entries are sent, not taken from the predictor.
    ///
    /// ```
    /// # let cu = include!(concat!(env!("CARGO_MANIFEST_DIR"), "/doc/worked.rs"));
    /// assert_eq!(cu.num_signaled(), 2);
    /// ```
    pub fn num_signaled(&self) -> usize {
        self.number(at::SIGNALED)
    }

    /// Whether a cell escapes.
    ///
    /// ```
    /// # let cu = include!(concat!(env!("CARGO_MANIFEST_DIR"), "/doc/worked.rs"));
    /// assert!(!cu.escape_present());
    /// ```
    pub fn escape_present(&self) -> bool {
        self.flag(at::ESCAPE)
    }

    /// Whether the scan runs down the columns.
    ///
    /// ```
    /// # let cu = include!(concat!(env!("CARGO_MANIFEST_DIR"), "/doc/worked.rs"));
    /// assert!(!cu.transpose());
    /// ```
    pub fn transpose(&self) -> bool {
        self.flag(at::TRANSPOSE)
    }

    /// How far a sample may be from its entry before it escapes.
    ///
    /// ```
    /// # let cu = include!(concat!(env!("CARGO_MANIFEST_DIR"), "/doc/worked.rs"));
    /// assert_eq!(cu.tolerance(), 1);
    /// ```
    pub fn tolerance(&self) -> usize {
        self.number(at::TOLERANCE)
    }

    /// The error figure that assignment or smoothing left: a whole number.
    ///
    /// ```
    /// # let cu = include!(concat!(env!("CARGO_MANIFEST_DIR"), "/doc/worked.rs"));
    /// assert_eq!(cu.sse(), 0);
    /// ```
    pub fn sse(&self) -> u64 {
        (0..4).map(|k| u64::from(self.numbers[at::FIGURE + k]) << (16 * k)).sum()
    }

    /// The palette.
    ///
    /// ```
    /// # let cu = include!(concat!(env!("CARGO_MANIFEST_DIR"), "/doc/worked.rs"));
    /// assert_eq!(cu.palette_entries(), [[10, 0, 0], [200, 0, 0]]);
    /// ```
    pub fn palette_entries(&self) -> &[[u16; 3]] {
        let (entries, _) = self.numbers[at::PALETTE..at::FLAGS].as_chunks();
        &entries[..self.palette_size().min(entries.len())]
    }

    /// A flag for each predictor entry: whether the palette takes it.
    ///
    /// ```
    /// # let cu = include!(concat!(env!("CARGO_MANIFEST_DIR"), "/doc/worked.rs"));
    /// assert_eq!(cu.reuse_flags().count(), 0);
    /// ```
    pub fn reuse_flags(&self) -> impl ExactSizeIterator<Item = bool> + '_ {
        let flags = &self.numbers[at::FLAGS..at::INDICES];
        flags[..self.pred_size().min(flags.len())].iter().map(|&flag| flag == 1)
    }

    /// The index of each cell along the scan; the palette's size marks an escape.
    ///
    /// ```
    /// # let cu = include!(concat!(env!("CARGO_MANIFEST_DIR"), "/doc/worked.rs"));
    /// assert_eq!(cu.indices(), [0, 1, 1, 0]);
    /// ```
    pub fn indices(&self) -> &[u16] {
        &self.numbers[at::INDICES..at::INDICES + self.cells()]
    }

    /// The escape levels of each cell along the scan.
    ///
    /// ```
    /// # let cu = include!(concat!(env!("CARGO_MANIFEST_DIR"), "/doc/worked.rs"));
    /// assert_eq!(cu.escapes(), [[0, 0, 0]; 4]);
    /// ```
    pub fn escapes(&self) -> &[[u16; 3]] {
        &self.numbers[at::LEVELS..].as_chunks().0[..self.cells()]
    }

    /// M: palette size less 1, plus 1 with escapes.
    ///
    /// ```
    /// # let cu = include!(concat!(env!("CARGO_MANIFEST_DIR"), "/doc/worked.rs"));
    /// assert_eq!(cu.max_palette_index(), 1);
    /// ```
    pub fn max_palette_index(&self) -> i64 {
        i64::from(self.numbers[at::ENTRIES]) - 1 + i64::from(self.escape_present())
    }
}

impl Default for PaletteCu {
    fn default() -> PaletteCu {
        PaletteCu::new()
    }
}

impl fmt::Debug for PaletteCu {
    fn fmt(&self, f: &mut fmt::Formatter) -> fmt::Result {
        f.debug_struct("PaletteCu")
            .field("size", &self.size())
            .field("chroma_idc", &self.chroma_idc())
            .field("depths", &[self.bd_luma(), self.bd_chroma()])
            .field("lossless", &self.lossless())
            .field("palette", &self.palette_entries())
            .field("reused", &self.reuse_flags().collect::<Vec<_>>())
            .field("num_signaled", &self.num_signaled())
            .field("escape_present", &self.escape_present())
            .field("transpose", &self.transpose())
            .field("tolerance", &self.tolerance())
            .field("sse", &self.sse())
            .field("indices", &self.indices())
            .finish_non_exhaustive()
    }
}
