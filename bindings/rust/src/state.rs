//! What is carried from block to block: the palette predictor and the colour counter.

use crate::{PaletteCu, Refusal};
use std::fmt;

/// The palette predictor: at most 128 entries.
///
/// ```
/// use velomitra::PalettePredictor;
/// # let cu = include!(concat!(env!("CARGO_MANIFEST_DIR"), "/doc/worked.rs"));
/// let mut predictor = PalettePredictor::new();
/// predictor.update(&cu, 128)?;
/// assert_eq!(predictor.entries(), [[10, 0, 0], [200, 0, 0]]);
/// # Ok::<(), velomitra::Refusal>(())
/// ```
#[derive(Clone, PartialEq, Eq)]
pub struct PalettePredictor {
    pub(crate) numbers: Box<[u16; PalettePredictor::NUMBERS]>,
}

impl PalettePredictor {
    const NUMBERS: usize = 1 + 3 * crate::MAX_PREDICTOR_SIZE;

    /// An empty predictor, as at the start of a slice.
    ///
    /// ```
    /// assert_eq!(velomitra::PalettePredictor::new().size(), 0);
    /// ```
    pub fn new() -> PalettePredictor {
        PalettePredictor { numbers: Box::new([0; PalettePredictor::NUMBERS]) }
    }

    /// A predictor of the caller's own. Over 128 entries are refused by 5 here, an entry over its depth by the calls.
    ///
    /// ```
    /// use velomitra::{PalettePredictor, Refusal};
    /// assert_eq!(PalettePredictor::from_entries(&[[9, 0, 0]])?.entry(0), [9, 0, 0]);
    /// assert_eq!(PalettePredictor::from_entries(&[[9, 0, 0]; 129]), Err(Refusal::Predictor));
    /// # Ok::<(), Refusal>(())
    /// ```
    pub fn from_entries(entries: &[[u16; 3]]) -> Result<PalettePredictor, Refusal> {
        let mut made = PalettePredictor::new();
        let flat = entries.as_flattened();
        made.numbers.get_mut(1..1 + flat.len()).ok_or(Refusal::Predictor)?.copy_from_slice(flat);
        made.numbers[0] = entries.len() as u16;
        Ok(made)
    }

    /// Empties it.
    ///
    /// ```
    /// let mut predictor = velomitra::PalettePredictor::from_entries(&[[9, 0, 0]])?;
    /// predictor.reset();
    /// assert_eq!(predictor.size(), 0);
    /// # Ok::<(), velomitra::Refusal>(())
    /// ```
    pub fn reset(&mut self) {
        self.numbers.fill(0);
    }

    /// How many entries it has.
    ///
    /// ```
    /// assert_eq!(velomitra::PalettePredictor::from_entries(&[[9, 0, 0]])?.size(), 1);
    /// # Ok::<(), velomitra::Refusal>(())
    /// ```
    pub fn size(&self) -> usize {
        self.numbers[0].into()
    }

    /// Its entries.
    ///
    /// ```
    /// assert_eq!(velomitra::PalettePredictor::from_entries(&[[9, 0, 0]])?.entries(), [[9, 0, 0]]);
    /// # Ok::<(), velomitra::Refusal>(())
    /// ```
    pub fn entries(&self) -> &[[u16; 3]] {
        &self.numbers[1..].as_chunks().0[..self.size()]
    }

    /// One entry.
    ///
    /// # Panics
    /// Where there is none.
    ///
    /// ```
    /// assert_eq!(velomitra::PalettePredictor::from_entries(&[[9, 0, 0]])?.entry(0), [9, 0, 0]);
    /// # Ok::<(), velomitra::Refusal>(())
    /// ```
    pub fn entry(&self, k: usize) -> [u16; 3] {
        self.entries()[k]
    }

    /// The predictor after a block: its palette, then the old entries that it did not take, at most `max_pred`. Refusals 2, 5, 7.
    ///
    /// ```
    /// use velomitra::{PalettePredictor, Refusal};
    /// # let cu = include!(concat!(env!("CARGO_MANIFEST_DIR"), "/doc/worked.rs"));
    /// let mut predictor = PalettePredictor::from_entries(&[[9, 0, 0]])?;
    /// predictor.update(&cu, 128)?;
    /// assert_eq!(predictor.entries(), [[10, 0, 0], [200, 0, 0], [9, 0, 0]]);
    /// assert_eq!(predictor.update(&cu, 129), Err(Refusal::Predictor));
    /// # Ok::<(), Refusal>(())
    /// ```
    pub fn update(&mut self, cu: &PaletteCu, max_pred: usize) -> Result<(), Refusal> {
        Refusal::of(exported!(velomitra_update: mut self.numbers, ref cu.numbers, max_pred))
    }
}

impl Default for PalettePredictor {
    fn default() -> PalettePredictor {
        PalettePredictor::new()
    }
}

impl fmt::Debug for PalettePredictor {
    fn fmt(&self, f: &mut fmt::Formatter) -> fmt::Result {
        f.debug_list().entries(self.entries()).finish()
    }
}

/// The colour counter that analysis works with. One serves for any number of blocks, in any order; what it holds never changes an answer.
///
/// ```
/// use velomitra::ColorIndex;
/// assert_eq!(ColorIndex::new().generation(), 0);
/// ```
#[derive(Clone, Debug, PartialEq, Eq)]
pub struct ColorIndex {
    pub(crate) keys: Box<[u64; ColorIndex::SLOTS]>,
    pub(crate) entry: Box<[u16; ColorIndex::SLOTS]>,
    /// The generation, then the stamps.
    pub(crate) stamp: Box<[u32; 1 + ColorIndex::SLOTS]>,
}

impl ColorIndex {
    const SLOTS: usize = 256;

    /// An unused one.
    ///
    /// ```
    /// assert_eq!(velomitra::ColorIndex::new(), velomitra::ColorIndex::default());
    /// ```
    pub fn new() -> ColorIndex {
        ColorIndex {
            keys: Box::new([0; ColorIndex::SLOTS]),
            entry: Box::new([0; ColorIndex::SLOTS]),
            stamp: Box::new([0; 1 + ColorIndex::SLOTS]),
        }
    }

    /// How many times it has counted, in 32 bits that roll over to 1.
    ///
    /// ```
    /// assert_eq!(velomitra::ColorIndex::new().generation(), 0);
    /// ```
    pub fn generation(&self) -> u32 {
        self.stamp[0]
    }
}

impl Default for ColorIndex {
    fn default() -> ColorIndex {
        ColorIndex::new()
    }
}
