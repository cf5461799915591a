//! A second reading of a block's bins: H.265's palette syntax with document 01's refusals, written from those pages alone. Nothing here is the port's.

/// What the bins are read with.
#[derive(Clone, Debug)]
pub struct Told {
    pub size: usize,
    pub format: usize,
    pub luma_depth: usize,
    pub chroma_depth: usize,
    pub lossless: bool,
    pub predictor: Vec<[u16; 3]>,
    /// Runs that the lent list has room for.
    pub room: usize,
}

#[derive(Clone, PartialEq, Debug)]
pub struct Run {
    pub copy_above: bool,
    pub sent: u32,
    pub length: usize,
    pub start: usize,
}

/// A block that was read.
#[derive(Clone, PartialEq, Debug)]
pub struct Block {
    pub palette: Vec<[u16; 3]>,
    /// One for each predictor entry.
    pub reused: Vec<bool>,
    pub signalled: usize,
    pub escape: bool,
    pub transpose: bool,
    /// Along the scan, one for each cell.
    pub indices: Vec<usize>,
    pub levels: Vec<[u32; 3]>,
    pub runs: Vec<Run>,
    pub used: usize,
}

#[derive(Clone, Copy, PartialEq, Eq, Debug)]
pub enum Cause {
    Format,
    Size,
    Predictor,
    Room,
    Ended,
    Class,
    ReusePastPredictor,
    TooManyEntries,
    TooManyIndexRuns,
    LevelOverRange,
    SeventeenthOne,
    NoIndexLeft,
    ReservedOverRoom,
}

impl Cause {
    pub fn number(self) -> u8 {
        match self {
            Cause::Format => 1,
            Cause::Size => 2,
            Cause::Predictor => 5,
            Cause::Room => 9,
            Cause::Ended => 10,
            Cause::Class => 11,
            _ => 12,
        }
    }
}

/// The element whose bin was due.
#[derive(Clone, Copy, PartialEq, Eq, Debug)]
pub enum Element {
    None,
    PredictorRun,
    SignalledEntries,
    NewEntry,
    EscapeFlag,
    IndexCount,
    Index,
    FinalRunFlag,
    TransposeFlag,
    Marker,
    RunType,
    RunPrefix,
    RunSuffix,
    EscapeValue,
}

#[derive(Clone, Copy, PartialEq, Eq, Debug)]
pub struct Refused {
    pub cause: Cause,
    pub element: Element,
    pub place: usize,
}

const BYPASS: u8 = 0;
const RUN_TYPE: u8 = 1;
const TRANSPOSE: u8 = 2;
const RUN_PREFIX: u8 = 3;
const MARKER: u8 = 22;
const PALETTE_MAX_SIZE: usize = 64;

/// The bins, and how many of them have been read.
struct Bins<'a> {
    list: &'a [u8],
    read: usize,
    element: Element,
    /// Where the value that is being read began.
    began: usize,
}

impl Bins<'_> {
    fn refuse<T>(&self, cause: Cause, place: usize) -> Result<T, Refused> {
        Err(Refused { cause, element: self.element, place })
    }

    /// A value of this element begins.
    fn begin(&mut self, element: Element) {
        (self.element, self.began) = (element, self.read);
    }

    fn outside_range<T>(&self, cause: Cause) -> Result<T, Refused> {
        self.refuse(cause, self.began)
    }

    fn byte(&mut self, fits: impl Fn(u8) -> bool) -> Result<u8, Refused> {
        match self.list.get(self.read) {
            None => self.refuse(Cause::Ended, self.list.len()),
            Some(&byte) if !fits(byte) => self.refuse(Cause::Class, self.read),
            Some(&byte) => {
                self.read += 1;
                Ok(byte)
            }
        }
    }

    fn bin(&mut self, class: u8) -> Result<bool, Refused> {
        Ok(self.byte(|byte| byte / 2 == class)? % 2 == 1)
    }

    fn fixed_length(&mut self, bits: u32) -> Result<u32, Refused> {
        let mut value = 0;
        for _ in 0..bits {
            value = 2 * value + u32::from(self.bin(BYPASS)?);
        }
        Ok(value)
    }

    fn exp_golomb(&mut self, order: u32) -> Result<u32, Refused> {
        let (mut value, mut k) = (0, order);
        while self.bin(BYPASS)? {
            if k - order == 16 {
                return self.outside_range(Cause::SeventeenthOne);
            }
            value += 1 << k;
            k += 1;
        }
        Ok(value + self.fixed_length(k)?)
    }

    /// Over an alphabet of so many values.
    fn truncated_binary(&mut self, alphabet: u32) -> Result<u32, Refused> {
        let k = alphabet.ilog2();
        let short = (2 << k) - alphabet;
        let value = self.fixed_length(k)?;
        if value < short {
            return Ok(value);
        }
        Ok(2 * value + self.fixed_length(1)? - short)
    }

    /// num_palette_indices_minus1
    fn index_count(&mut self, max_index: u32) -> Result<u32, Refused> {
        let rice = 3 + ((max_index + 1) >> 3);
        let mut quotient = 0;
        while quotient < 4 && self.bin(BYPASS)? {
            quotient += 1;
        }
        if quotient < 4 {
            return Ok((quotient << rice) + self.fixed_length(rice)?);
        }
        Ok((4 << rice) + self.exp_golomb(rice + 1)?)
    }

    /// palette_run_prefix and palette_run_suffix: cells after the first.
    fn run(&mut self, max_run: u32, copy_above: bool, sent: u32) -> Result<u32, Refused> {
        let index_contexts = match sent {
            0 => [0, 3, 3, 4, 4],
            1 | 2 => [1, 3, 3, 4, 4],
            _ => [2, 3, 3, 4, 4],
        };
        let contexts = if copy_above { [5, 6, 6, 7, 7] } else { index_contexts };
        let most = max_run.ilog2() + 1;
        let mut prefix = 0;
        self.begin(Element::RunPrefix);
        while prefix < most && self.bin(contexts.get(prefix as usize).map_or(BYPASS, |context| RUN_PREFIX + context))? {
            prefix += 1;
        }
        if prefix < 2 {
            return Ok(prefix);
        }
        let offset = 1 << (prefix - 1);
        if max_run == offset {
            return Ok(offset);
        }
        let greatest = if 2 * offset > max_run { max_run - offset } else { offset - 1 };
        self.begin(Element::RunSuffix);
        Ok(offset + self.truncated_binary(greatest + 1)?)
    }
}

/// Column and row of a scan place.
pub fn position(scan: usize, size: usize) -> (usize, usize) {
    let (row, along) = (scan / size, scan % size);
    (if row % 2 == 0 { along } else { size - 1 - along }, row)
}

/// The scan place of the cell one row up.
pub fn above(scan: usize, size: usize) -> usize {
    let (column, row) = position(scan, size);
    let along = if (row - 1) % 2 == 0 { column } else { size - 1 - column };
    (row - 1) * size + along
}

/// The tests that come before any bin.
fn domain(told: &Told) -> Result<(), Cause> {
    let depths = [8, 10, 12];
    if told.format > 3 || !depths.contains(&told.luma_depth) || !depths.contains(&told.chroma_depth) {
        return Err(Cause::Format);
    }
    if !(1..=32).contains(&told.size) || (told.format == 1 || told.format == 2) && told.size % 2 == 1 {
        return Err(Cause::Size);
    }
    let chroma_most = if told.format == 0 { 0 } else { (1 << told.chroma_depth) - 1 };
    let most = [(1 << told.luma_depth) - 1, chroma_most, chroma_most];
    if told.predictor.len() > 128 || told.predictor.iter().any(|entry| (0..3).any(|c| u32::from(entry[c]) > most[c])) {
        return Err(Cause::Predictor);
    }
    if told.room < told.size * told.size {
        return Err(Cause::Room);
    }
    Ok(())
}

/// palette_syntax
pub fn read(list: &[u8], told: &Told) -> Result<Block, Refused> {
    domain(told).map_err(|cause| Refused { cause, element: Element::None, place: 0 })?;
    let mut bins = Bins { list, read: 0, element: Element::None, began: 0 };
    let n = told.size * told.size;
    let components = if told.format == 0 { 1 } else { 3 };
    let depth = |c: usize| if c == 0 { told.luma_depth } else { told.chroma_depth } as u32;

    // 1: predictor entries used again
    let entries = told.predictor.len();
    let mut reused = vec![false; entries];
    let mut palette = Vec::new();
    let mut idx = 0;
    while idx < entries && palette.len() < PALETTE_MAX_SIZE {
        bins.begin(Element::PredictorRun);
        let run = bins.exp_golomb(0)? as usize;
        if run == 1 {
            break;
        }
        idx += run.saturating_sub(1);
        if idx >= entries {
            return bins.outside_range(Cause::ReusePastPredictor);
        }
        reused[idx] = true;
        palette.push(told.predictor[idx]);
        idx += 1;
    }

    // 2: new entries
    let kept = palette.len();
    let mut signalled = 0;
    if kept < PALETTE_MAX_SIZE {
        bins.begin(Element::SignalledEntries);
        signalled = bins.exp_golomb(0)? as usize;
        if kept + signalled > PALETTE_MAX_SIZE {
            return bins.outside_range(Cause::TooManyEntries);
        }
    }
    palette.resize(kept + signalled, [0; 3]);
    for c in 0..components {
        for entry in &mut palette[kept..] {
            bins.begin(Element::NewEntry);
            entry[c] = bins.fixed_length(depth(c))? as u16;
        }
    }

    // 3: escape flag
    let mut escape = true;
    if !palette.is_empty() {
        bins.begin(Element::EscapeFlag);
        escape = bins.bin(BYPASS)?;
    }
    let max_index = palette.len() + usize::from(escape) - 1;

    // 4: indices
    let (mut sent, mut final_copy_above, mut transpose) = (Vec::new(), false, false);
    if max_index > 0 {
        bins.begin(Element::IndexCount);
        let count = bins.index_count(max_index as u32)? as usize + 1;
        if count > n {
            return bins.outside_range(Cause::TooManyIndexRuns);
        }
        for k in 0..count {
            bins.begin(Element::Index);
            sent.push(bins.truncated_binary((if k == 0 { max_index + 1 } else { max_index }) as u32)?);
        }
        bins.begin(Element::FinalRunFlag);
        final_copy_above = bins.bin(RUN_TYPE)?;
        bins.begin(Element::TransposeFlag);
        transpose = bins.bin(TRANSPOSE)?;
    }

    // 5: QP
    if escape {
        bins.begin(Element::Marker);
        bins.byte(|byte| byte == MARKER)?;
    }

    // 6: runs
    let mut indices = vec![0; n];
    let mut runs: Vec<Run> = Vec::new();
    let (mut scan, mut taken) = (0, 0);
    while max_index > 0 && scan < n {
        let after_copy = runs.last().is_some_and(|run| run.copy_above);
        let copy_above = if scan < told.size || after_copy {
            false
        } else if taken < sent.len() && scan < n - 1 {
            bins.begin(Element::RunType);
            bins.bin(RUN_TYPE)?
        } else {
            taken == sent.len()
        };
        bins.begin(Element::RunPrefix);
        let mut value = 0;
        if !copy_above {
            if taken == sent.len() {
                return bins.refuse(Cause::NoIndexLeft, bins.read);
            }
            value = sent[taken];
            taken += 1;
        }
        let left = sent.len() - taken;
        let mut length = n - scan;
        if left > 0 || copy_above != final_copy_above {
            let reserved = 1 + left + usize::from(final_copy_above);
            if reserved > n - scan {
                return bins.refuse(Cause::ReservedOverRoom, bins.read);
            }
            let max_run = n - scan - reserved;
            length = 1;
            if max_run > 0 {
                length += bins.run(max_run as u32, copy_above, value)? as usize;
            }
        }
        let mut index = value as usize;
        if !copy_above && scan > 0 {
            let reference = if after_copy { indices[above(scan, told.size)] } else { indices[scan - 1] };
            index += usize::from(index >= reference);
        }
        for place in scan..scan + length {
            indices[place] = if copy_above { indices[above(place, told.size)] } else { index };
        }
        runs.push(Run { copy_above, sent: value, length, start: scan });
        scan += length;
    }

    // 7: escape values
    let mut levels = vec![[0; 3]; n];
    for c in 0..if escape { components } else { 0 } {
        for place in 0..n {
            let (x, y) = position(place, told.size);
            let there = match told.format {
                _ if c == 0 => true,
                1 => x % 2 == 0 && y % 2 == 0,
                2 => (if transpose { y } else { x }) % 2 == 0,
                _ => true,
            };
            if indices[place] != max_index || !there {
                continue;
            }
            bins.begin(Element::EscapeValue);
            let level = if told.lossless { bins.fixed_length(depth(c))? } else { bins.exp_golomb(3)? };
            if level > 32767 {
                return bins.outside_range(Cause::LevelOverRange);
            }
            levels[place][c] = level;
        }
    }
    Ok(Block { palette, reused, signalled, escape, transpose, indices, levels, runs, used: bins.read })
}
