//! What of the domain the cases were: counted for each exported function as its cases are compared, and printed with what was never met.

use crate::blocks::{at, set, Input, Lent, BLOCK, INDICES};
use crate::quant::{DEPTHS, QPS};
use crate::write::most_index;
use std::collections::HashMap;

/// A way to divide a call's domain.
#[derive(Clone, Copy, PartialEq)]
enum Part {
    Sizes,
    Formats,
    Depths,
    Lossless,
    Qps,
    /// Of the predictor lent.
    Predictors,
    /// Palette sizes from 0, and from 1 where none is empty.
    Palettes,
    Entries,
    Transposed,
    /// The flag, after assignment; the flag and how many cells escape.
    Escapes,
    Escaping,
    Runs,
}

use Part::*;

/// Where the facts of a call stand.
#[derive(Clone, Copy, PartialEq)]
enum Kind {
    /// Numbers in, numbers out.
    Leaf,
    /// In the settings lent, and in the block that is made.
    Makes,
    /// In the settings lent, and in the block that is lent.
    Given,
    /// In the block that is lent.
    Own,
}

/// An exported function: the comparisons or calls that are its cases, the answers that document 01 gives it, the parts that its cases are counted over.
struct Entry {
    name: &'static str,
    from: &'static [&'static str],
    kind: Kind,
    answers: &'static [u8],
    parts: &'static [Part],
}

const fn entry(name: &'static str, from: &'static [&'static str], kind: Kind, answers: &'static [u8], parts: &'static [Part]) -> Entry {
    Entry { name, from, kind, answers, parts }
}

const fn leaf(name: &'static str, from: &'static [&'static str], answers: &'static [u8]) -> Entry {
    entry(name, from, Kind::Leaf, answers, &[])
}

const ENTRIES: [Entry; 33] = [
    leaf("scan_pos", &["scan"], &[0]),
    leaf("scan_pos_inv", &["scan-inverse"], &[0]),
    leaf("place_above", &["above"], &[0]),
    leaf("step", &["step"], &[0]),
    leaf("tolerance", &["tolerance"], &[0]),
    leaf("distance", &["distance"], &[0]),
    leaf("dequant_escape", &["dequant"], &[0]),
    leaf("quantize_escape", &["quantize"], &[0]),
    leaf("wrapping_mul", &["product"], &[0]),
    leaf("put_bits", &["put-bits"], &[0]),
    leaf("put_tb", &["put-tb"], &[0]),
    leaf("put_egk", &["put-egk"], &[0]),
    leaf("put_count", &["put-count"], &[0]),
    leaf("put_run", &["put-run"], &[0]),
    leaf("put_reuse", &["put-reuse"], &[0]),
    leaf("bin_at", &["bin_at"], &[0, 10, 11]),
    leaf("bits_at", &["bits_at"], &[0, 10, 11]),
    leaf("tb_at", &["tb_at"], &[0, 10, 11]),
    leaf("egk_at", &["egk_at"], &[0, 10, 11, 12]),
    leaf("held_egk_at", &["held_egk_at"], &[0, 10, 11, 12]),
    leaf("count_at", &["count_at"], &[0, 10, 11, 12]),
    leaf("run_at", &["run_at"], &[0, 10, 11]),
    leaf("reuse_at", &["reuse_at"], &[0, 10, 11, 12]),
    entry(
        "analyze_palette",
        &["analyze"],
        Kind::Makes,
        &[0, 1, 2, 3, 4, 5, 13],
        &[Sizes, Formats, Depths, Lossless, Qps, Predictors, Entries],
    ),
    entry(
        "analyze_with",
        &["analyze within"],
        Kind::Makes,
        &[0, 1, 2, 3, 4, 5, 7, 13],
        &[Sizes, Formats, Depths, Lossless, Qps, Predictors, Entries],
    ),
    entry(
        "assign_indices",
        &["assign"],
        Kind::Given,
        &[0, 1, 2, 3, 4, 7, 14],
        &[Sizes, Formats, Depths, Lossless, Qps, Entries, Transposed, Escapes],
    ),
    entry(
        "palette_sse",
        &["error figure"],
        Kind::Given,
        &[0, 1, 2, 3, 4, 7],
        &[Sizes, Formats, Depths, Lossless, Qps, Palettes, Transposed, Escaping],
    ),
    entry("update", &["update"], Kind::Own, &[0, 2, 5, 7], &[Sizes, Formats, Depths, Lossless, Predictors, Palettes, Transposed, Escaping]),
    entry(
        "smooth_indices",
        &["smooth"],
        Kind::Given,
        &[0, 1, 2, 3, 4, 7, 15],
        &[Sizes, Formats, Depths, Lossless, Qps, Palettes, Transposed, Escaping],
    ),
    entry("plan_runs", &["plan"], Kind::Own, &[0, 2, 6, 7, 9], &[Sizes, Formats, Depths, Lossless, Palettes, Transposed, Escaping, Runs]),
    entry(
        "write_palette_cu",
        &["write"],
        Kind::Own,
        &[0, 2, 7, 8, 9],
        &[Sizes, Formats, Depths, Lossless, Palettes, Transposed, Escaping, Runs],
    ),
    entry(
        "read_palette_cu",
        &["read", "read back"],
        Kind::Makes,
        &[0, 1, 2, 5, 9, 10, 11, 12],
        &[Sizes, Formats, Depths, Lossless, Predictors, Palettes, Transposed, Escaping, Runs],
    ),
    entry(
        "reconstruct",
        &["reconstruct"],
        Kind::Given,
        &[0, 1, 2, 3, 7],
        &[Sizes, Formats, Depths, Lossless, Qps, Palettes, Transposed, Escaping],
    ),
];

// ---- a call

/// A call that 1 to 7 did not refuse.
struct Facts<'a> {
    size: usize,
    format: usize,
    depths: [i32; 2],
    lossless: bool,
    qps: &'a [i32],
    predictor: usize,
    /// The block that was taken or made, and its runs.
    block: &'a [u16],
    runs: &'a [u32],
}

impl<'a> Facts<'a> {
    fn new(kind: Kind, input: &'a Input, answer: u8, after: &'a Lent) -> Facts<'a> {
        let none = answer == 14 || kind == Kind::Makes && answer != 0;
        let block: &[u16] = if none { &[] } else { &after.block };
        let number = |place: usize| block.get(place).copied().unwrap_or(0);
        let config = |place: usize| input.config.get(place).copied().unwrap_or(0);
        let coded = answer == 0 && block.len() == BLOCK && most_index(block) > 0;
        let runs = if coded { after.count.first().map_or(0, |&count| 4 * count) } else { 0 };
        let (size, format, depths, lossless) = match kind {
            Kind::Own => (
                number(at::SIZE).into(),
                number(at::FORMAT).into(),
                [at::LUMA, at::CHROMA].map(|place| number(place).into()),
                number(at::LOSSLESS) == 1,
            ),
            _ => (input.size(), input.format() as usize, [set::LUMA, set::CHROMA].map(config), config(set::LOSSLESS) == 1),
        };
        Facts {
            size,
            format,
            depths,
            lossless,
            qps: input.config.get(set::QP..set::LOSSLESS).unwrap_or(&[]),
            predictor: input.lent.predictor.first().map_or(0, |&size| size.into()),
            block: if block.len() == BLOCK { block } else { &[] },
            runs: after.runs.get(..runs).unwrap_or(&[]),
        }
    }

    /// How many cells escape where the flag is on.
    fn escaping(&self) -> Option<usize> {
        let cells = &self.block[INDICES..INDICES + self.size * self.size];
        (self.block[at::ESCAPE] == 1).then(|| cells.iter().filter(|&&index| index == self.block[at::ENTRIES]).count())
    }
}

// ---- the parts

const ROOMS: [(usize, usize); 10] = [(0, 0), (1, 1), (2, 7), (8, 15), (16, 31), (32, 63), (64, 64), (65, 126), (127, 127), (128, 128)];
/// Lengths of runs: 1, 2, and from one power of two to the next.
const LENGTHS: usize = 11;
const BUCKETS: usize = 51;

fn length(cells: u32) -> usize {
    cells.next_power_of_two().trailing_zeros() as usize
}

impl Part {
    fn name(self) -> &'static str {
        match self {
            Sizes => "sizes",
            Formats => "formats",
            Depths => "pairs of depths",
            Lossless => "lossless",
            Qps => "QPs of each component",
            Predictors => "predictor sizes",
            Palettes | Entries => "palette sizes",
            Transposed => "transposed",
            Escapes | Escaping => "escapes",
            Runs => "runs",
        }
    }

    /// Whether every run of the comparison has to meet all of it, and not just a long one.
    fn structural(self) -> bool {
        !matches!(self, Qps | Predictors | Palettes | Entries | Runs)
    }

    /// The places of the part, by name.
    fn places(self) -> Vec<String> {
        let named = |names: &[&str]| names.iter().map(|name| name.to_string()).collect();
        let range = |(from, to): (usize, usize)| if from == to { from.to_string() } else { format!("{from} to {to}") };
        match self {
            Sizes => (1..=32).map(|size| size.to_string()).collect(),
            Formats => (0..4).map(|format| format.to_string()).collect(),
            Depths => DEPTHS.iter().flat_map(|luma| DEPTHS.map(|chroma| format!("{luma} and {chroma}"))).collect(),
            Lossless | Transposed | Escapes => named(&["no", "yes"]),
            Qps => ["first", "second", "third"]
                .iter()
                .flat_map(|c| {
                    let buckets = (0..BUCKETS as i32).map(move |k| format!("{c} {} to {}", 4 * k - 128, 4 * k - 125));
                    buckets.chain([QPS.start(), QPS.end()].map(|qp| format!("{c} {qp}")))
                })
                .collect(),
            Predictors => ROOMS.into_iter().map(range).collect(),
            Palettes => (0..=64).map(|size| size.to_string()).collect(),
            Entries => (1..=64).map(|size| size.to_string()).collect(),
            Escaping => named(&["off", "on and no cell", "some cells", "all cells"]),
            Runs => {
                let lengths = (0..LENGTHS).map(|k| range((if k == 0 { 1 } else { (1 << (k - 1)) + 1 }, 1 << k)));
                let kinds =
                    ["index", "above"].into_iter().flat_map(|kind| lengths.clone().map(move |length| format!("{kind} of {length}")));
                let others = [
                    "index in the first row",
                    "index after a copy",
                    "index as the last",
                    "above as the last",
                    "index of 1024",
                    "above of 992",
                    "none",
                ];
                kinds.chain(others.map(String::from)).collect()
            }
        }
    }

    /// Which of its places a call is at.
    fn spots(self, facts: &Facts) -> Vec<usize> {
        let depth = |k: usize| DEPTHS.iter().position(|&depth| i32::from(depth) == facts.depths[k]);
        match self {
            Sizes => vec![facts.size - 1],
            Formats => vec![facts.format],
            Depths => depth(0).zip(depth(1)).map(|(luma, chroma)| luma * DEPTHS.len() + chroma).into_iter().collect(),
            Lossless => vec![facts.lossless.into()],
            Qps => (0..).zip(facts.qps).flat_map(|(c, &qp)| qp_spots(qp).map(move |spot| c * (BUCKETS + 2) + spot)).collect(),
            Predictors => ROOMS.iter().position(|room| (room.0..=room.1).contains(&facts.predictor)).into_iter().collect(),
            _ if facts.block.is_empty() => vec![],
            Palettes => vec![facts.block[at::ENTRIES].into()],
            Entries => vec![usize::from(facts.block[at::ENTRIES]) - 1],
            Transposed => vec![(facts.block[at::TRANSPOSE] == 1).into()],
            Escapes => vec![(facts.block[at::ESCAPE] == 1).into()],
            Escaping => vec![match facts.escaping() {
                None => 0,
                Some(0) => 1,
                Some(cells) if cells < facts.size * facts.size => 2,
                _ => 3,
            }],
            Runs => run_spots(facts),
        }
    }
}

fn qp_spots(qp: i32) -> impl Iterator<Item = usize> {
    let bucket = (qp - QPS.start()) as usize / 4;
    let limit = [QPS.start(), QPS.end()].into_iter().position(|&limit| limit == qp);
    [bucket].into_iter().chain(limit.map(|limit| BUCKETS + limit))
}

fn run_spots(facts: &Facts) -> Vec<usize> {
    let mut spots = Vec::new();
    let runs: Vec<&[u32]> = facts.runs.chunks_exact(4).collect();
    for (k, run) in runs.iter().enumerate() {
        let (above, cells, start) = (run[0] == 1, run[2] + 1, run[3] as usize);
        let mut at = |other: bool, spot: usize| spots.extend(other.then_some(spot));
        at(true, usize::from(above) * LENGTHS + length(cells));
        let others = [
            !above && start < facts.size,
            !above && k > 0 && runs[k - 1][0] == 1,
            !above && k + 1 == runs.len(),
            above && k + 1 == runs.len(),
            !above && cells == 1024,
            above && cells == 992,
        ];
        others.into_iter().zip(2 * LENGTHS..).for_each(|(is, spot)| at(is, spot));
    }
    if runs.is_empty() {
        spots.push(2 * LENGTHS + 6);
    }
    spots
}

// ---- the counts

pub struct Coverage {
    of: HashMap<&'static str, usize>,
    /// For each entry point by answer, and by part and place.
    answers: Vec<[u64; 256]>,
    places: Vec<Vec<Vec<u64>>>,
}

impl Coverage {
    pub fn new() -> Coverage {
        let of = ENTRIES.iter().enumerate().flat_map(|(k, entry)| entry.from.iter().map(move |&from| (from, k))).collect();
        let places = |entry: &Entry| entry.parts.iter().map(|part| vec![0; part.places().len()]).collect();
        Coverage { of, answers: vec![[0; 256]; ENTRIES.len()], places: ENTRIES.iter().map(places).collect() }
    }

    /// Answers of a leaf, by the name of its comparison or of its reader.
    pub fn leaf(&mut self, from: &str, answer: u64, times: u64) {
        if let Some(&k) = self.of.get(from).filter(|&&k| ENTRIES[k].kind == Kind::Leaf) {
            self.answers[k][answer.min(255) as usize] += times;
        }
    }

    /// A call on a block: what it was given, its answer, and the lent memory after it.
    pub fn call(&mut self, from: &str, input: &Input, answer: u8, after: &Lent) {
        let Some(&k) = self.of.get(from) else { return };
        self.answers[k][usize::from(answer)] += 1;
        if (1..=7).contains(&answer) {
            return;
        }
        let facts = Facts::new(ENTRIES[k].kind, input, answer, after);
        for (part, counts) in ENTRIES[k].parts.iter().zip(&mut self.places[k]) {
            part.spots(&facts).into_iter().for_each(|spot| counts[spot] += 1);
        }
    }

    /// How many entry points were called, of how many.
    pub fn entries(&self) -> (usize, usize) {
        (self.answers.iter().filter(|counts| counts.iter().any(|&count| count > 0)).count(), ENTRIES.len())
    }

    /// How many places of the domain were never met, of how many; and how many of them every run has to meet.
    pub fn zeros(&self) -> (usize, usize, usize) {
        let (mut zeros, mut all, mut structural) = (0, 0, 0);
        for ((entry, answers), places) in ENTRIES.iter().zip(&self.answers).zip(&self.places) {
            let never = entry.answers.iter().filter(|&&answer| answers[usize::from(answer)] == 0).count();
            (zeros, all, structural) = (zeros + never, all + entry.answers.len(), structural + never);
            for (part, counts) in entry.parts.iter().zip(places) {
                let never = counts.iter().filter(|&&count| count == 0).count();
                (zeros, all) = (zeros + never, all + counts.len());
                structural += if part.structural() { never } else { 0 };
            }
        }
        (zeros, all, structural)
    }

    /// A line for each entry point with its answers, and one for each part: how many of its places were met, and the one least met.
    pub fn print(&self) {
        println!("coverage of the domain, of each exported function");
        for ((entry, answers), places) in ENTRIES.iter().zip(&self.answers).zip(&self.places) {
            let told: Vec<String> =
                entry.answers.iter().map(|&answer| format!("{answer}: {}", zero(answers[usize::from(answer)]))).collect();
            println!("  velomitra_{}: answers {}", entry.name, told.join(", "));
            for (part, counts) in entry.parts.iter().zip(places) {
                let names = part.places();
                let met = counts.iter().filter(|&&count| count > 0).count();
                let (count, name) = counts.iter().zip(&names).min_by_key(|pair| *pair.0).unwrap();
                println!("    {}: {met} of {} met, least {name}: {}", part.name(), names.len(), zero(*count));
                let never: Vec<&str> = names.iter().zip(counts).filter(|pair| *pair.1 == 0).map(|pair| pair.0.as_str()).collect();
                if !never.is_empty() {
                    println!("      ZERO at {}", never.join("; "));
                }
            }
        }
        let calls = |leaf: bool| -> u64 {
            let of = ENTRIES.iter().zip(&self.answers).filter(|(entry, _)| (entry.kind == Kind::Leaf) == leaf);
            of.map(|(_, counts)| counts.iter().sum::<u64>()).sum()
        };
        println!("{} calls on blocks, {} of leaves", calls(false), calls(true));
        let (zeros, all, _) = self.zeros();
        println!("{all} places of the domain, {zeros} of them at zero");
    }
}

fn zero(count: u64) -> String {
    if count == 0 {
        "ZERO".into()
    } else {
        count.to_string()
    }
}
