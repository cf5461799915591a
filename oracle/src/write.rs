//! Bins of whole blocks, byte for byte: on planned runs, on other run lists that keep the rules, and on broken ones.

use crate::bins::Bins;
use crate::blocks::{at, drawn, given, triples, Call, Input, Lent, Op, BLOCK, FLAGS, INDICES, LEVELS, LIMIT, MOST_ENTRIES, PALETTE};
use crate::draw::{analysed, assigned, input, one_in, one_of, up_to, whole};
use crate::palette::harness::blocks as private;
use crate::palette::{plan_runs, write_palette_cu, PaletteConfig};
use crate::plan::{even, maps, own, rates};
use crate::port;
use crate::refusals::{self, refused, Edit};
use crate::report::{Random, Report};
use crate::runs::{self, Map, Run, Ways};
use crate::second::above;
use std::cell::RefCell;

/// The run list is `runs`, of which `count` are told.
pub struct Write;

impl Op for Write {
    const NAME: &'static str = "write";

    /// Source 000 tests no run list and its bin list has no end: 8 is due by the rules, 9 where the caller's list is too short.
    fn source(input: &mut Input) -> u8 {
        let runs = told(&input.lent);
        if most_index(&input.lent.block) > 0 && !runs.as_ref().is_some_and(|runs| map(&input.lent.block).keeps(runs)) {
            return 8;
        }
        let bins = source_bins(&input.lent, &runs.unwrap_or_default());
        let lent = &mut input.lent;
        if lent.bins.len() < bins.len() {
            return 9;
        }
        lent.bins[..bins.len()].copy_from_slice(&bins);
        lent.used.iter_mut().take(1).for_each(|used| *used = bins.len());
        0
    }

    fn port(input: &mut Input) -> u8 {
        let lent = &mut input.lent;
        port::write_palette_cu(&lent.block, &lent.runs, lent.count[0], &mut lent.bins, &mut lent.used)
    }
}

// ---- a block's parts

/// The runs told: a number that is missing is 0; none of so many that no block has them.
fn told(lent: &Lent) -> Option<Vec<Run>> {
    let number = |k: usize| lent.runs.get(k).copied().unwrap_or(0);
    (lent.count[0] <= 1024).then(|| (0..lent.count[0]).map(|k| [0, 1, 2, 3].map(|place| number(4 * k + place))).collect())
}

pub fn map(block: &[u16]) -> Map {
    let size = usize::from(block[at::SIZE]);
    Map { size, indices: block[INDICES..INDICES + size * size].to_vec() }
}

pub fn most_index(block: &[u16]) -> i32 {
    i32::from(block[at::ENTRIES]) - 1 + i32::from(block[at::ESCAPE] == 1)
}

/// What source 000 keeps apart from the block.
pub fn config(block: &[u16]) -> PaletteConfig {
    let (comps, sub_w, sub_h) = [(1, 1, 1), (3, 2, 2), (3, 2, 1), (3, 1, 1)][usize::from(block[at::FORMAT])];
    PaletteConfig {
        num_comps: comps,
        chroma_idc: block[at::FORMAT] as u8,
        sub_w,
        sub_h,
        bd_luma: block[at::LUMA] as u8,
        bd_chroma: block[at::CHROMA] as u8,
        qp: [0; 3],
        lossless: block[at::LOSSLESS] == 1,
    }
}

/// The origin is any even one: it decides nothing then.
pub fn source_bins(lent: &Lent, runs: &[Run]) -> Vec<u8> {
    let config = config(&lent.block);
    let cu = lent.source_cu(config.num_comps);
    let (x0, y0) = (2 * (lent.block[PALETTE] as usize), 2 * runs.len());
    Bins::of(|bins| write_palette_cu(bins, &cu, &config, x0, y0, &private::runs(runs)))
}

// ---- blocks

/// A block of the caller's own as an input, with no runs and no bins yet.
pub fn plain(block: Vec<u16>) -> Input {
    let mut case = Input { config: vec![0; 8], source: vec![0; 7], ..Input::default() };
    case.lent.block = block;
    case
}

/// Indices that often are those of the cell before or above, and levels at the limits where they escape.
fn mapped(random: &mut Random, block: &mut [u16]) {
    let (size, entries) = (usize::from(block[at::SIZE]), usize::from(block[at::ENTRIES]));
    let most = most_index(block) as usize;
    let values = if one_in(random, 2) { most } else { most.min(3) };
    let kinds = 2 + random.below(20);
    for k in 0..size * size {
        let fresh = (most - up_to(random, values)) as u16;
        block[INDICES + k] = match random.below(kinds) {
            0 => fresh,
            1..=6 if k >= size => block[INDICES + above(k, size)],
            _ if k > 0 => block[INDICES + k - 1],
            _ => fresh,
        };
        if usize::from(block[INDICES + k]) == entries {
            levels(random, block, k);
        }
    }
}

fn levels(random: &mut Random, block: &mut [u16], k: usize) {
    for c in 0..3 {
        let depth = block[if c == 0 { at::LUMA } else { at::CHROMA }];
        let most = if block[at::LOSSLESS] == 1 { (1 << depth) - 1 } else { 32767 };
        let any = random.wide() as u16;
        let level = one_of(random, &[0, 1, 7, 8, 23, 24, 55, 56, 247, 248, 504, 1016, 8184, 16376, 32760, 32766, 32767, any]);
        block[LEVELS + 3 * k + c] = level.min(most);
    }
}

/// A predictor of which the flagged entries are those that the palette starts with.
pub fn agreeing(random: &mut Random, lent: &mut Lent) {
    let block = &lent.block;
    let config = config(block);
    let mut old = triples(&block[PALETTE..FLAGS]).into_iter();
    let mut entry = |flag: u16| match flag {
        1 => old.next().unwrap(),
        _ => std::array::from_fn(|c| match c {
            0 => random.below(1 << config.bd_luma) as u16,
            _ if config.chroma_idc == 0 => 0,
            _ => random.below(1 << config.bd_chroma) as u16,
        }),
    };
    let entries: Vec<[u16; 3]> = block[FLAGS..FLAGS + usize::from(block[at::FLAGS])].iter().map(|&flag| entry(flag)).collect();
    lent.set_entries(&entries);
}

/// Blocks that source 000 made, and blocks of any make.
pub fn block(random: &mut Random) -> Input {
    let case = input(random);
    if one_in(random, 4) {
        if let Some(made) = analysed(case.clone()).and_then(assigned) {
            return made;
        }
    }
    let mut made = whole(random, case);
    if !one_in(random, 4) {
        mapped(random, &mut made.lent.block);
    }
    if one_in(random, 8) {
        full(random, &mut made.lent.block);
    }
    agreeing(random, &mut made.lent);
    made
}

/// 64 entries, most or all of them reused.
fn full(random: &mut Random, block: &mut [u16]) {
    if usize::from(block[at::ENTRIES]) != LIMIT {
        return;
    }
    let signaled = if one_in(random, 2) { 0 } else { up_to(random, 3) };
    let mut left = LIMIT - signaled;
    for k in 0..MOST_ENTRIES {
        let on = left > 0 && (MOST_ENTRIES - k <= left || one_in(random, 2));
        block[FLAGS + k] = on.into();
        left -= usize::from(on);
    }
    (block[at::FLAGS], block[at::SIGNALED]) = (MOST_ENTRIES as u16, signaled as u16);
}

// ---- run lists

/// Source 000's plan at any rates.
pub fn planned(random: &mut Random, lent: &Lent) -> Vec<Run> {
    let mut runs = Vec::new();
    plan_runs(&lent.source_cu(3), &private::model(&rates(random)), &mut runs);
    runs.iter().map(private::run).collect()
}

/// Planned, greedy or any runs.
pub fn run_list(random: &mut Random, lent: &Lent) -> Vec<Run> {
    if most_index(&lent.block) <= 0 {
        return vec![];
    }
    let map = map(&lent.block);
    match random.below(4) {
        0 | 1 => planned(random, lent),
        2 => runs::greedy(&Ways::new(&map)),
        _ => runs::drawn(&Ways::new(&map), random),
    }
}

/// Room in which the port writes a block without escapes straight onto the list: so much, and so much for each run.
const STRAIGHT: [usize; 2] = [16_451, 97];

/// The runs lent with their count, and room for as many bins as source 000 sends and so many more.
pub fn lend(input: &mut Input, runs: &[Run], more: usize) {
    let length = source_bins(&input.lent, runs).len();
    let lent = &mut input.lent;
    (lent.runs, lent.count) = (runs.concat(), vec![runs.len()]);
    (lent.bins, lent.used) = (vec![99; length + more], vec![7]);
}

fn writable(random: &mut Random) -> Input {
    let mut case = block(random);
    let runs = run_list(random, &case.lent);
    lend(&mut case, &runs, 3);
    match random.below(16) {
        0 => drop(case.lent.bins.drain(..3)),
        1 => drop(case.lent.bins.drain(..4.min(case.lent.bins.len()))),
        2 => case.lent.bins.truncate(random.below(30) as usize),
        3 => case.lent.used.clear(),
        4 => case.lent.runs.extend([3; 5]),
        5 if runs.is_empty() => (case.lent.runs, case.lent.count) = (vec![1; 9], vec![random.wide() as usize]),
        6 => case.lent.bins.resize(STRAIGHT[0] + STRAIGHT[1] * runs.len() - random.below(2) as usize, 99),
        _ => (),
    }
    case
}

/// Run lists with one change, on small blocks and large ones.
fn broken(random: &mut Random, how: u64) -> Input {
    loop {
        let mut case = block(random);
        let runs = run_list(random, &case.lent);
        if !runs.is_empty() {
            lend(&mut case, &runs, 3);
            let (numbers, count) = runs::broken(&runs, how, random);
            (case.lent.runs, case.lent.count) = (numbers, vec![count]);
            return case;
        }
    }
}

/// All maps of size 2 with M from 0 to 4 and of size 3 with M 1, each with all run lists that keep the rules.
pub fn small() -> impl Iterator<Item = Input> {
    let two = (0..=4).flat_map(|most| maps(2, most));
    two.chain(maps(3, 1)).flat_map(|block| {
        let lists = match most_index(&block) {
            0 => vec![vec![]],
            _ => Ways::new(&map(&block)).lists(),
        };
        lists.into_iter().map(move |runs| {
            let mut case = plain(block.clone());
            lend(&mut case, &runs, 1);
            case
        })
    })
}

/// Maps of one index and of columns, in the longest runs.
pub fn long() -> impl Iterator<Item = Input> {
    even().map(|block| {
        let runs = runs::greedy(&Ways::new(&map(&block)));
        let mut case = plain(block);
        lend(&mut case, &runs, 1);
        case
    })
}

/// Each set of escapes of size 2, in each format, transposed or not, lossless or not, with one entry or none.
pub fn escapes() -> impl Iterator<Item = Input> {
    (0..4 * 2 * 2 * 17).map(|word: u16| {
        let (format, transpose, lossless, set) = (word % 4, word / 4 % 2, word / 8 % 2, word / 16);
        let cells: [u16; 4] = std::array::from_fn(|k| if set == 16 { 0 } else { set >> k & 1 });
        let mut block = own(2, usize::from(set != 16), true, &cells);
        (block[at::FORMAT], block[at::LOSSLESS]) = (format, lossless);
        block[at::TRANSPOSE] = if set == 16 { 0 } else { transpose };
        for k in 0..12 {
            block[LEVELS + k] = [255, 0, 7, 8, 200, 24, 1, 56][(k + usize::from(word)) % 8];
        }
        let runs = if set == 16 { vec![] } else { runs::greedy(&Ways::new(&map(&block))) };
        let mut case = plain(block);
        lend(&mut case, &runs, 1);
        case
    })
}

/// The most bins that a block has.
pub const LONGEST: usize = 88_378;

pub fn longest() -> Input {
    let mut block = vec![0; BLOCK];
    (block[at::SIZE], block[at::FORMAT], block[at::LUMA], block[at::CHROMA]) = (32, 3, 12, 12);
    (block[at::ENTRIES], block[at::SIGNALED], block[at::FLAGS], block[at::ESCAPE]) = (64, 64, 128, 1);
    block[PALETTE..FLAGS].fill(4095);
    block[INDICES..LEVELS].fill(64);
    block[LEVELS..].fill(32767);
    let mut case = plain(block);
    case.lent.set_entries(&[[4095; 3]; MOST_ENTRIES]);
    let longest = |runs: &[Run]| source_bins(&case.lent, runs).len();
    let map = map(&case.lent.block);
    let all = Ways::new(&map);
    // one run, runs of the least length, or any in between
    let lists = [runs::greedy(&all), all.list(|runs| *runs.iter().min_by_key(|run| run.1).unwrap()), all.list(|runs| runs[runs.len() / 2])];
    let runs = lists.into_iter().max_by_key(|runs| longest(runs)).unwrap();
    lend(&mut case, &runs, 0);
    case
}

// ---- refusals

/// The runs of the base's block by the greedy rule, so that the block's own refusals stand alone.
fn base_runs(i: &mut Input) {
    let runs = runs::greedy(&Ways::new(&map(&i.lent.block)));
    lend(i, &runs, 0);
}

pub fn edits() -> Vec<Edit> {
    let given = |edits: Vec<Edit>| edits.into_iter().filter(|edit| edit.due != 0);
    let mut edits: Vec<Edit> = given(refusals::block_size()).chain(given(refusals::whole())).collect();
    edits.extend([
        Edit::new("the block as it is", 3, 0, base_runs),
        Edit::new("no runs", 3, 8, |i| {
            base_runs(i);
            i.lent.count[0] = 0;
        }),
        Edit::new("a run less than told", 3, 8, |i| {
            base_runs(i);
            i.lent.count[0] += 1;
        }),
        Edit::new("1025 runs", 3, 8, |i| {
            base_runs(i);
            i.lent.count[0] = 1025;
        }),
        Edit::new("runs without end where nothing is coded", 0, 0, |i| {
            i.lent.block = own(2, 1, false, &[0; 4]);
            lend(i, &[], 0);
            i.lent.count[0] = usize::MAX;
        }),
        Edit::new("a list one bin short", 3, 9, |i| {
            base_runs(i);
            i.lent.bins.pop();
        }),
        Edit::new("a list of no bins", 3, 9, |i| {
            base_runs(i);
            i.lent.bins.clear();
        }),
        Edit::new("a list one bin long", 3, 0, |i| {
            base_runs(i);
            i.lent.bins.push(98);
        }),
        Edit::new("size and block", 3, 2, |i| {
            base_runs(i);
            i.lent.block[at::SIZE] = 33;
            i.lent.block[at::TOLERANCE] = 17;
        }),
        Edit::new("size and runs", 3, 2, |i| {
            base_runs(i);
            i.lent.block[at::SIZE] = 0;
            i.lent.count[0] = 0;
        }),
        Edit::new("block and runs", 3, 7, |i| {
            base_runs(i);
            i.lent.block[at::TOLERANCE] = 17;
            i.lent.count[0] = 0;
        }),
        Edit::new("block and bins", 3, 7, |i| {
            base_runs(i);
            i.lent.block[at::TOLERANCE] = 17;
            i.lent.bins.clear();
        }),
        Edit::new("runs and bins", 3, 8, |i| {
            base_runs(i);
            i.lent.count[0] -= 1;
            i.lent.bins.clear();
        }),
    ]);
    edits
}

/// A refused block still has its lists: those of the base.
fn lent(mut edit: crate::blocks::Refusal<Write>) -> crate::blocks::Refusal<Write> {
    let lent = &mut edit.call.input.lent;
    if lent.bins.is_empty() && lent.used.is_empty() {
        (lent.count, lent.bins, lent.used) = (vec![16], vec![98; 40], vec![7]);
    }
    edit
}

pub fn compare(report: &mut Report) {
    given::<Write>(report, "write-small", small());
    given::<Write>(report, "write-escapes", escapes());
    given::<Write>(report, "write-even", long());
    drawn::<Write>(report, "write", writable);
    let most = longest();
    assert_eq!(most.lent.bins.len(), LONGEST);
    given::<Write>(report, "write-longest", [most]);
    let mut random = report.random("write-broken");
    let due = RefCell::new([0; 16]);
    let cases = (0..report.blocks as u64).map(|k| {
        let case = broken(&mut random, k % runs::BREAKS);
        due.borrow_mut()[usize::from(Write::source(&mut case.clone()))] += 1;
        Call::<Write>::new(case)
    });
    report.compare("write-broken", cases);
    let (all, broken) = (due.borrow().iter().sum::<usize>(), due.borrow()[8]);
    if all > 0 {
        println!("broken run lists: {broken} refused by 8, {} that still keep the rules", all - broken);
    }
    report.compare("write-refusals", report.once(refused::<Write>(edits()).map(lent)));
}
