//! Blocks read from bins: source 000's bins read back, and spoilt lists held to the second reading.

use crate::blocks::{at, drawn, given, set, side, triples, Call, Input, Op, BLOCK, FLAGS, INDICES, LEVELS, PALETTE};
use crate::draw::{one_in, one_of, up_to};
use crate::port;
use crate::refusals::{self, Edit};
use crate::report::{Random, Report};
use crate::second::{self, position, Cause, Element, Refused, Told};
use crate::write;
use std::cell::RefCell;
use std::collections::BTreeMap;
use std::rc::Rc;

fn port(input: &mut Input) -> u8 {
    let config = |place: usize| input.config[place] as u8;
    let (format, luma, chroma, lossless) = (config(set::FORMAT), config(set::LUMA), config(set::CHROMA), input.config[set::LOSSLESS] == 1);
    let lent = &mut input.lent;
    let lists = (&mut lent.block, &mut lent.runs, &mut lent.count, &mut lent.used, &mut lent.place);
    let size = input.source[side::SIZE];
    port::read_palette_cu(&lent.bins, size, format, luma, chroma, lossless, &lent.predictor, lists.0, lists.1, lists.2, lists.3, lists.4)
}

/// What both readings are told; a predictor entry that is missing is 0.
pub fn told(input: &Input) -> Told {
    let config = |place: usize| usize::from(input.config[place] as u8);
    let known = triples(input.lent.predictor.get(1..).unwrap_or(&[]));
    let entries = input.lent.predictor.first().map_or(0, |&size| usize::from(size));
    Told {
        size: input.source[side::SIZE],
        format: config(set::FORMAT),
        luma_depth: config(set::LUMA),
        chroma_depth: config(set::CHROMA),
        lossless: input.config[set::LOSSLESS] == 1,
        predictor: (0..entries).map(|k| known.get(k).copied().unwrap_or([0; 3])).collect(),
        room: input.lent.runs.len() / 4,
    }
}

/// A block that was read, as a list of numbers.
fn flat(told: &Told, block: &second::Block) -> Vec<u16> {
    let mut list = vec![0; BLOCK];
    let head = [
        told.size,
        told.format,
        told.luma_depth,
        told.chroma_depth,
        told.lossless.into(),
        block.palette.len(),
        block.reused.len(),
        block.signalled,
    ];
    let flags = [block.escape, block.transpose].map(usize::from);
    for (number, from) in list.iter_mut().zip(head.into_iter().chain(flags)) {
        *number = from as u16;
    }
    for (numbers, entry) in list[PALETTE..].chunks_exact_mut(3).zip(&block.palette) {
        numbers.copy_from_slice(entry);
    }
    for (number, &flag) in list[FLAGS..].iter_mut().zip(&block.reused) {
        *number = flag.into();
    }
    for (number, &index) in list[INDICES..].iter_mut().zip(&block.indices) {
        *number = index as u16;
    }
    for (numbers, levels) in list[LEVELS..].chunks_exact_mut(3).zip(&block.levels) {
        numbers.copy_from_slice(&levels.map(|level| level as u16));
    }
    list
}

fn first<T>(list: &mut [T], value: T) {
    list.iter_mut().take(1).zip([value]).for_each(|(place, value)| *place = value);
}

/// Any bins, against the second reading.
pub struct Read;

impl Op for Read {
    const NAME: &'static str = "read";

    fn source(input: &mut Input) -> u8 {
        let told = told(input);
        let lent = &mut input.lent;
        match second::read(&lent.bins, &told) {
            Ok(block) => {
                lent.block.iter_mut().zip(flat(&told, &block)).for_each(|(place, number)| *place = number);
                for (numbers, run) in lent.runs.chunks_exact_mut(4).zip(&block.runs) {
                    numbers.copy_from_slice(&[run.copy_above.into(), run.sent, run.length as u32 - 1, run.start as u32]);
                }
                first(&mut lent.count, block.runs.len());
                first(&mut lent.used, block.used);
                0
            }
            Err(refused) => {
                first(&mut lent.place, refused.place);
                refused.cause.number()
            }
        }
    }

    fn port(input: &mut Input) -> u8 {
        port(input)
    }
}

/// Source 000's bins, against the block and the runs that it wrote: those are what is lent.
pub struct Back;

impl Op for Back {
    const NAME: &'static str = "read back";

    fn source(input: &mut Input) -> u8 {
        let lent = &mut input.lent;
        let runs = lent.count[0];
        lent.block = sent(&lent.block);
        first(&mut lent.count, runs);
        // bins of no class stand after the block's
        let used = lent.bins.iter().rposition(|&bin| bin != AFTER).map_or(0, |last| last + 1);
        first(&mut lent.used, used);
        0
    }

    fn port(input: &mut Input) -> u8 {
        let runs = 4 * input.lent.count[0];
        input.lent.runs[..runs].fill(77);
        port(input)
    }
}

/// The second reading itself, against the same.
pub struct Second;

impl Op for Second {
    const NAME: &'static str = "second reading";

    fn source(input: &mut Input) -> u8 {
        Back::source(input)
    }

    fn port(input: &mut Input) -> u8 {
        let runs = 4 * input.lent.count[0];
        input.lent.runs[..runs].fill(77);
        Read::source(input)
    }
}

/// A byte of no class, for what stands after a block.
const AFTER: u8 = 97;

/// Of a block, what its bins tell: the rest is 0 or off.
fn sent(block: &[u16]) -> Vec<u16> {
    let mut list = block.to_vec();
    let (size, entries, flags) = (usize::from(list[at::SIZE]), usize::from(list[at::ENTRIES]), usize::from(list[at::FLAGS]));
    let coded = write::most_index(&list) > 0;
    list[at::TRANSPOSE] *= u16::from(coded);
    list[at::TOLERANCE..PALETTE].fill(0);
    list[PALETTE + 3 * entries..FLAGS].fill(0);
    list[FLAGS + flags..INDICES].fill(0);
    list[INDICES + size * size..LEVELS].fill(0);
    let escape = list[at::ESCAPE] == 1;
    for k in 0..LEVELS - INDICES {
        let (x, y) = position(k, size);
        let chroma = match list[at::FORMAT] {
            0 => false,
            1 => x % 2 == 0 && y % 2 == 0,
            2 => (if list[at::TRANSPOSE] == 1 { y } else { x }) % 2 == 0,
            _ => true,
        };
        let cell = escape && k < size * size && usize::from(list[INDICES + k]) == entries;
        for c in 0..3 {
            list[LEVELS + 3 * k + c] *= u16::from(cell && (c == 0 || chroma));
        }
    }
    list
}

// ---- bins that source 000 wrote

/// A block with its runs and bins, in memory that a reader may be lent.
fn written(mut input: Input, runs: &[[u32; 4]], after: usize) -> Input {
    let block = &input.lent.block;
    let list = [usize::from(block[at::FORMAT] != 0) * 2 + 1, block[at::FORMAT].into(), block[at::LUMA].into(), block[at::CHROMA].into()];
    input.config = list.into_iter().map(|n| n as i32).chain([0, 0, 0, block[at::LOSSLESS].into()]).collect();
    input.source = vec![0, 0, 0, 0, 0, 0, block[at::SIZE].into()];
    let cells = usize::from(block[at::SIZE]).pow(2);
    let mut bins = write::source_bins(&input.lent, runs);
    bins.extend(vec![AFTER; after]);
    let lent = &mut input.lent;
    lent.runs = runs.concat();
    lent.runs.resize(4 * cells, 77);
    (lent.count, lent.bins, lent.used, lent.place) = (vec![runs.len()], bins, vec![5], vec![6]);
    input
}

/// Any block that source 000 writes, small ones more often if they are to be spoilt.
fn readable(random: &mut Random, most_cells: usize) -> Input {
    loop {
        let mut case = write::block(random);
        if usize::from(case.lent.block[at::SIZE]).pow(2) > most_cells {
            continue;
        }
        if usize::from(case.lent.predictor[0]) != usize::from(case.lent.block[at::FLAGS]) {
            write::agreeing(random, &mut case.lent);
        }
        let runs = write::run_list(random, &case.lent);
        let after = up_to(random, 2);
        return written(case, &runs, after);
    }
}

// ---- spoilt lists

/// A byte of any class, of none, or any at all.
fn any_bin(random: &mut Random) -> u8 {
    match random.below(8) {
        0 => random.next() as u8,
        1..=3 => random.below(23) as u8,
        _ => random.below(2) as u8,
    }
}

/// The same call with other bins.
fn with_bins(base: &Input, bins: Vec<u8>) -> Input {
    let mut case = base.clone();
    case.lent.bins = bins;
    case
}

/// Lists cut at every place.
fn cuts(base: Input) -> impl Iterator<Item = Input> {
    (0..=base.lent.bins.len()).map(move |k| with_bins(&base, base.lent.bins[..k].to_vec()))
}

/// Each bin turned.
fn turned(base: Input) -> impl Iterator<Item = Input> {
    (0..base.lent.bins.len()).map(move |k| {
        let mut bins = base.lent.bins.clone();
        bins[k] ^= 1;
        with_bins(&base, bins)
    })
}

/// Each bin in turn a bin of each class, and of none.
fn replaced(base: Input) -> impl Iterator<Item = Input> {
    let bytes = 25;
    (0..base.lent.bins.len() * bytes).map(move |k| {
        let mut bins = base.lent.bins.clone();
        let byte = k % bytes;
        bins[k / bytes] = if byte == 24 { 255 } else { byte as u8 };
        with_bins(&base, bins)
    })
}

/// A bin more at any place, a bin less, a stretch less or twice, bins moved, several of these.
fn mixed(random: &mut Random, base: &Input) -> Input {
    let mut bins = base.lent.bins.clone();
    for _ in 0..1 + random.below(4) {
        let k = up_to(random, bins.len());
        let end = (k + up_to(random, 12)).min(bins.len());
        match random.below(8) {
            0 | 1 => bins.insert(k, any_bin(random)),
            2 if k < bins.len() => drop(bins.remove(k)),
            3 => drop(bins.drain(k..end)),
            4 => {
                let twice = bins[k..end].to_vec();
                bins.splice(k..k, twice);
            }
            5 if k < bins.len() => bins[k] ^= 1,
            6 if k < bins.len() => bins[k] = any_bin(random),
            _ => bins.truncate(k),
        }
    }
    with_bins(base, bins)
}

/// Bytes of nothing.
fn noise(random: &mut Random, base: &Input) -> Input {
    let length = up_to(random, 200);
    let plain = one_in(random, 4);
    let often = 1 + random.below(5);
    let bins = (0..length).map(|_| match plain {
        true => random.next() as u8,
        false if random.below(often) > 0 => random.below(2) as u8,
        false => any_bin(random),
    });
    let bins = bins.collect();
    with_bins(base, bins)
}

/// A list that is made as it is read: at each refusal by 10 a bin more, at each by 11 another one, so that what is accepted or refused by 12 lies deep.
fn grown(random: &mut Random, base: &Input) -> Input {
    let mut case = with_bins(base, vec![]);
    let told = told(&case);
    let ones = 1 + random.below(7);
    let long = one_of(
        random,
        &[Element::PredictorRun, Element::SignalledEntries, Element::IndexCount, Element::EscapeValue, Element::RunPrefix, Element::None],
    );
    let end = 40 + up_to(random, 400);
    while case.lent.bins.len() < end {
        let bins = &mut case.lent.bins;
        let Err(Refused { cause, element, place }) = second::read(bins, &told) else { break };
        let bin = match element {
            _ if element == long => !one_in(random, 40),
            Element::PredictorRun | Element::SignalledEntries => one_in(random, 3),
            _ => random.below(8) < ones,
        };
        let bin = u8::from(bin);
        let byte = match element {
            Element::FinalRunFlag | Element::RunType => 2 + bin,
            Element::TransposeFlag => 4 + bin,
            Element::Marker => 22,
            Element::RunPrefix if one_in(random, 9) => bin,
            Element::RunPrefix => 6 + 2 * random.below(8) as u8 + bin,
            _ => bin,
        };
        match cause {
            Cause::Ended => bins.push(byte),
            Cause::Class => bins[place] = byte,
            _ => break,
        }
    }
    case
}

/// A predictor of another call, or none.
fn other_call(random: &mut Random, mut case: Input) -> Input {
    match random.below(12) {
        0 => case.lent.set_entries(&[]),
        1 => case.source[side::SIZE] = 2 * (1 + up_to(random, 3)),
        2 => case.config[set::LOSSLESS] ^= 1,
        3 => case.config[set::LUMA] = one_of(random, &[8, 10, 12]),
        _ => (),
    }
    let cells = case.source[side::SIZE].pow(2);
    case.lent.runs.resize(4 * cells.max(case.lent.runs.len() / 4), 77);
    let depth = case.config[set::LUMA];
    case.lent.predictor.iter_mut().skip(1).step_by(3).for_each(|y| *y &= (1 << depth) - 1);
    case
}

// ---- what the answers were

/// How often each answer came, and each ground of 10, 11 and 12.
#[derive(Default)]
struct Tally(BTreeMap<(u8, String), usize>);

impl Tally {
    fn add(&mut self, input: &Input) {
        let key = match second::read(&input.lent.bins, &told(input)) {
            Ok(block) if block.used < input.lent.bins.len() => (0, "a block, bins after it".into()),
            Ok(_) => (0, "a block to the list's end".into()),
            Err(r) if r.cause.number() < 12 => (r.cause.number(), format!("{:?} at {:?}", r.cause, r.element)),
            Err(r) if r.cause == Cause::SeventeenthOne => (12, format!("{:?} at {:?}", r.cause, r.element)),
            Err(r) => (12, format!("{:?}", r.cause)),
        };
        *self.0.entry(key).or_default() += 1;
    }

    fn print(&self, name: &str) {
        for number in [0, 10, 11, 12] {
            let of = |pair: &(&(u8, String), &usize)| pair.0 .0 == number;
            let all: usize = self.0.iter().filter(of).map(|pair| pair.1).sum();
            println!("{name}: answer {number}: {all} lists");
            for ((_, ground), count) in self.0.iter().filter(of) {
                println!("  {count:8} {ground}");
            }
        }
    }
}

// ---- refusals

/// The base's block written, and then lent to its reader.
fn base_bins(i: &mut Input) {
    let runs = crate::runs::greedy(&crate::runs::Ways::new(&write::map(&i.lent.block)));
    *i = written(i.clone(), &runs, 1);
    i.lent.block.fill(3);
}

pub fn edits() -> Vec<Edit> {
    let mut edits = vec![
        Edit::new("the bins as they are", 3, 0, |_| ()),
        Edit::new("format 4", 3, 1, |i| i.config[set::FORMAT] = 4),
        Edit::new("format 255", 3, 1, |i| i.config[set::FORMAT] = 255),
        Edit::new("luma of 9 bits", 3, 1, |i| i.config[set::LUMA] = 9),
        Edit::new("luma of 0 bits", 3, 1, |i| i.config[set::LUMA] = 0),
        Edit::new("chroma of 14 bits", 3, 1, |i| i.config[set::CHROMA] = 14),
        Edit::new("chroma of 9 bits in format 0", 0, 1, |i| i.config[set::CHROMA] = 9),
        Edit::new("size 0", 3, 2, |i| i.source[side::SIZE] = 0),
        Edit::new("size 33", 3, 2, |i| i.source[side::SIZE] = 33),
        Edit::new("size without end", 3, 2, |i| i.source[side::SIZE] = usize::MAX),
        Edit::new("size 3 in format 1", 1, 2, |i| i.source[side::SIZE] = 3),
        Edit::new("size 3 in format 2", 2, 2, |i| i.source[side::SIZE] = 3),
        Edit::new("room for fifteen runs", 3, 9, |i| i.lent.runs.truncate(63)),
        Edit::new("room for sixteen runs", 3, 0, |i| i.lent.runs.truncate(64)),
        Edit::new("no room", 3, 9, |i| i.lent.runs.clear()),
        Edit::new("no room where nothing is coded", 0, 9, |i| {
            i.lent.bins = vec![0, 0, 0, 0, 0, 0, 0, 0, 0, 0, 0, 0];
            i.lent.runs.truncate(60);
        }),
        Edit::new("no bins", 3, 0, |i| i.lent.bins.clear()),
        Edit::new("no memory for what is read", 3, 0, |i| {
            i.lent.block.clear();
            (i.lent.count, i.lent.used) = (vec![], vec![]);
        }),
        Edit::new("format and size", 3, 1, |i| (i.config[set::FORMAT], i.source[side::SIZE]) = (4, 0)),
        Edit::new("format and predictor", 3, 1, |i| (i.config[set::LUMA], i.lent.predictor[0]) = (9, 129)),
        Edit::new("size and predictor", 3, 2, |i| (i.source[side::SIZE], i.lent.predictor[0]) = (0, 129)),
        Edit::new("size and room", 3, 2, |i| {
            i.source[side::SIZE] = 33;
            i.lent.runs.clear();
        }),
        Edit::new("predictor and room", 3, 5, |i| {
            i.lent.predictor[0] = 129;
            i.lent.runs.clear();
        }),
        Edit::new("room and bins", 3, 9, |i| {
            i.lent.runs.clear();
            i.lent.bins.clear();
        }),
        Edit::new("predictor and bins", 3, 5, |i| {
            i.lent.predictor[0] = 129;
            i.lent.bins = vec![255];
        }),
    ];
    edits.extend(refusals::predictor());
    edits
}

/// The base's bins with a change, against the second reading, whose refusal is the one named.
fn refusals() -> impl Iterator<Item = Call<Read>> {
    edits().into_iter().map(|edit| {
        let mut input = refusals::base(edit.format);
        base_bins(&mut input);
        (edit.change)(&mut input);
        let number = Read::source(&mut input.clone());
        assert!(edit.due == 0 || edit.due == number, "{}: {} is due and not {number}", edit.what, edit.due);
        Call::new(input)
    })
}

pub fn compare(report: &mut Report) {
    let count = report.blocks;
    let small = || write::small().chain(write::escapes());
    let kept = |case: Input| {
        let runs: Vec<[u32; 4]> = case.lent.runs.chunks_exact(4).map(|run| [run[0], run[1], run[2], run[3]]).collect();
        written(case, &runs, 1)
    };
    given::<Second>(report, "second-small", small().map(kept));
    drawn::<Second>(report, "second", |random| readable(random, 1024));
    given::<Back>(report, "read-back-small", small().map(kept));
    given::<Back>(report, "read-back-even", write::long().map(kept));
    drawn::<Back>(report, "read-back", |random| readable(random, 1024));
    given::<Back>(report, "read-back-longest", [write::longest()].map(kept));
    report.compare("read-refusals", report.once(refusals()));

    let tally = Rc::new(RefCell::new(Tally::default()));
    let told = |tally: &Rc<RefCell<Tally>>| {
        let tally = tally.clone();
        move |case: Input| {
            tally.borrow_mut().add(&case);
            Call::<Read>::new(case)
        }
    };
    let mut random = report.random("read-cut");
    report.compare("read-cut", std::iter::repeat_with(move || readable(&mut random, 64)).flat_map(cuts).take(count).map(told(&tally)));
    let mut random = report.random("read-turned");
    report.compare("read-turned", std::iter::repeat_with(move || readable(&mut random, 64)).flat_map(turned).take(count).map(told(&tally)));
    let mut random = report.random("read-replaced");
    report.compare(
        "read-replaced",
        std::iter::repeat_with(move || readable(&mut random, 36)).flat_map(replaced).take(2 * count).map(told(&tally)),
    );
    let mut random = report.random("read-mixed");
    let mixed = (0..2 * count).map(move |_| {
        let base = readable(&mut random, 1024);
        let case = mixed(&mut random, &base);
        other_call(&mut random, case)
    });
    report.compare("read-mixed", mixed.map(told(&tally)));
    let mut random = report.random("read-noise");
    let noise = (0..count).map(move |_| {
        let base = readable(&mut random, 64);
        noise(&mut random, &base)
    });
    report.compare("read-noise", noise.map(told(&tally)));
    let mut random = report.random("read-grown");
    let grown = (0..count).map(move |_| {
        let base = readable(&mut random, 64);
        let base = other_call(&mut random, base);
        grown(&mut random, &base)
    });
    report.compare("read-grown", grown.map(told(&tally)));
    if report.is_first() && !tally.borrow().0.is_empty() {
        tally.borrow().print("spoilt lists");
    }
}
