//! The fixed list of calls on whole blocks: small blocks and refusals, with source 000's answers or the refusals that are due, for the program `answers_block`.

use crate::analysis::{self, Analyze, Within};
use crate::assign::{self, Assign, Figure};
use crate::blocks::{figure, set, side, Input, Lent, Op, BLOCK, SLOTS};
use crate::draw::{analysed, assigned, input, one_of};
use crate::palette::harness;
use crate::refusals::{base, Edit};
use crate::report::Random;
use crate::update::{self, Update};
use std::path::Path;
use std::{fs, io};

/// The parts of a block's list that a record has, and their lengths.
const PARTS: [(usize, usize); 4] = [(0, 40), (208, 8), (336, 16), (1360, 48)];
const SAMPLES: usize = 64;
const KNOWN: usize = 22;
const NUMBERS: usize = 352;

#[derive(Default)]
struct List {
    records: Vec<u8>,
    lines: String,
}

/// The input with no more than a record has, if it then is the same call.
fn cut(mut input: Input) -> Option<Input> {
    let (w, h, cw, ch) = (input.source.first()?, input.source.get(1)?, input.source.get(2)?, input.source.get(3)?);
    let room =
        |plane: &[u16], w: usize, h: usize| plane.len() <= SAMPLES && w.checked_mul(h).is_some_and(|n| n <= plane.len() || n > SAMPLES);
    let used = input.config.get(set::FORMAT) != Some(&0);
    if input.config.len() != 8 || input.source.len() != 7 || !room(&input.planes[0], *w, *h) {
        return None;
    }
    if used && !input.planes[1..].iter().all(|plane| room(plane, *cw, *ch)) {
        return None;
    }
    let narrow = input.source.iter().all(|&n| n <= 65535) && input.config.iter().all(|&n| i16::try_from(n).is_ok());
    if !narrow || input.limit > 65535 || input.tolerance > 65535 || input.lent.predictor[KNOWN..].iter().any(|&n| n != 0) {
        return None;
    }
    input.planes.iter_mut().for_each(|plane| plane.resize(SAMPLES, 0));
    let mut block = vec![0; BLOCK];
    input.lent.block.resize(BLOCK, 0);
    for (from, n) in PARTS {
        block[from..from + n].copy_from_slice(&input.lent.block[from..from + n]);
    }
    input.lent.block = block;
    (input.lent.keys, input.lent.entry) = (vec![0; SLOTS], vec![0; SLOTS]);
    input.lent.stamp[2..].fill(0);
    (input.lent.stamp[1] <= 65535).then_some(input)
}

/// The numbers of a record.
fn numbers(op: u16, input: &Input) -> Vec<u16> {
    let told = match op {
        1 => input.limit as u16,
        2 => input.transpose.into(),
        5 => input.tolerance as u16,
        _ => 0,
    };
    let lent = &input.lent;
    let mut list = vec![op, told];
    list.extend(input.config.iter().map(|&n| n as u16));
    list.extend(input.source.iter().map(|&n| n as u16));
    list.extend([lent.stamp[0] as u16, (lent.stamp[0] >> 16) as u16, lent.stamp[1] as u16]);
    list.resize(24, 0);
    input.planes.iter().for_each(|plane| list.extend(plane));
    list.extend(&lent.predictor[..KNOWN]);
    list.resize(240, 0);
    PARTS.into_iter().for_each(|(from, n)| list.extend(&lent.block[from..from + n]));
    list
}

/// What the program prints of the memory after a call.
fn left(op: u16, lent: &Lent) -> Vec<u64> {
    let block = || PARTS.into_iter().flat_map(|(from, n)| lent.block[from..from + n].iter().map(|&n| n.into()));
    match op {
        1 => lent.predictor[..KNOWN].iter().map(|&n| n.into()).collect(),
        2 => block().collect(),
        3 => lent.figure.clone(),
        _ => {
            let marked = (0..SLOTS).filter(|&k| lent.stamp[1 + k] == lent.stamp[0]);
            let slots = marked.flat_map(|k| [k as u64, lent.keys[k], lent.entry[k].into()]);
            block().chain([lent.stamp[0].into()]).chain(slots).collect()
        }
    }
}

impl List {
    /// A call that is due a refusal, or with 0 source 000's answer; nothing where a record has no room for it.
    fn add<O: Op>(&mut self, op: u16, due: u8, input: Input) -> bool {
        let Some(input) = cut(input) else { return false };
        let mut after = input.clone();
        let number = if due == 0 { O::source(&mut after) } else { due };
        // source 000's figures are exact so far
        if figure(&after.lent.block).max(after.lent.figure[0]) >= 1 << 24 {
            return false;
        }
        let list = numbers(op, &input);
        assert_eq!(list.len(), NUMBERS);
        self.records.extend(list.into_iter().flat_map(u16::to_le_bytes));
        let mut line = vec![u64::from(number)];
        line.extend(left(op, &after.lent));
        line.iter().for_each(|n| self.lines += &format!("{n} "));
        self.lines += "\n";
        true
    }

    /// Some of each refusal, and of what falls short of one.
    fn edits<O: Op>(&mut self, op: u16, edits: Vec<Edit>) {
        let mut seen = [0; 16];
        for edit in edits.into_iter().rev() {
            let most = if edit.due == 0 { 3 } else { 2 };
            let mut input = base(edit.format);
            (edit.change)(&mut input);
            if seen[usize::from(edit.due)] < most && self.add::<O>(op, edit.due, input) {
                seen[usize::from(edit.due)] += 1;
            }
        }
    }

    fn drawn<O: Op>(&mut self, op: u16, count: usize, mut draw: impl FnMut() -> Option<Input>) {
        let mut added = 0;
        while added < count {
            added += usize::from(draw().is_some_and(|input| self.add::<O>(op, 0, input)));
        }
    }
}

/// Small inputs of the domain.
fn small(random: &mut Random) -> Input {
    loop {
        let mut case = input(random);
        case.limit = one_of(random, &[128, 5, 2]);
        case.tolerance = harness::color_tolerance(one_of(random, &[0, 4, 16]), false).into();
        if case.source[side::SIZE] <= 4 && case.lent.stamp[0] != 0 && cut(case.clone()).is_some() {
            case.lent.stamp[1] = 0;
            return case;
        }
    }
}

/// Writes the list beside the program that replays it.
pub fn write(folder: &Path) -> io::Result<()> {
    let (mut list, mut random) = (List::default(), Random::new(0));
    list.drawn::<Update>(1, 6, || analysed(small(&mut random)).and_then(assigned));
    list.edits::<Update>(1, update::edits());
    list.drawn::<Assign>(2, 6, || analysed(small(&mut random)));
    list.edits::<Assign>(2, assign::edits());
    list.drawn::<Figure>(3, 6, || analysed(small(&mut random)).and_then(assigned));
    list.edits::<Figure>(3, assign::figure_edits());
    list.drawn::<Analyze>(4, 8, || Some(small(&mut random)));
    list.edits::<Analyze>(4, analysis::edits());
    list.drawn::<Within>(5, 3, || Some(small(&mut random)));
    list.edits::<Within>(5, analysis::within_edits());
    fs::write(folder.join("stdin"), &list.records)?;
    fs::write(folder.join("stdout"), &list.lines)?;
    println!("{} answers on blocks, {} bytes in, {} bytes out", list.records.len() / (2 * NUMBERS), list.records.len(), list.lines.len());
    assert!(list.records.len() <= 65536, "more than the program reads");
    Ok(())
}
