//! The fixed list: a sample of every comparison as records that `crates/answers` reads, with source 000's answers as the lines that it is to print.
//!
//! A record has 64 bytes: eight little-endian words, the operation and what it is told, then up to 32 bins.
//! A line has the answer: a number; for a writer `NEXT:BINS`, bins as letters from `a` on; for a reader refusal or 0, value and place, and after `:` the flags as letters.

use crate::code::Code;
use crate::codes::{self, Damaged, Harm};
use crate::quant::{self, Dequant, Distance, Product, Quantize, Step, Tolerance};
use crate::report::{Case, Random};
use crate::scan::{Above, Cell, Pos};
use std::{fs, io, path::Path};

/// A byte of no class.
const FOREIGN: u8 = 99;

#[derive(Default)]
struct List {
    records: Vec<u8>,
    lines: String,
}

impl List {
    fn add(&mut self, op: u32, told: &[u32], bins: &[u8], line: &str) {
        let mut record = [0; 64];
        for (k, word) in [op].iter().chain(told).enumerate() {
            record[4 * k..4 * k + 4].copy_from_slice(&word.to_le_bytes());
        }
        record[32..32 + bins.len()].copy_from_slice(bins);
        self.records.extend(record);
        self.lines += line;
        self.lines += "\n";
    }

    fn number(&mut self, op: u32, told: &[u32], case: impl Case<Answer = u64>) {
        self.add(op, told, &[], &case.source().to_string());
    }

    /// A code written from place 0 on.
    fn put(&mut self, code: &Code) {
        let bins = code.bins();
        self.add(16 + kind(code), &told(code), &[], &format!("{}:{}", bins.len(), letters(&bins)));
    }

    /// A code read at a place of a list, with the answer that is due.
    fn get(&mut self, code: &Code, list: &[u8], at: usize, [number, value, place]: [usize; 3], flags: &[u8]) {
        let mut words = vec![list.len() as u32, at as u32];
        words.extend(read_told(code));
        let mut line = format!("{number} {value} {place}");
        if let Code::Reuse { .. } = code {
            line += &format!(":{}", letters(flags));
        }
        self.add(32 + kind(code), &words, list, &line);
    }

    /// Source 000's bins read back, where they fit a record.
    fn get_good(&mut self, code: &Code) {
        let bins = code.bins();
        if bins.len() > 30 {
            return;
        }
        let list = [&[FOREIGN], &bins[..], &[FOREIGN]].concat();
        let value = code.value();
        let flags: Vec<u8> = value[1..].iter().map(|&flag| flag as u8).collect();
        self.get(code, &list, 1, [0, value[0] as usize, 1 + bins.len()], &flags);
    }

    /// The same bins cut, or with one of another class.
    fn get_bad(&mut self, code: &Code, harm: Harm, random: &mut Random) {
        let bins = code.bins();
        if bins.is_empty() || bins.len() > 30 {
            return;
        }
        let place = random.below(bins.len() as u64) as usize;
        let number = match harm {
            Harm::Cut => 10,
            _ => 11,
        };
        let list = Damaged { code: code.clone(), at: 1, place, harm }.list();
        self.get(code, &list, 1, [number, 0, 1 + place], &[]);
    }
}

/// Bins or flags as letters.
fn letters(bytes: &[u8]) -> String {
    bytes.iter().map(|byte| char::from(b'a' + byte)).collect()
}

fn kind(code: &Code) -> u32 {
    match code {
        Code::Bin { .. } => 0,
        Code::Bits { .. } => 1,
        Code::Tb { .. } => 2,
        Code::Egk { .. } => 3,
        Code::Held { .. } => 4,
        Code::Count { .. } => 5,
        Code::Run { .. } => 6,
        Code::Reuse { .. } => 7,
    }
}

/// What a writer is told.
fn told(code: &Code) -> Vec<u32> {
    match *code {
        Code::Bin { class, bin } => vec![class.into(), bin.into()],
        Code::Bits { n, value } => vec![value, n],
        Code::Tb { alphabet, value } => vec![alphabet, value],
        Code::Egk { order, value } | Code::Held { order, value, .. } => vec![order, value],
        Code::Count { m, value } => vec![m, value],
        Code::Run { longest, above, sent, more } => vec![longest, above.into(), sent, more],
        Code::Reuse { limit, ref flags } => {
            let mut words = vec![limit, flags.len() as u32, 0, 0, 0, 0];
            for (k, _) in flags.iter().enumerate().filter(|&(_, &flag)| flag) {
                words[2 + k / 32] |= 1 << (k % 32);
            }
            words
        }
    }
}

/// What a reader is told, beside the list and the place.
fn read_told(code: &Code) -> Vec<u32> {
    match *code {
        Code::Bin { class, .. } => vec![class.into()],
        Code::Bits { n, .. } => vec![n],
        Code::Tb { alphabet, .. } => vec![alphabet],
        Code::Egk { order, .. } => vec![order],
        Code::Held { order, top, .. } => vec![order, top],
        Code::Count { m, .. } => vec![m],
        Code::Run { longest, above, sent, .. } => vec![longest, above.into(), sent],
        Code::Reuse { limit, ref flags } => vec![limit, flags.len() as u32],
    }
}

fn cells(list: &mut List, random: &mut Random) {
    for size in [1, 2, 3, 4, 7, 8, 16, 31, 32] {
        for _ in 0..4 {
            let i = random.below(size * size) as u32;
            let size = size as u32;
            list.number(1, &[i, size], Pos { i, size });
            let (col, row) = (random.below(size.into()) as u32, random.below(size.into()) as u32);
            list.number(2, &[col, row, size], Cell { col, row, size });
            if i >= size {
                list.number(3, &[i, size], Above { i, size });
            }
        }
    }
}

fn levels(list: &mut List, random: &mut Random) {
    for qp in [-128, -1, 0, 1, 2, 3, 4, 5, 6, 22, 33, 34, 51, 75] {
        let word = qp as u32;
        list.number(4, &[0, word], Step { qp });
        for lossless in [false, true] {
            list.number(5, &[lossless.into(), word], Tolerance { lossless, qp });
            for depth in quant::DEPTHS {
                let most = quant::most(depth);
                let level = quant::LEVELS[random.below(quant::LEVELS.len() as u64) as usize];
                list.number(6, &[lossless.into(), word, most as u32, level as u32], Dequant { lossless, qp, depth, level });
                let value = random.below(most + 1) as u16;
                list.number(7, &[lossless.into(), word, most as u32, value.into()], Quantize { lossless, qp, depth, value });
            }
        }
    }
    for _ in 0..24 {
        let case = Distance { a: [0; 3].map(|_| random.wide() as u16), b: [0; 3].map(|_| random.wide() as u16), comps: 3 };
        let (a, b) = case.packed();
        list.number(8, &[a as u32, (a >> 32) as u32, b as u32, (b >> 32) as u32], case);
        let (a, b) = (random.wide(), random.wide());
        list.number(9, &[a as u32, (a >> 32) as u32, b as u32, (b >> 32) as u32], Product { a, b });
    }
}

fn coded(list: &mut List, random: &mut Random) {
    for class in 0..=10 {
        let code = Code::Bin { class, bin: class % 2 == 1 };
        list.get_good(&code);
        list.get_bad(&code, Harm::Class(FOREIGN), random);
    }
    for kind in 0..codes::KINDS {
        for _ in 0..16 {
            let code = codes::drawn(kind, random);
            if code.is_written() {
                list.put(&code);
            }
            list.get_good(&code);
            list.get_bad(&code, Harm::Cut, random);
            list.get_bad(&code, Harm::Class(FOREIGN), random);
        }
    }
    for n in 0..12 {
        let code = Code::Reuse { limit: 64, flags: (0..n).map(|_| random.below(3) == 0).collect() };
        list.put(&code);
        list.get_good(&code);
        list.get_bad(&code, Harm::Cut, random);
    }
    for order in codes::orders() {
        list.put(&Code::Egk { order, value: 65535 });
        list.get(&Code::Egk { order, value: 0 }, &[1; 17], 0, [12, 0, 0], &[]);
    }
    for value in [32768, 40000] {
        let code = Code::Held { order: 3, top: 32767, value };
        list.get(&code, &code.bins(), 0, [12, 0, 0], &[]);
    }
}

/// Writes the list beside the program that replays it.
pub fn write(folder: &Path) -> io::Result<()> {
    let mut list = List::default();
    let mut random = Random::new(0);
    cells(&mut list, &mut random);
    levels(&mut list, &mut random);
    coded(&mut list, &mut random);
    fs::write(folder.join("stdin"), &list.records)?;
    fs::write(folder.join("stdout"), &list.lines)?;
    println!("{} answers, {} bytes in, {} bytes out", list.records.len() / 64, list.records.len(), list.lines.len());
    Ok(())
}
