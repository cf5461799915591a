//! Times of both sides in one run: medians of calls that take turns, buffers warm.

use crate::speed_calls::{Block, Call, CALLS};
use crate::speed_pictures::{map, noise, text, Picture, LARGEST, SPOTS};
use crate::speed_table as table;
use std::hint::black_box;
use std::time::Instant;

pub const SIZES: [usize; 3] = [8, 16, LARGEST];
pub const FORMATS: [(i32, &str); 2] = [(3, "4:4:4"), (1, "4:2:0")];
/// Calls of a side on each block.
const CALLS_A_BLOCK: usize = 500;

/// Blocks of one make.
struct Kind {
    name: &'static str,
    is_map: bool,
    picture: fn() -> Picture,
}

static KINDS: [Kind; 4] = [
    Kind { name: "map, 11 colours", is_map: true, picture: || map(11) },
    Kind { name: "map, 40 colours", is_map: true, picture: || map(40) },
    Kind { name: "text", is_map: false, picture: text },
    Kind { name: "noise", is_map: false, picture: noise },
];

/// In µs; source 000 has no part in some calls.
pub struct Times {
    pub source: Option<f64>,
    pub port: f64,
}

/// The times of calls on the blocks of a kind, format and size, and the runs, bins and escapes of a block on average.
pub struct Column {
    pub size: usize,
    pub times: Vec<Times>,
    pub counts: [usize; 3],
}

fn median(mut times: Vec<f64>) -> f64 {
    times.sort_by(f64::total_cmp);
    times[times.len() / 2]
}

/// In µs.
fn timed(call: impl FnOnce()) -> f64 {
    let began = Instant::now();
    call();
    began.elapsed().as_secs_f64() * 1e6
}

/// Medians of a call, less what timing nothing takes: a block at a time, each side first as often as the other.
fn medians(blocks: &mut [Block], call: &Call) -> Times {
    let (mut theirs, mut ours, mut none) = (Vec::new(), Vec::new(), Vec::new());
    for round in 0..CALLS_A_BLOCK {
        for block in &mut *blocks {
            block.restore();
            let mut first = |block: &mut Block| theirs.extend(call.source.map(|source| timed(|| source(block))));
            if round % 2 == 0 {
                first(block);
            }
            ours.push(timed(|| assert_eq!((call.port)(block), 0)));
            if round % 2 == 1 {
                first(block);
            }
            none.push(timed(|| ()));
        }
    }
    assert!(blocks.iter().all(Block::agrees), "{}: the sides differ", call.name);
    black_box(&blocks);
    let none = median(none);
    Times { source: call.source.map(|_| median(theirs) - none), port: median(ours) - none }
}

/// Each call begins with blocks of its own.
fn column(kind: &Kind, format: i32, size: usize, calls: &[&Call]) -> Column {
    let picture = (kind.picture)();
    let made = || picture.blocks(format, size).into_iter().map(Block::new).collect::<Vec<Block>>();
    let time = |call: &&Call| {
        let mut blocks = made();
        blocks.iter_mut().for_each(call.ready);
        medians(&mut blocks, call)
    };
    let times = calls.iter().map(time).collect();
    let blocks = made();
    let mean = |k: usize| blocks.iter().map(|block| block.counts()[k]).sum::<usize>() / blocks.len();
    Column { size, times, counts: [0, 1, 2].map(mean) }
}

/// The kinds whose names begin with a word, and all calls; or else all kinds, and the calls whose names do.
fn wanted(word: &str) -> (Vec<&'static Kind>, Vec<&'static Call>) {
    let kinds: Vec<&Kind> = KINDS.iter().filter(|kind| kind.name.starts_with(word)).collect();
    match kinds.is_empty() {
        true => (KINDS.iter().collect(), CALLS.iter().filter(|call| call.name.starts_with(word)).collect()),
        false => (kinds, CALLS.iter().collect()),
    }
}

/// The largest blocks of a map in each format, call by call; of other kinds none.
fn largest(kind: &Kind, calls: &[&Call]) -> Vec<Column> {
    let formats = FORMATS.iter().filter(|_| kind.is_map);
    let time = |&(format, name): &(i32, &str)| {
        let column = column(kind, format, LARGEST, calls);
        table::lines(&format!("{}, {name}", kind.name.trim_start_matches("map, ")), calls, &column);
        column
    };
    formats.map(time).collect()
}

/// Every size in each format, with the largest as they are known.
fn sizes(kind: &Kind, calls: &[&Call], largest: Vec<Column>) -> Vec<Column> {
    let mut largest = largest.into_iter();
    let mut columns = Vec::new();
    for (format, _) in FORMATS {
        columns.extend(SIZES[..2].iter().map(|&size| column(kind, format, size, calls)));
        columns.push(largest.next().unwrap_or_else(|| column(kind, format, LARGEST, calls)));
    }
    columns
}

/// The largest blocks of a map, then a table of each kind. Answers whether there was anything to measure.
pub fn measure(only: Option<&str>) -> bool {
    let (kinds, calls) = wanted(only.unwrap_or(""));
    if calls.is_empty() {
        println!("no kind of block and no call has that name");
        return false;
    }
    if kinds[0].is_map {
        println!("medians of {} calls, blocks of {LARGEST} × {LARGEST} of a map at QP 22:", CALLS_A_BLOCK * SPOTS);
    }
    let known: Vec<Vec<Column>> = kinds.iter().map(|kind| largest(kind, &calls)).collect();
    println!("\nmillion cells a second, source 000 / port, and the ratio of their times;");
    println!("growth: a cell's time in blocks of 32 over that in blocks of 8\n");
    for (kind, known) in kinds.iter().zip(known) {
        table::print(kind.name, &calls, &sizes(kind, &calls, known));
    }
    true
}
