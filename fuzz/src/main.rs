//! Calls every exported function with arbitrary arguments, and looks at the memory after each call.

mod blocks;
mod calls;
mod leaves;
mod memory;
mod random;
mod world;

use calls::{ANALYZE, ASSIGN, BLOCKS, CALLS, OUTSIDE, PLAN, WRITE};
use memory::Frame;
use random::{Random, Spoiler};
use std::process::ExitCode;
use std::sync::atomic::{AtomicU64, Ordering::Relaxed};
use std::time::{Duration, Instant};
use world::World;

const USAGE: &str = "usage: fuzz/run [--seed N] [--calls N] [--minutes N] [--round N]";
/// Calls of a round after the first few; a round has arguments and random numbers of its own.
const ROUND: u64 = 64;

/// What is being called: seed, round, function.
static NOW: [AtomicU64; 3] = [const { AtomicU64::new(0) }; 3];

extern "C" {
    fn signal(number: i32, handler: extern "C" fn(i32)) -> usize;
    fn _exit(code: i32) -> !;
}

/// Says where it died.
extern "C" fn died(number: i32) {
    let [seed, round, k] = [0, 1, 2].map(|place| NOW[place].load(Relaxed));
    eprintln!("signal {number} in {}: fuzz/run --seed {seed} --round {round}", CALLS[k as usize].0);
    // SAFETY: ends the process
    unsafe { _exit(3) }
}

struct Fuzz {
    frame: Frame,
    world: World,
    seed: u64,
    round: u64,
    calls: u64,
    /// By function and answer.
    counts: Vec<[u64; 256]>,
    wrong: u64,
}

impl Fuzz {
    fn new(seed: u64) -> Fuzz {
        let counts = vec![[0; 256]; CALLS.len()];
        Fuzz { frame: Frame::new(), world: World::default(), seed, round: 0, calls: 0, counts, wrong: 0 }
    }

    /// Calls function k, counts its answer, and looks at the memory; what an answer laid may be taken over.
    fn call(&mut self, k: usize, spoiler: &mut Spoiler, take: fn(&Frame, &mut World)) {
        NOW[2].store(k as u64, Relaxed);
        self.frame.begin(spoiler.random.next());
        self.calls += 1;
        let told = calls::call(k, &self.world, spoiler, &mut self.frame);
        if told.as_ref().is_ok_and(|answer| answer.number == 0) {
            take(&self.frame, &mut self.world);
        }
        let (number, free, mut problem) = match told {
            Ok(answer) if CALLS[k].1.contains(&answer.number) => (answer.number, answer.free, None),
            Ok(answer) => (answer.number, answer.free, Some(format!("answers {}, which document 01 does not give it", answer.number))),
            Err(what) => (0, &[] as &[usize], Some(what)),
        };
        self.counts[k][usize::from(number)] += 1;
        problem = self.frame.end(number != 0, free, self.calls % 256 == 0).err().or(problem);
        if let Some(what) = problem {
            self.wrong += 1;
            if self.wrong <= 20 {
                println!("{}: {what}: fuzz/run --seed {} --round {}", CALLS[k].0, self.seed, self.round);
            }
        }
    }

    /// Arguments that every call takes, half of them with a block that analysis and assignment made; then calls of any function with them, spoilt or not.
    fn round(&mut self, round: u64) {
        self.round = round;
        NOW[1].store(round, Relaxed);
        let mut random = Random::new(self.seed.wrapping_mul(0x9E37_79B9_7F4A_7C15) ^ round);
        self.world = World::drawn(&mut random);
        let exact = &mut Spoiler::none(&mut random);
        if exact.random.one_in(2) {
            self.call(ANALYZE, exact, |frame, world| world.block = frame.now(9));
            self.call(ASSIGN, exact, |frame, world| world.block = frame.now(5));
        }
        self.call(PLAN, exact, |frame, world| (world.runs, world.count) = (frame.now(2), frame.now(3)[0]));
        self.call(WRITE, exact, |frame, world| {
            let used: Vec<usize> = frame.now(3);
            world.bins = frame.now::<u8>(2)[..used[0]].to_vec();
        });
        for _ in 0..ROUND {
            let k = if random.one_in(2) { random.within(BLOCKS, CALLS.len() - 1) } else { random.below(BLOCKS) };
            self.call(k, &mut Spoiler::drawn(&mut random), |_, _| ());
        }
    }

    fn print(&self) {
        for (counts, (name, answers)) in self.counts.iter().zip(CALLS) {
            let told = |&number: &u8| match number {
                0 => format!("answered {}", counts[0]),
                OUTSIDE => format!("outside {}", counts[255]),
                _ => format!("{number}: {}", counts[usize::from(number)]),
            };
            let told: Vec<String> = answers.iter().map(told).collect();
            println!("{name}: {} calls; {}", counts.iter().sum::<u64>(), told.join(", "));
        }
        let never =
            self.counts.iter().zip(CALLS).map(|(counts, call)| call.1.iter().filter(|&&number| counts[usize::from(number)] == 0).count());
        println!("{} functions, {} calls, {} wrong, {} answers never given", CALLS.len(), self.calls, self.wrong, never.sum::<usize>());
    }
}

fn main() -> ExitCode {
    let (mut seed, mut calls, mut minutes, mut round) = (1, 10_000_000, 60, None);
    let mut words = std::env::args().skip(1);
    while let Some(word) = words.next() {
        let number = words.next().and_then(|n| n.parse::<u64>().ok());
        match (word.as_str(), number) {
            ("--seed", Some(n)) => seed = n,
            ("--calls", Some(n)) => calls = n,
            ("--minutes", Some(n)) => minutes = n,
            ("--round", Some(n)) => round = Some(n),
            _ => {
                eprintln!("{USAGE}");
                return ExitCode::from(2);
            }
        }
    }
    NOW[0].store(seed, Relaxed);
    // SEGV, BUS, ILL, FPE, ABRT
    for number in [11, 7, 4, 8, 6] {
        // SAFETY: the handler says one line and ends the process
        unsafe { signal(number, died) };
    }
    let mut fuzz = Fuzz::new(seed);
    let (began, mut shown) = (Instant::now(), Instant::now());
    let rounds = round.map_or(0..u64::MAX, |round| round..round + 1);
    for round in rounds {
        if fuzz.calls >= calls || began.elapsed() > Duration::from_secs(60 * minutes) {
            break;
        }
        fuzz.round(round);
        if shown.elapsed() > Duration::from_secs(5) {
            shown = Instant::now();
            println!("{} calls, {:.0} a second, {} wrong", fuzz.calls, fuzz.calls as f64 / began.elapsed().as_secs_f64(), fuzz.wrong);
        }
    }
    fuzz.print();
    println!("seed {seed}, {:.0} s", began.elapsed().as_secs_f64());
    if fuzz.wrong == 0 {
        ExitCode::SUCCESS
    } else {
        ExitCode::FAILURE
    }
}
