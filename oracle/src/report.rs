//! What every comparison shares: cases, counts, the first disagreement made small.

use crate::coverage::Coverage;
use std::fmt::Debug;
use std::iter::Flatten;
use std::time::{Duration, Instant};

pub use common::Random;

/// One input, with both sides' answers to it.
pub trait Case: Clone + Debug {
    type Answer: PartialEq + Debug;
    /// What source 000 answers.
    fn source(&self) -> Self::Answer;
    /// What the port answers.
    fn port(&self) -> Self::Answer;
    /// Counts what of the domain the case is, by the answer in which both sides agree.
    fn seen(&self, _answer: &Self::Answer, _coverage: &mut Coverage) {}
    /// Smaller inputs of the same domain, to find the least one that disagrees.
    fn smaller(&self) -> Vec<Self> {
        Vec::new()
    }
}

/// What a run was asked for, and the counts so far.
pub struct Report {
    /// Random cases of each comparison that has them.
    pub count: usize,
    /// The same, of block calls.
    pub blocks: usize,
    seed: u64,
    only: Option<String>,
    lines: Vec<(&'static str, u64, u64)>,
    coverage: Coverage,
    began: Instant,
    shown: Instant,
    /// How long to go on with new seeds, and how many were taken.
    long: Option<Duration>,
    rounds: u64,
}

impl Report {
    pub fn new(seed: u64, count: Option<usize>, only: Option<String>, long: Option<Duration>) -> Report {
        // the rounds of a long run are short
        let (leaves, blocks) = if long.is_some() { (200, 200) } else { (20_000, 2_000) };
        let (count, blocks) = (count.unwrap_or(leaves), count.unwrap_or(blocks));
        let now = Instant::now();
        Report { count, blocks, seed, only, lines: Vec::new(), coverage: Coverage::new(), began: now, shown: now, long, rounds: 0 }
    }

    /// Begins another round, if there is one: the first, then as many as the time holds, each with the next seed.
    pub fn goes_on(&mut self) -> bool {
        if self.rounds > 0 && (self.long.is_none() || self.is_over()) {
            return false;
        }
        self.seed += u64::from(self.rounds > 0);
        self.rounds += 1;
        true
    }

    pub fn is_first(&self) -> bool {
        self.rounds < 2
    }

    fn is_over(&self) -> bool {
        self.long.is_some_and(|long| self.began.elapsed() > long)
    }

    /// Cases that are the same for every seed: in the first round alone.
    pub fn once<I: IntoIterator>(&self, cases: I) -> Flatten<std::option::IntoIter<I>> {
        self.is_first().then_some(cases).into_iter().flatten()
    }

    /// Whether the run was asked for this comparison: all, or those whose name begins so.
    fn wanted(&self, name: &str) -> bool {
        self.only.as_ref().map_or(true, |only| name.starts_with(only.as_str()))
    }

    /// Random numbers of this comparison's own, the same in every run with this seed.
    pub fn random(&self, name: &str) -> Random {
        Random::new(name.bytes().fold(self.seed, |s, b| (s ^ u64::from(b)).wrapping_mul(0x100_0000_01b3)))
    }

    pub fn compare<C: Case>(&mut self, name: &'static str, cases: impl IntoIterator<Item = C>) {
        if !self.wanted(name) {
            return;
        }
        let (mut seen, mut wrong) = (0u64, 0u64);
        let mut progress = Progress::new(name);
        for case in cases {
            seen += 1;
            if self.long.is_none() && seen % 1024 == 0 {
                progress.show(seen);
            }
            if self.long.is_some() && seen % 64 == 0 {
                self.show(name, seen);
                if self.is_over() {
                    break;
                }
            }
            let (due, answer) = (case.source(), case.port());
            if due == answer {
                case.seen(&answer, &mut self.coverage);
            } else {
                wrong += 1;
                if wrong == 1 {
                    println!("{name}: a disagreement, seed {}", self.seed);
                    let least = shrink(case);
                    println!("{name}: first disagreement, at its smallest\n  {least:?}");
                    println!("  source 000: {:?}\n  port:       {:?}", least.source(), least.port());
                }
            }
        }
        self.coverage.leaf(name, 0, seen);
        match self.lines.iter_mut().find(|line| line.0 == name) {
            Some(line) => (line.1, line.2) = (line.1 + seen, line.2 + wrong),
            None => self.lines.push((name, seen, wrong)),
        }
    }

    /// Of a long run, every few seconds: seed, cases, entry points and what was not met yet.
    fn show(&mut self, name: &str, more: u64) {
        if self.shown.elapsed() < Duration::from_secs(5) {
            return;
        }
        self.shown = Instant::now();
        let seen: u64 = more + self.lines.iter().map(|line| line.1).sum::<u64>();
        let (seconds, (entries, of), (zeros, places, _)) =
            (self.began.elapsed().as_secs_f64(), self.coverage.entries(), self.coverage.zeros());
        let wrong: u64 = self.lines.iter().map(|line| line.2).sum();
        println!(
            "{seconds:.0} s, seed {}, {name}: {seen} cases, {:.0} a second, {wrong} disagreements, {entries} of {of} entry points, {zeros} of {places} places at zero",
            self.seed,
            seen as f64 / seconds
        );
    }

    /// Prints a line for each comparison and what of the domain was met, and answers whether all agreed and nothing of it is missing.
    pub fn finish(&self) -> bool {
        for (name, seen, wrong) in &self.lines {
            println!("{name}: {seen} cases, {wrong} disagreements");
        }
        let seen: u64 = self.lines.iter().map(|line| line.1).sum();
        let wrong: u64 = self.lines.iter().map(|line| line.2).sum();
        println!("{} comparisons, {seen} cases, {wrong} disagreements", self.lines.len());
        if self.lines.is_empty() {
            println!("no comparison has that name");
        }
        if self.long.is_some() {
            println!("seeds {} to {}, {:.0} s", self.seed + 1 - self.rounds, self.seed, self.began.elapsed().as_secs_f64());
        }
        self.covers() && wrong == 0 && !self.lines.is_empty()
    }

    /// Whether nothing of the domain is missing: of all places after a long run, else of those that every run has to meet. A part of the comparison owes nothing.
    fn covers(&self) -> bool {
        if self.only.is_some() {
            return true;
        }
        self.coverage.print();
        let (zeros, _, structural) = self.coverage.zeros();
        structural == 0 && (self.long.is_none() || zeros == 0)
    }
}

/// The case itself, or one that disagrees and of which no smaller one does.
fn shrink<C: Case>(mut case: C) -> C {
    'again: for _ in 0..10_000 {
        for less in case.smaller() {
            if less.source() != less.port() {
                case = less;
                continue 'again;
            }
        }
        break;
    }
    case
}

/// Numbers nearer to 0 than x, the nearest first.
pub fn below<T: Copy + TryFrom<i128>>(x: T) -> Vec<T>
where
    i128: From<T>,
{
    let wide = i128::from(x);
    let mut less = vec![0, wide.signum(), wide / 2, wide - wide.signum()];
    less.dedup();
    less.retain(|y| y.abs() < wide.abs());
    less.into_iter().filter_map(|y| T::try_from(y).ok()).collect()
}

/// Cases per second, every two seconds.
struct Progress {
    name: &'static str,
    began: Instant,
    shown: Instant,
}

impl Progress {
    fn new(name: &'static str) -> Progress {
        let now = Instant::now();
        Progress { name, began: now, shown: now }
    }

    fn show(&mut self, seen: u64) {
        if self.shown.elapsed() < Duration::from_secs(2) {
            return;
        }
        self.shown = Instant::now();
        eprintln!("{}: {seen} cases so far, {:.0} a second", self.name, seen as f64 / self.began.elapsed().as_secs_f64());
    }
}
