//! Run lists of a map of indices: the rules of document 01 as a test, lists that keep them, and broken ones.

use crate::draw::{one_in, one_of, up_to};
use crate::report::Random;
use crate::second::above;

/// 1 where it copies from above, the index sent, further cells, start.
pub type Run = [u32; 4];

/// Indices along the scan, one for each cell.
pub struct Map {
    pub size: usize,
    pub indices: Vec<u16>,
}

impl Map {
    fn above(&self, scan: usize) -> Option<u16> {
        (scan >= self.size).then(|| self.indices[above(scan, self.size)])
    }

    /// What an index run at a place is told apart from.
    fn reference(&self, scan: usize, after_copy: bool) -> Option<u16> {
        match scan {
            0 => None,
            _ if after_copy => self.above(scan),
            _ => Some(self.indices[scan - 1]),
        }
    }

    /// The index that a run at a place sends, if it may stand there.
    fn sent(&self, scan: usize, after_copy: bool) -> Option<u32> {
        let value = self.indices[scan];
        match self.reference(scan, after_copy) {
            Some(reference) if value == reference => None,
            Some(reference) => Some(u32::from(value) - u32::from(value > reference)),
            None => Some(value.into()),
        }
    }

    /// Whether a list replays to the map under the run rules.
    pub fn keeps(&self, runs: &[Run]) -> bool {
        let (mut scan, mut after_copy) = (0, false);
        for &[kind, sent, more, start] in runs {
            let end = scan + 1 + more as usize;
            if start as usize != scan || end > self.indices.len() {
                return false;
            }
            let copy = kind == 1;
            let right = match copy {
                true => !after_copy && sent == 0 && (scan..end).all(|k| self.above(k) == Some(self.indices[k])),
                false => self.sent(scan, after_copy) == Some(sent) && (scan..end).all(|k| self.indices[k] == self.indices[scan]),
            };
            if !right {
                return false;
            }
            (scan, after_copy) = (end, copy);
        }
        scan == self.indices.len()
    }
}

/// The runs that may stand at each place so that the rest can be covered too.
pub struct Ways<'a> {
    map: &'a Map,
    /// How far each index goes on, and how many cells from each on are as the one above.
    same: Vec<usize>,
    copied: Vec<usize>,
    /// By the kind of the run before: the next place from which the rest can be covered.
    next: [Vec<usize>; 2],
}

impl<'a> Ways<'a> {
    pub fn new(map: &'a Map) -> Ways<'a> {
        let n = map.indices.len();
        let mut ways = Ways { map, same: vec![1; n], copied: vec![0; n + 1], next: [vec![n; n + 1], vec![n; n + 1]] };
        for scan in (0..n).rev() {
            if scan + 1 < n && map.indices[scan] == map.indices[scan + 1] {
                ways.same[scan] += ways.same[scan + 1];
            }
            if map.above(scan) == Some(map.indices[scan]) {
                ways.copied[scan] = 1 + ways.copied[scan + 1];
            }
            for after_copy in [false, true] {
                let open = !ways.at(scan, after_copy).is_empty();
                let kind = usize::from(after_copy);
                ways.next[kind][scan] = if open { scan } else { ways.next[kind][scan + 1] };
            }
        }
        ways
    }

    /// Kind and length of each run that may stand here.
    pub fn at(&self, scan: usize, after_copy: bool) -> Vec<(bool, usize)> {
        let mut runs = Vec::new();
        let index = self.map.sent(scan, after_copy).map_or(0, |_| self.same[scan]);
        let copy = if after_copy { 0 } else { self.copied[scan] };
        for (kind, most) in [(false, index), (true, copy)] {
            let next = &self.next[usize::from(kind)];
            let mut end = scan + 1;
            while end <= scan + most && next[end] <= scan + most {
                end = next[end];
                runs.push((kind, end - scan));
                end += 1;
            }
        }
        runs
    }

    fn run(&self, scan: usize, after_copy: bool, (copy, length): (bool, usize)) -> Run {
        let sent = if copy { 0 } else { self.map.sent(scan, after_copy).unwrap() };
        [copy.into(), sent, length as u32 - 1, scan as u32]
    }

    /// A list that keeps the rules, each run chosen among those that may stand there.
    pub fn list(&self, mut choose: impl FnMut(&[(bool, usize)]) -> (bool, usize)) -> Vec<Run> {
        let (mut runs, mut scan, mut after_copy) = (vec![], 0, false);
        while scan < self.map.indices.len() {
            let chosen = choose(&self.at(scan, after_copy));
            runs.push(self.run(scan, after_copy, chosen));
            (after_copy, scan) = (chosen.0, scan + chosen.1);
        }
        runs
    }

    /// All lists that keep the rules.
    pub fn lists(&self) -> Vec<Vec<Run>> {
        let mut done = Vec::new();
        let mut open = vec![(vec![], 0, false)];
        while let Some((runs, scan, after_copy)) = open.pop() {
            if scan == self.map.indices.len() {
                done.push(runs);
                continue;
            }
            for chosen in self.at(scan, after_copy) {
                let mut longer: Vec<Run> = runs.clone();
                longer.push(self.run(scan, after_copy, chosen));
                open.push((longer, scan + chosen.1, chosen.0));
            }
        }
        done
    }
}

/// The longest run first, copy-above where both are as long.
pub fn greedy(ways: &Ways) -> Vec<Run> {
    ways.list(|runs| *runs.iter().max_by_key(|run| (run.1, run.0)).unwrap())
}

/// A list that keeps the rules: short runs, any, or long ones here and there.
pub fn drawn(ways: &Ways, random: &mut Random) -> Vec<Run> {
    let kind = random.below(4);
    ways.list(|runs| match kind {
        0 => *runs.iter().min_by_key(|run| run.1).unwrap(),
        1 => *runs.iter().min_by_key(|run| (!run.0, run.1)).unwrap(),
        2 => one_of(random, runs),
        _ if one_in(random, 2) => one_of(random, runs),
        _ => *runs.iter().max_by_key(|run| (run.1, run.0)).unwrap(),
    })
}

/// Ways to break a list; some leave it whole now and then.
pub const BREAKS: u64 = 24;

/// Numbers four to a run and a count, after one change.
pub fn broken(runs: &[Run], how: u64, random: &mut Random) -> (Vec<u32>, usize) {
    let mut list = runs.to_vec();
    let k = up_to(random, list.len() - 1);
    let last = list.len() - 1;
    match how {
        0 => drop(list.pop()),
        1 => drop(list.remove(0)),
        2 => list.clear(),
        3 => list.push([random.below(2) as u32, 0, 0, list[last][3] + list[last][2] + 1]),
        4 => list[k][2] += 1,
        5 => list[k][2] = list[k][2].wrapping_sub(1),
        6 => list[k][3] += 1,
        7 => list[k][3] = list[k][3].wrapping_sub(1),
        8 => list[k][0] ^= 1,
        9 => (list[k][0], list[k][1]) = (list[k][0] ^ 1, 0),
        10 => list[k][1] += 1,
        11 => list[k][1] = list[k][1].wrapping_sub(1),
        12 => list[k][1] = one_of(random, &[64, 65, 255, 256, 1 << 16, u32::MAX]),
        13 => {
            let [kind, sent, more, start] = list[k];
            let cells = random.below(u64::from(more) + 1) as u32;
            list[k][2] = cells;
            list.insert(k + 1, [kind, if one_in(random, 2) { sent } else { 0 }, more.saturating_sub(cells + 1), start + cells + 1]);
        }
        14 if k < last => {
            let joined = list.remove(k + 1);
            list[k][2] += joined[2] + 1;
        }
        15 if k < last => list.swap(k, k + 1),
        16 => list[k][0] = one_of(random, &[2, 3, 256, 257, u32::MAX]),
        17 => list[k][2] = one_of(random, &[1024, u32::MAX - 1, u32::MAX, 1 << 31]),
        18 => return (list.concat(), one_of(random, &[list.len() + 1, 1024, 1025, usize::MAX])),
        19 => {
            let mut numbers = list.concat();
            numbers.truncate(up_to(random, numbers.len() - 1));
            return (numbers, list.len());
        }
        20 => return (list.concat(), up_to(random, last)),
        21 => (0..4).for_each(|place| list[k][place] = random.wide() as u32),
        22 => list.iter_mut().for_each(|run| run[3] += 1),
        23 if k < last && list[k + 1][2] > 0 => {
            (list[k][2], list[k + 1][2], list[k + 1][3]) = (list[k][2] + 1, list[k + 1][2] - 1, list[k + 1][3] + 1);
        }
        _ => list.reverse(),
    }
    let count = list.len();
    (list.concat(), count)
}
