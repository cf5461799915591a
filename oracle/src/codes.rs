//! The codes of single elements: source 000's bins against the port's, and the port's readers on them.

use crate::code::{trues, Code, Value};
use crate::coverage::Coverage;
use crate::port::Read;
use crate::report::{below, Case, Random, Report};

/// What stands in a list where nothing was written: a byte of no class.
const BLANK: u8 = 0xa5;

/// A code written at a place of a list that has room for some or all of its bins.
#[derive(Clone, Debug)]
pub struct Put {
    code: Code,
    at: usize,
    len: usize,
}

impl Case for Put {
    /// The place after the bins, and the whole list.
    type Answer = (usize, Vec<u8>);
    fn source(&self) -> (usize, Vec<u8>) {
        let bins = self.code.bins();
        let mut list = vec![BLANK; self.len];
        for (cell, &bin) in list.iter_mut().skip(self.at).zip(&bins) {
            *cell = bin;
        }
        (self.at + bins.len(), list)
    }
    fn port(&self) -> (usize, Vec<u8>) {
        let mut list = vec![BLANK; self.len];
        (self.code.put(&mut list, self.at), list)
    }
    fn smaller(&self) -> Vec<Put> {
        let codes = self.code.smaller().into_iter().map(|code| Put { code, ..self.clone() });
        let places = below(self.at as u64).into_iter().map(|at| Put { at: at as usize, ..self.clone() });
        codes.chain(places).collect()
    }
}

/// The number of a refusal, or 0.
fn refusal(answer: &Read<Value>) -> u64 {
    if let Read::Refused(number, _) = answer {
        *number
    } else {
        0
    }
}

/// The port reading source 000's bins back.
#[derive(Clone, Debug)]
pub struct Get {
    code: Code,
    at: usize,
}

impl Get {
    fn list(&self) -> Vec<u8> {
        let mut list = vec![BLANK; self.at];
        list.extend(self.code.bins());
        list.push(BLANK);
        list
    }
}

impl Case for Get {
    type Answer = Read<Value>;
    fn source(&self) -> Read<Value> {
        Read::Value(self.code.value(), self.at + self.code.bins().len())
    }
    fn port(&self) -> Read<Value> {
        self.code.read(&self.list(), self.at)
    }
    fn seen(&self, answer: &Read<Value>, coverage: &mut Coverage) {
        coverage.leaf(self.code.reader(), refusal(answer), 1);
    }
    fn smaller(&self) -> Vec<Get> {
        let codes = self.code.smaller().into_iter().map(|code| Get { code, at: self.at });
        let places = below(self.at as u64).into_iter().map(|at| Get { code: self.code.clone(), at: at as usize });
        codes.chain(places).collect()
    }
}

/// What is done to source 000's bins, at one of them.
#[derive(Clone, Debug)]
pub enum Harm {
    /// The list ends before the bin.
    Cut,
    /// The bin becomes a byte of another class, or of none.
    Class(u8),
    /// The bin is turned, and other bins follow.
    Turned(Vec<u8>),
}

#[derive(Clone, Debug)]
pub struct Damaged {
    pub code: Code,
    pub at: usize,
    pub place: usize,
    pub harm: Harm,
}

impl Damaged {
    pub fn list(&self) -> Vec<u8> {
        let mut list = vec![BLANK; self.at];
        list.extend(self.code.bins());
        let hit = self.at + self.place;
        match &self.harm {
            Harm::Cut => list.truncate(hit),
            Harm::Class(byte) => list[hit] = *byte,
            Harm::Turned(rest) => {
                list[hit] ^= 1;
                list.extend(rest);
            }
        }
        list
    }
}

/// The bins that a reader used, or its refusal.
#[derive(Debug, PartialEq)]
pub enum Used {
    Bins(Vec<u8>),
    Refused(u64, usize),
}

impl Case for Damaged {
    type Answer = Used;
    /// A cut or a foreign class is refused at the bin. Of other bins, what the port accepts is what source 000 writes for that value; a refusal is in its place.
    fn source(&self) -> Used {
        let hit = self.at + self.place;
        match self.harm {
            Harm::Cut => Used::Refused(10, hit),
            Harm::Class(_) => Used::Refused(11, hit),
            Harm::Turned(_) => {
                let list = self.list();
                match self.code.read(&list, self.at) {
                    Read::Value(value, _) => Used::Bins(self.code.with(&value).bins()),
                    Read::Refused(10, _) => Used::Refused(10, list.len()),
                    Read::Refused(number, place) => Used::Refused(number.clamp(11, 12), place.min(list.len() - 1)),
                }
            }
        }
    }
    fn port(&self) -> Used {
        let list = self.list();
        match self.code.read(&list, self.at) {
            Read::Value(_, next) => Used::Bins(list[self.at..next].to_vec()),
            Read::Refused(number, place) => Used::Refused(number, place),
        }
    }
    fn seen(&self, answer: &Used, coverage: &mut Coverage) {
        let number = if let Used::Refused(number, _) = answer { *number } else { 0 };
        coverage.leaf(self.code.reader(), number, 1);
    }
    fn smaller(&self) -> Vec<Damaged> {
        let places = below(self.place as u64).into_iter().map(|p| Damaged { place: p as usize, ..self.clone() });
        let codes = self.code.smaller().into_iter().map(|code| Damaged { code, ..self.clone() });
        places.chain(codes).filter(|d| d.place < d.code.bins().len()).collect()
    }
}

/// A prefix of ones that is too long: refused at the value's first bin.
#[derive(Clone, Debug)]
pub struct Ones {
    code: Code,
    ones: usize,
}

impl Case for Ones {
    type Answer = Read<Value>;
    fn source(&self) -> Read<Value> {
        Read::Refused(12, 1)
    }
    fn port(&self) -> Read<Value> {
        let mut list = vec![BLANK];
        list.extend(vec![1; self.ones]);
        self.code.read(&list, 1)
    }
    fn seen(&self, answer: &Read<Value>, coverage: &mut Coverage) {
        coverage.leaf(self.code.reader(), refusal(answer), 1);
    }
}

/// A value over its range: refused at its first bin, once it is read.
#[derive(Clone, Debug)]
pub struct Over {
    code: Code,
    at: usize,
}

impl Case for Over {
    type Answer = Read<Value>;
    fn source(&self) -> Read<Value> {
        Read::Refused(12, self.at)
    }
    fn port(&self) -> Read<Value> {
        let mut list = vec![BLANK; self.at];
        list.extend(self.code.bins());
        self.code.read(&list, self.at)
    }
    fn seen(&self, answer: &Read<Value>, coverage: &mut Coverage) {
        coverage.leaf(self.code.reader(), refusal(answer), 1);
    }
}

// ---- the domains

/// Orders that the port uses: 0, 3, and one more than each Rice parameter of the index count.
pub fn orders() -> impl Iterator<Item = u32> + Clone {
    [0, 3].into_iter().chain(4..=12)
}

/// The greatest value with 16 ones before it.
pub fn egk_top(order: u32) -> u32 {
    ((1 << 17) - 1 << order) - 1
}

fn bits() -> impl Iterator<Item = Code> {
    let small = (0..=12).flat_map(|n| (0..1u32 << n).map(move |value| Code::Bits { n, value }));
    let limits = (0..=32).flat_map(|n| [0, 1, u32::MAX / 3, u32::MAX - 1, u32::MAX].map(|value| Code::Bits { n, value: low(value, n) }));
    small.chain(limits)
}

/// The n low bits.
fn low(value: u32, n: u32) -> u32 {
    (u64::from(value) % (1 << n)) as u32
}

fn tb() -> impl Iterator<Item = Code> {
    (1..=1025).flat_map(|alphabet| (0..alphabet).map(move |value| Code::Tb { alphabet, value }))
}

fn egk() -> impl Iterator<Item = Code> {
    let small = orders().flat_map(|order| (0..32768).map(move |value| Code::Egk { order, value }));
    let limits = orders().flat_map(|order| {
        let top = egk_top(order);
        let turns = (15..30).flat_map(|j| [(1 << j) - 1, 1 << j, (1 << j) + 1]).filter(move |&v| v < top);
        turns.chain([top - 1, top]).map(move |value| Code::Egk { order, value })
    });
    small.chain(limits)
}

/// Values with a range: the signalled count and lossy levels.
fn held() -> impl Iterator<Item = Code> {
    let counts = (0..=64).flat_map(|top| (0..=top).map(move |value| Code::Held { order: 0, top, value }));
    counts.chain((0..=32767).map(|value| Code::Held { order: 3, top: 32767, value }))
}

fn over() -> impl Iterator<Item = Over> {
    let counts = (0..=64).flat_map(|top| (top + 1..=130).map(move |value| Code::Held { order: 0, top, value }));
    let levels = (32768..40000).chain([egk_top(3)]).map(|value| Code::Held { order: 3, top: 32767, value });
    counts.chain(levels).zip(0..).map(|(code, k)| Over { code, at: k % 3 })
}

fn count() -> impl Iterator<Item = Code> {
    (1..=64).flat_map(|m| (0..1024).map(move |value| Code::Count { m, value }))
}

fn run() -> impl Iterator<Item = Code> {
    let kinds = |longest: u32, more: u32| {
        let index = (0..=4).map(move |sent| Code::Run { longest, above: false, sent, more });
        index.chain([Code::Run { longest, above: true, sent: 0, more }])
    };
    (0..=1023).flat_map(move |longest| (0..=longest).flat_map(move |more| kinds(longest, more)))
}

/// All flags of up to ten entries, with room for more entries and with none left.
fn few_flags() -> impl Iterator<Item = Code> {
    (0..=10usize).flat_map(|n| {
        (0..1u32 << n).flat_map(move |set| {
            let flags: Vec<bool> = (0..n).map(|k| set >> k & 1 == 1).collect();
            [trues(&flags), 64].map(|limit| Code::Reuse { limit, flags: flags.clone() })
        })
    })
}

/// Flags of up to 128 entries, at most 64 of them true, often exactly 64.
pub fn drawn_flags(random: &mut Random) -> Code {
    let n = if random.below(2) == 0 { 128 } else { random.below(129) as usize };
    let dense = random.below(101);
    let mut flags: Vec<bool> = (0..n).map(|_| random.below(100) < dense).collect();
    while trues(&flags) > 64 {
        let k = random.below(n as u64) as usize;
        flags[k] = false;
    }
    Code::Reuse { limit: 64, flags }
}

/// A code of the same kind, drawn from its whole domain.
pub fn drawn(kind: usize, random: &mut Random) -> Code {
    match kind {
        0 => {
            let n = random.below(33) as u32;
            Code::Bits { n, value: low(random.wide() as u32, n) }
        }
        1 => {
            let alphabet = 1 + random.below(1025) as u32;
            Code::Tb { alphabet, value: random.below(alphabet.into()) as u32 }
        }
        2 => {
            let order = orders().nth(random.below(11) as usize).unwrap();
            Code::Egk { order, value: (random.wide() % (u64::from(egk_top(order)) + 1)) as u32 }
        }
        3 => Code::Held { order: 3, top: 32767, value: random.below(32768) as u32 },
        4 => Code::Count { m: 1 + random.below(64) as u32, value: random.below(1024) as u32 },
        5 => {
            let longest = random.below(1024) as u32;
            let above = random.below(4) == 0;
            let sent = if above { 0 } else { random.below(65) as u32 };
            Code::Run { longest, above, sent, more: random.below(u64::from(longest) + 1) as u32 }
        }
        _ => drawn_flags(random),
    }
}

/// How many kinds of code have a writer.
pub const KINDS: usize = 7;
const PUT: [&str; KINDS] = ["put-bits", "put-tb", "put-egk", "put-held", "put-count", "put-run", "put-reuse"];
const GET: [&str; KINDS] = ["get-bits", "get-tb", "get-egk", "get-held", "get-count", "get-run", "get-reuse"];
const DAMAGED: [&str; KINDS] =
    ["damaged-bits", "damaged-tb", "damaged-egk", "damaged-held", "damaged-count", "damaged-run", "damaged-reuse"];

fn all(kind: usize) -> Box<dyn Iterator<Item = Code>> {
    match kind {
        0 => Box::new(bits()),
        1 => Box::new(tb()),
        2 => Box::new(egk()),
        3 => Box::new(held()),
        4 => Box::new(count()),
        5 => Box::new(run()),
        _ => Box::new(few_flags()),
    }
}

fn compare_kind(report: &mut Report, kind: usize) {
    let count = report.count;
    if kind != 3 {
        let whole = report.once(all(kind)).map(|code| {
            let len = code.bins().len() + 3;
            Put { code, at: 2, len }
        });
        let mut random = report.random(PUT[kind]);
        let short = (0..count).map(|_| {
            let code = drawn(kind, &mut random);
            let (at, bins) = (random.below(9) as usize, code.bins().len() as u64);
            Put { code, at, len: random.below(at as u64 + bins + 2) as usize }
        });
        report.compare(PUT[kind], whole.chain(short).filter(|case| case.code.is_written()));
    }
    let mut random = report.random(GET[kind]);
    let more = (0..count).map(|_| (drawn(kind, &mut random), random.below(9) as usize));
    let cases = report.once(all(kind)).map(|code| (code, 1)).chain(more).map(|(code, at)| Get { code, at });
    report.compare(GET[kind], cases);

    let mut random = report.random(DAMAGED[kind]);
    let spoilt = (0..count).filter_map(|_| {
        let code = drawn(kind, &mut random);
        let bins = code.bins();
        if bins.is_empty() {
            return None;
        }
        let place = random.below(bins.len() as u64) as usize;
        let harm = match random.below(3) {
            0 => Harm::Cut,
            1 => {
                let byte = random.below(256) as u8;
                Harm::Class(if byte / 2 == bins[place] / 2 { byte ^ 2 } else { byte })
            }
            _ => Harm::Turned((0..random.below(24)).map(|_| random.below(2) as u8).collect()),
        };
        Some(Damaged { code, at: random.below(5) as usize, place, harm })
    });
    report.compare(DAMAGED[kind], spoilt);
}

pub fn compare(report: &mut Report) {
    let classes = (0..=10).flat_map(|class| [false, true].map(|bin| Code::Bin { class, bin }));
    report.compare("get-bin", report.once(classes.clone()).flat_map(|code| (0..4).map(move |at| Get { code: code.clone(), at })));
    report.compare(
        "damaged-bin",
        report.once(classes).flat_map(|code| {
            let own = code.bins()[0] / 2;
            let foreign = (0..=255).filter(move |byte| byte / 2 != own).map(Harm::Class);
            foreign.chain([Harm::Cut]).map(move |harm| Damaged { code: code.clone(), at: 1, place: 0, harm })
        }),
    );
    for kind in 0..KINDS {
        compare_kind(report, kind);
    }
    report.compare("over-range", report.once(over()));
    let long = (17..20).flat_map(|ones| {
        let egk = orders().map(move |order| Ones { code: Code::Egk { order, value: 0 }, ones });
        let counts = (1..=64).map(move |m| Ones { code: Code::Count { m, value: 0 }, ones: ones + 4 });
        let held = [Ones { code: Code::Held { order: 3, top: 32767, value: 0 }, ones }];
        egk.chain(counts).chain(held).chain([Ones { code: Code::Reuse { limit: 64, flags: vec![false; 128] }, ones }])
    });
    report.compare("seventeen-ones", report.once(long));
}
