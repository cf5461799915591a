//! Steps, tolerances, distances, escape levels and values, and the product that wraps.

use crate::palette::{dequant_escape, harness};
use crate::port;
use crate::report::{below, Case, Report};

pub const QPS: std::ops::RangeInclusive<i32> = -128..=75;
pub const DEPTHS: [u8; 3] = [8, 10, 12];
/// Levels at which something may change, the limits of an i32 among them.
pub const LEVELS: [i32; 20] =
    [i32::MIN, i32::MIN + 1, -65536, -32768, -32767, -4096, -2, -1, 0, 1, 2, 3, 255, 256, 4095, 4096, 32766, 32767, 32768, i32::MAX];

pub fn most(depth: u8) -> u64 {
    (1 << depth) - 1
}

#[derive(Clone, Debug)]
pub struct Step {
    pub qp: i32,
}

impl Case for Step {
    type Answer = u64;
    fn source(&self) -> u64 {
        harness::step(self.qp) as u64
    }
    fn port(&self) -> u64 {
        port::step(self.qp)
    }
    fn smaller(&self) -> Vec<Step> {
        below(self.qp).into_iter().map(|qp| Step { qp }).collect()
    }
}

#[derive(Clone, Debug)]
pub struct Tolerance {
    pub lossless: bool,
    pub qp: i32,
}

impl Case for Tolerance {
    type Answer = u64;
    fn source(&self) -> u64 {
        u64::from(harness::color_tolerance(self.qp, self.lossless))
    }
    fn port(&self) -> u64 {
        port::tolerance(self.lossless, port::step(self.qp))
    }
    fn smaller(&self) -> Vec<Tolerance> {
        below(self.qp).into_iter().map(|qp| Tolerance { qp, ..self.clone() }).collect()
    }
}

/// An escape level decoded.
#[derive(Clone, Debug)]
pub struct Dequant {
    pub lossless: bool,
    pub qp: i32,
    pub depth: u8,
    pub level: i32,
}

impl Case for Dequant {
    type Answer = u64;
    fn source(&self) -> u64 {
        u64::from(dequant_escape(self.level, self.qp, self.depth, self.lossless))
    }
    fn port(&self) -> u64 {
        port::dequant_escape(self.lossless, port::step(self.qp), most(self.depth), self.level)
    }
    fn smaller(&self) -> Vec<Dequant> {
        let levels = below(self.level).into_iter().map(|level| Dequant { level, ..self.clone() });
        let qps = below(self.qp).into_iter().map(|qp| Dequant { qp, ..self.clone() });
        levels.chain(qps).collect()
    }
}

/// A sample made an escape level.
#[derive(Clone, Debug)]
pub struct Quantize {
    pub lossless: bool,
    pub qp: i32,
    pub depth: u8,
    pub value: u16,
}

impl Case for Quantize {
    type Answer = u64;
    fn source(&self) -> u64 {
        harness::quantize_escape(self.value, self.qp, self.depth, self.lossless) as u64
    }
    fn port(&self) -> u64 {
        port::quantize_escape(self.lossless, port::step(self.qp), most(self.depth), u64::from(self.value))
    }
    fn smaller(&self) -> Vec<Quantize> {
        let values = below(self.value).into_iter().map(|value| Quantize { value, ..self.clone() });
        let qps = below(self.qp).into_iter().map(|qp| Quantize { qp, ..self.clone() });
        values.chain(qps).collect()
    }
}

/// Two colours of one component or three; the port has each as one number.
#[derive(Clone, Debug)]
pub struct Distance {
    pub a: [u16; 3],
    pub b: [u16; 3],
    pub comps: usize,
}

impl Distance {
    pub fn packed(&self) -> (u64, u64) {
        (harness::color_key(&self.a, self.comps), harness::color_key(&self.b, self.comps))
    }
}

impl Case for Distance {
    type Answer = u64;
    fn source(&self) -> u64 {
        u64::from(harness::max_abs(&self.a, &self.b, self.comps))
    }
    fn port(&self) -> u64 {
        let (a, b) = self.packed();
        port::distance(a, b)
    }
    fn smaller(&self) -> Vec<Distance> {
        let mut less = Vec::new();
        for c in 0..self.comps {
            for x in below(self.a[c]) {
                let mut one = self.clone();
                one.a[c] = x;
                less.push(one);
            }
            for x in below(self.b[c]) {
                let mut one = self.clone();
                one.b[c] = x;
                less.push(one);
            }
        }
        less
    }
}

/// The product that source 000's slot hash takes, of 64 bits.
#[derive(Clone, Debug)]
pub struct Product {
    pub a: u64,
    pub b: u64,
}

impl Case for Product {
    type Answer = u64;
    fn source(&self) -> u64 {
        self.a.wrapping_mul(self.b)
    }
    fn port(&self) -> u64 {
        port::wrapping_mul(self.a, self.b)
    }
    fn smaller(&self) -> Vec<Product> {
        let first = below(self.a).into_iter().map(|a| Product { a, ..self.clone() });
        let second = below(self.b).into_iter().map(|b| Product { b, ..self.clone() });
        first.chain(second).collect()
    }
}

pub fn compare(report: &mut Report) {
    let kinds = || [false, true].into_iter().flat_map(|lossless| QPS.map(move |qp| (lossless, qp)));
    let depths = || kinds().flat_map(|(lossless, qp)| DEPTHS.map(|depth| (lossless, qp, depth)));
    report.compare("step", report.once(QPS).map(|qp| Step { qp }));
    report.compare("tolerance", report.once(kinds()).map(|(lossless, qp)| Tolerance { lossless, qp }));

    let mut random = report.random("dequant");
    let drawn: Vec<i32> = (0..report.count / 20).map(|_| random.next() as i32 >> random.below(32)).collect();
    let levels: Vec<i32> = report.once(LEVELS).chain(drawn).collect();
    report.compare(
        "dequant",
        depths().flat_map(|(lossless, qp, depth)| levels.iter().map(move |&level| Dequant { lossless, qp, depth, level })),
    );
    report.compare(
        "quantize",
        report
            .once(depths())
            .flat_map(|(lossless, qp, depth)| (0..=most(depth) as u16).map(move |value| Quantize { lossless, qp, depth, value })),
    );

    let mut random = report.random("distance");
    let count = report.count;
    let mut color = move |comps: usize| {
        let bits = random.below(17);
        std::array::from_fn(|c| if c < comps { (random.next() % (1u64 << bits)) as u16 } else { 0 })
    };
    report.compare(
        "distance",
        (0..count).map(|k| {
            let comps = if k % 4 == 0 { 1 } else { 3 };
            Distance { a: color(comps), b: color(comps), comps }
        }),
    );

    let mut random = report.random("product");
    report.compare("product", (0..count).map(|_| Product { a: random.wide(), b: random.wide() }));
}
