//! The codes of single elements, each on both sides.

use crate::bins::Bins;
use crate::palette::harness;
use crate::palette::PaletteBitWriter;
use crate::port::{self, Read};
use crate::report::below;

/// One value in its code, with what the code is told.
#[derive(Clone, Debug)]
pub enum Code {
    /// One bin of a class.
    Bin { class: u8, bin: bool },
    /// Fixed length.
    Bits { n: u32, value: u32 },
    /// Truncated binary.
    Tb { alphabet: u32, value: u32 },
    /// Exp-Golomb.
    Egk { order: u32, value: u32 },
    /// Exp-Golomb, read as a value of at most `top`.
    Held { order: u32, top: u32, value: u32 },
    /// The index count, less 1; m is the greatest index.
    Count { m: u32, value: u32 },
    /// A run's prefix and suffix.
    Run { longest: u32, above: bool, sent: u32, more: u32 },
    /// The reuse runs.
    Reuse { limit: u32, flags: Vec<bool> },
}

/// A value as numbers: the value itself, or how many flags are true and the flags.
pub type Value = Vec<u64>;

fn numbered(number: u64, flags: &[bool]) -> Value {
    [number].into_iter().chain(flags.iter().map(|&flag| flag.into())).collect()
}

impl Code {
    /// Source 000's bins.
    pub fn bins(&self) -> Vec<u8> {
        match *self {
            Code::Bin { class, bin } => vec![class * 2 + u8::from(bin)],
            Code::Bits { n, value } => Bins::of(|to| to.bypass_bits(value, n)),
            Code::Tb { alphabet, value } => Bins::of(|to| harness::write_truncated_binary(to, value, alphabet)),
            Code::Egk { order, value } | Code::Held { order, value, .. } => Bins::of(|to| harness::write_egk(to, value, order)),
            Code::Count { m, value } => Bins::of(|to| harness::write_num_palette_indices(to, value, m)),
            Code::Run { longest, above, sent, more } => Bins::of(|to| harness::write_run(to, more, longest, above, sent)),
            Code::Reuse { limit, ref flags } => Bins::of(|to| harness::write_reuse_flags(to, flags, limit as usize)),
        }
    }

    /// Whether the port writes the value: Exp-Golomb up to 65,535, though it reads any with at most 16 ones.
    pub fn is_written(&self) -> bool {
        !matches!(self, Code::Egk { value: 65536.., .. } | Code::Held { .. })
    }

    /// The port's bins laid in a list, and the place after them.
    pub fn put(&self, list: &mut [u8], at: usize) -> usize {
        match *self {
            Code::Bin { .. } => panic!("no writer of single bins is exported"),
            Code::Bits { n, value } => port::put_bits(list, at, value, n),
            Code::Tb { alphabet, value } => port::put_tb(list, at, alphabet, value),
            Code::Egk { order, value } | Code::Held { order, value, .. } => port::put_egk(list, at, order, value),
            Code::Count { m, value } => port::put_count(list, at, m, value),
            Code::Run { longest, above, sent, more } => port::put_run(list, at, longest, above, sent, more),
            Code::Reuse { limit, ref flags } => port::put_reuse(list, at, limit, flags),
        }
    }

    pub fn value(&self) -> Value {
        match *self {
            Code::Bin { bin, .. } => vec![u64::from(bin)],
            Code::Bits { value, .. }
            | Code::Tb { value, .. }
            | Code::Egk { value, .. }
            | Code::Held { value, .. }
            | Code::Count { value, .. }
            | Code::Run { more: value, .. } => vec![u64::from(value)],
            Code::Reuse { ref flags, .. } => numbered(trues(flags).into(), flags),
        }
    }

    /// The same code with another value.
    pub fn with(&self, new: &[u64]) -> Code {
        let mut code = self.clone();
        match &mut code {
            Code::Bin { bin, .. } => *bin = new[0] == 1,
            Code::Bits { value, .. }
            | Code::Tb { value, .. }
            | Code::Egk { value, .. }
            | Code::Held { value, .. }
            | Code::Count { value, .. }
            | Code::Run { more: value, .. } => *value = new[0] as u32,
            Code::Reuse { flags, .. } => *flags = new[1..].iter().map(|&flag| flag == 1).collect(),
        }
        code
    }

    /// What the port reads at a place; the code's own value plays no part.
    pub fn read(&self, list: &[u8], at: usize) -> Read<Value> {
        let got = match *self {
            Code::Bin { class, .. } => port::bin_at(list, at, class),
            Code::Bits { n, .. } => port::bits_at(list, at, n),
            Code::Tb { alphabet, .. } => port::tb_at(list, at, alphabet),
            Code::Egk { order, .. } => port::egk_at(list, at, order),
            Code::Held { order, top, .. } => port::held_egk_at(list, at, order, top),
            Code::Count { m, .. } => port::count_at(list, at, m),
            Code::Run { longest, above, sent, .. } => port::run_at(list, at, longest, above, sent),
            Code::Reuse { limit, ref flags } => {
                return match port::reuse_at(list, at, limit, flags.len()) {
                    Read::Value((number, flags), next) => Read::Value(numbered(number, &flags), next),
                    Read::Refused(number, place) => Read::Refused(number, place),
                }
            }
        };
        match got {
            Read::Value(value, next) => Read::Value(vec![value], next),
            Read::Refused(number, place) => Read::Refused(number, place),
        }
    }

    /// The exported function that reads it.
    pub fn reader(&self) -> &'static str {
        match self {
            Code::Bin { .. } => "bin_at",
            Code::Bits { .. } => "bits_at",
            Code::Tb { .. } => "tb_at",
            Code::Egk { .. } => "egk_at",
            Code::Held { .. } => "held_egk_at",
            Code::Count { .. } => "count_at",
            Code::Run { .. } => "run_at",
            Code::Reuse { .. } => "reuse_at",
        }
    }

    pub fn smaller(&self) -> Vec<Code> {
        match *self {
            Code::Reuse { limit, ref flags } => {
                let without = |k: usize| flags.iter().enumerate().filter(|&(j, _)| j != k).map(|(_, &f)| f).collect();
                (0..flags.len()).map(|k| Code::Reuse { limit, flags: without(k) }).collect()
            }
            Code::Run { longest, above, sent, more } => {
                let fewer = below(more).into_iter().map(|more| Code::Run { longest, above, sent, more });
                let shorter = below(longest).into_iter().filter(|&l| more <= l);
                fewer.chain(shorter.map(|longest| Code::Run { longest, above, sent, more })).collect()
            }
            _ => below(self.value()[0]).into_iter().map(|value| self.with(&[value])).collect(),
        }
    }
}

pub fn trues(flags: &[bool]) -> u32 {
    flags.iter().filter(|&&flag| flag).count() as u32
}
