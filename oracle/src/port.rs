//! The port's exported functions over slices; those that read a value are told with its answer.

use common::calls;

pub use common::calls::*;

/// What a reader answers: a value and the place after its bins, or a refusal's number and place.
#[derive(Clone, Debug, PartialEq)]
pub enum Read<V> {
    Value(V, usize),
    Refused(u64, usize),
}

/// A reader's answer from the three numbers that it lays: refusal or 0, value, place.
fn read(lay: impl FnOnce(&mut [u64])) -> Read<u64> {
    let mut out = [u64::MAX; 3];
    lay(&mut out);
    match out {
        [0, value, place] => Read::Value(value, place as usize),
        [number, _, place] => Read::Refused(number, place as usize),
    }
}

pub fn bin_at(list: &[u8], at: usize, class: u8) -> Read<u64> {
    read(|out| calls::bin_at(list, at, class, out))
}

pub fn bits_at(list: &[u8], at: usize, n: u32) -> Read<u64> {
    read(|out| calls::bits_at(list, at, n, out))
}

pub fn tb_at(list: &[u8], at: usize, n: u32) -> Read<u64> {
    read(|out| calls::tb_at(list, at, n, out))
}

pub fn egk_at(list: &[u8], at: usize, order: u32) -> Read<u64> {
    read(|out| calls::egk_at(list, at, order, out))
}

pub fn held_egk_at(list: &[u8], at: usize, order: u32, top: u32) -> Read<u64> {
    read(|out| calls::held_egk_at(list, at, order, top, out))
}

pub fn count_at(list: &[u8], at: usize, m: u32) -> Read<u64> {
    read(|out| calls::count_at(list, at, m, out))
}

pub fn run_at(list: &[u8], at: usize, longest: u32, above: bool, sent: u32) -> Read<u64> {
    read(|out| calls::run_at(list, at, longest, above, sent, out))
}

/// How many of `count` predictor entries are reused, and their flags.
pub fn reuse_at(list: &[u8], at: usize, limit: u32, count: usize) -> Read<(u64, Vec<bool>)> {
    let mut flags = vec![false; count];
    match read(|out| calls::reuse_at(list, at, limit, &mut flags, out)) {
        Read::Value(number, place) => Read::Value((number, flags), place),
        Read::Refused(number, place) => Read::Refused(number, place),
    }
}
