//! Every exported function, called with a world's lists and numbers as a spoiler leaves them, and its answer held to document 01.

use crate::memory::Frame;
use crate::random::Spoiler;
use crate::world::World;
use crate::{blocks, leaves};

/// What a call may answer that is no refusal: its numbers lie outside the leaf's domain, and nothing was laid.
pub const OUTSIDE: u8 = 255;

/// The exported functions and, of document 01, the answers of each.
pub const CALLS: [(&str, &[u8]); 33] = [
    ("velomitra_scan_pos", &[0, OUTSIDE]),
    ("velomitra_scan_pos_inv", &[0, OUTSIDE]),
    ("velomitra_place_above", &[0, OUTSIDE]),
    ("velomitra_step", &[0, OUTSIDE]),
    ("velomitra_tolerance", &[0]),
    ("velomitra_distance", &[0]),
    ("velomitra_dequant_escape", &[0, OUTSIDE]),
    ("velomitra_quantize_escape", &[0, OUTSIDE]),
    ("velomitra_wrapping_mul", &[0]),
    ("velomitra_put_bits", &[0, OUTSIDE]),
    ("velomitra_put_tb", &[0, OUTSIDE]),
    ("velomitra_put_egk", &[0, OUTSIDE]),
    ("velomitra_put_count", &[0, OUTSIDE]),
    ("velomitra_put_run", &[0, OUTSIDE]),
    ("velomitra_put_reuse", &[0, OUTSIDE]),
    ("velomitra_bin_at", &[0, 10, 11, OUTSIDE]),
    ("velomitra_bits_at", &[0, 10, 11, OUTSIDE]),
    ("velomitra_tb_at", &[0, 10, 11, OUTSIDE]),
    ("velomitra_egk_at", &[0, 10, 11, 12, OUTSIDE]),
    ("velomitra_held_egk_at", &[0, 10, 11, 12, OUTSIDE]),
    ("velomitra_count_at", &[0, 10, 11, 12, OUTSIDE]),
    ("velomitra_run_at", &[0, 10, 11, OUTSIDE]),
    ("velomitra_reuse_at", &[0, 10, 11, 12, OUTSIDE]),
    ("velomitra_analyze_palette", &[0, 1, 2, 3, 4, 5, 13]),
    ("velomitra_analyze_with", &[0, 1, 2, 3, 4, 5, 7, 13]),
    ("velomitra_update", &[0, 2, 5, 7]),
    ("velomitra_assign_indices", &[0, 1, 2, 3, 4, 7, 14]),
    ("velomitra_palette_sse", &[0, 1, 2, 3, 4, 7]),
    ("velomitra_smooth_indices", &[0, 1, 2, 3, 4, 7, 15]),
    ("velomitra_plan_runs", &[0, 2, 6, 7, 9]),
    ("velomitra_write_palette_cu", &[0, 2, 7, 8, 9]),
    ("velomitra_read_palette_cu", &[0, 1, 2, 5, 9, 10, 11, 12]),
    ("velomitra_reconstruct", &[0, 1, 2, 3, 7]),
];
pub const PUT: usize = 9;
pub const GET: usize = 15;
pub const BLOCKS: usize = 23;
pub const ANALYZE: usize = 23;
pub const ASSIGN: usize = 26;
pub const PLAN: usize = 29;
pub const WRITE: usize = 30;

/// An answer, and the lists that it may change though it refuses.
pub struct Answer {
    pub number: u8,
    pub free: &'static [usize],
}

pub type Checked = Result<Answer, String>;

pub fn check(fine: bool, what: &str) -> Result<(), String> {
    if fine {
        Ok(())
    } else {
        Err(what.into())
    }
}

pub fn answer(number: u8) -> Checked {
    Ok(Answer { number, free: &[] })
}

/// Calls function k.
pub fn call(k: usize, w: &World, s: &mut Spoiler, f: &mut Frame) -> Checked {
    match k {
        0..PUT => leaves::number(k, w, s),
        PUT..GET => leaves::put(k - PUT, w, s, f),
        GET..BLOCKS => leaves::get(k - GET, w, s, f),
        23 | 24 => blocks::analyze(k == 24, w, s, f),
        25 => blocks::update(w, s, f),
        26 => blocks::assign(w, s, f),
        27 => blocks::figure(w, s, f),
        28 => blocks::smooth(w, s, f),
        29 => blocks::plan(w, s, f),
        30 => blocks::write(w, s, f),
        31 => blocks::read(w, s, f),
        _ => blocks::reconstruct(w, s, f),
    }
}
