//! Calls of the exported leaves.

use crate::calls::{answer, check, Answer, Checked, CALLS, OUTSIDE};
use crate::memory::Frame;
use crate::random::Spoiler;
use crate::world::World;
use common::exported::*;
use common::layout::set;

const NONE: u64 = u64::MAX;

// SAFETY, of every call below: the lists are the frame's, and the functions require nothing.

pub fn number(k: usize, w: &World, s: &mut Spoiler) -> Checked {
    let small = |s: &mut Spoiler, most: usize| {
        let x = s.random.below(most + 1);
        s.number(x)
    };
    let (lossless, step) = (s.number(w.transpose), small(s, 300_000) as u64);
    let (a, b) = (s.random.next(), s.random.next());
    let (a, b) = (s.number(a), s.number(b));
    let got = unsafe {
        match k {
            0 => velomitra_scan_pos(small(s, 1023), small(s, 32)),
            1 => velomitra_scan_pos_inv(small(s, 32), small(s, 32), small(s, 32)),
            2 => velomitra_place_above(small(s, 1023), small(s, 32)),
            3 => velomitra_step(s.number(w.config[set::QP])),
            4 => velomitra_tolerance(lossless, step),
            5 => velomitra_distance(a, b),
            6 => velomitra_dequant_escape(lossless, step, small(s, 4095) as u64, small(s, 40000) as i32),
            7 => velomitra_quantize_escape(lossless, step, small(s, 4095) as u64, small(s, 65536) as u64),
            _ => velomitra_wrapping_mul(a, b),
        }
    };
    let fine = match k {
        0 => got == NONE || got / 65536 < 1024 && got % 65536 < 32,
        1 | 2 => got == NONE || got < 1024,
        3 => got == NONE || got <= 294_912,
        4 => got <= 16,
        8 => got == a.wrapping_mul(b),
        _ => true,
    };
    check(fine, "a number that is none")?;
    answer(if got == NONE && CALLS[k].1.contains(&OUTSIDE) { OUTSIDE } else { 0 })
}

pub fn put(k: usize, w: &World, s: &mut Spoiler, f: &mut Frame) -> Checked {
    let room = s.random.below(300);
    let list = s.list(&w.bins[..room.min(w.bins.len())]);
    let at = s.random.below(list.len() + 2);
    let at = s.number(at);
    let (p, n) = f.lend(&list);
    let mut small = |most: usize| {
        let x = s.random.below(most + 1) as u32;
        s.number(x)
    };
    let after = unsafe {
        match k {
            0 => velomitra_put_bits(p, n, at, small(1 << 20), small(33)),
            1 => velomitra_put_tb(p, n, at, small(1030), small(1030)),
            2 => velomitra_put_egk(p, n, at, small(14), small(65540)),
            3 => velomitra_put_count(p, n, at, small(66), small(1030)),
            4 => velomitra_put_run(p, n, at, small(1026), small(1) == 1, small(66), small(1026)),
            _ => {
                let limit = small(66);
                let count = s.random.below(131);
                let flags: Vec<bool> = (0..count).map(|_| s.random.one_in(3)).collect();
                let (flags, count) = f.read(&s.list(&flags));
                velomitra_put_reuse(p, n, at, limit, flags, count)
            }
        }
    };
    let (before, now) = (f.before::<u8>(0), f.now::<u8>(0));
    check(after >= at, "a place before the bins")?;
    check(after - at < 4096, "more bins than a code has")?;
    let laid = at.min(n)..after.min(n);
    check(now[laid.clone()].iter().all(|&bin| bin <= 22), "a bin of no class")?;
    check(before[..laid.start] == now[..laid.start] && before[laid.end..] == now[laid.end..], "written beside the bins")?;
    answer(if after == at { OUTSIDE } else { 0 })
}

pub fn get(k: usize, w: &World, s: &mut Spoiler, f: &mut Frame) -> Checked {
    // a block's bins, or bypass bins, few or all of them ones
    let ones = s.random.within(1, 8);
    let list =
        if s.random.one_in(2) { s.list(&w.bins) } else { (0..s.random.below(60)).map(|_| (s.random.below(8) < ones).into()).collect() };
    let at = s.random.below(list.len().min(40) + 1);
    let at = s.number(at);
    let (p, n) = f.read(&list);
    let mut small = |most: usize| {
        let x = s.random.below(most + 1) as u32;
        s.number(x)
    };
    let told = [small(65), small(1), small(66)];
    let flags: Vec<bool> = (0..s.random.below(131)).map(|_| s.random.one_in(2)).collect();
    let flags = if k == 7 { f.lend(&s.list(&flags)) } else { (std::ptr::null_mut(), 0) };
    let (out, room) = f.lend(&s.list(&[77u64; 3]));
    unsafe {
        match k {
            0 => velomitra_bin_at(p, n, at, told[0] as u8 % 12, out, room),
            1 => velomitra_bits_at(p, n, at, told[0], out, room),
            2 => velomitra_tb_at(p, n, at, told[0], out, room),
            3 => velomitra_egk_at(p, n, at, told[0] % 16, out, room),
            4 => velomitra_held_egk_at(p, n, at, told[0] % 16, told[2], out, room),
            5 => velomitra_count_at(p, n, at, told[0], out, room),
            6 => velomitra_run_at(p, n, at, told[0], told[1] == 1, told[2], out, room),
            _ => velomitra_reuse_at(p, n, at, told[0], flags.0, flags.1, out, room),
        }
    }
    let last = if k == 7 { 2 } else { 1 };
    check(k != 7 || f.now::<u8>(1).iter().all(|&flag| flag < 2), "a flag that is none")?;
    let (before, now) = (f.before::<u64>(last), f.now::<u64>(last));
    if before == now {
        return Ok(Answer { number: OUTSIDE, free: &[1] });
    }
    check(before.get(3..) == now.get(3..), "more than three numbers laid")?;
    check(now[0] <= 12, "an answer that is none")?;
    if let [10..=12, value, place, ..] = now[..] {
        check(value == 0 && place as usize <= n.max(at), "a refusal with a value, or past the list")?;
    }
    Ok(Answer { number: now[0] as u8, free: &[1, 2] })
}
