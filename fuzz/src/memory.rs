//! Memory for a call: each list right against a page that may not be touched, canaries on its other side, and a copy of what stood in it.

use std::ffi::c_void;
use std::slice::{from_raw_parts, from_raw_parts_mut};

extern "C" {
    fn mmap(at: *mut c_void, len: usize, protection: i32, flags: i32, file: i32, offset: i64) -> *mut c_void;
    fn mprotect(at: *mut c_void, len: usize, protection: i32) -> i32;
}

const PAGE: usize = 4096;
const ROOM: usize = 32 * PAGE;
/// So many canaries are looked at after each call, and all of them now and then.
const BAND: usize = 512;
const CANARY: u8 = 0xc7;
const MOST_LISTS: usize = 10;

/// ROOM bytes between two pages that may not be touched.
struct Slot {
    room: *mut u8,
    start: usize,
    before: Vec<u8>,
    lent: bool,
}

impl Slot {
    fn new() -> Slot {
        const NOTHING: i32 = 0;
        const READ_WRITE: i32 = 3;
        const PRIVATE_ANONYMOUS: i32 = 0x22;
        // SAFETY: fresh memory of the process's own
        let room = unsafe {
            let all = mmap(std::ptr::null_mut(), ROOM + 2 * PAGE, NOTHING, PRIVATE_ANONYMOUS, -1, 0).cast::<u8>();
            assert!(all as isize != -1, "no memory");
            let room = all.add(PAGE);
            assert_eq!(mprotect(room.cast(), ROOM, READ_WRITE), 0);
            from_raw_parts_mut(room, ROOM).fill(CANARY);
            room
        };
        Slot { room, start: 0, before: Vec::new(), lent: false }
    }

    fn bytes(&mut self) -> &mut [u8] {
        // SAFETY: the room is this slot's alone, and no call keeps it
        unsafe { from_raw_parts_mut(self.room, ROOM) }
    }

    /// A list laid at the room's start or end.
    fn lay<T: Copy>(&mut self, list: &[T], low: bool, lent: bool) -> *mut T {
        // SAFETY: numbers without padding
        let bytes = unsafe { from_raw_parts(list.as_ptr().cast::<u8>(), size_of_val(list)) };
        self.start = if low { 0 } else { ROOM - bytes.len() };
        (self.before, self.lent) = (bytes.to_vec(), lent);
        let start = self.start;
        self.bytes()[start..start + bytes.len()].copy_from_slice(bytes);
        self.room.wrapping_add(start).cast()
    }

    fn now(&self) -> &[u8] {
        // SAFETY: within the room
        unsafe { from_raw_parts(self.room.add(self.start), self.before.len()) }
    }

    /// Whether the canaries live; the room is theirs again.
    fn clear(&mut self, whole: bool) -> bool {
        let (start, end) = (self.start, self.start + self.before.len());
        let band = if whole { ROOM } else { BAND };
        let bytes = self.bytes();
        let lives = [start.saturating_sub(band)..start, end..(end + band).min(ROOM)]
            .into_iter()
            .all(|part| bytes[part].iter().all(|&b| b == CANARY));
        let old = if lives { start..end } else { 0..ROOM };
        bytes[old].fill(CANARY);
        lives
    }
}

/// The lists of one call.
pub struct Frame {
    slots: Vec<Slot>,
    used: usize,
    /// Bit k: list k stands at its room's start.
    ends: u64,
}

impl Frame {
    pub fn new() -> Frame {
        Frame { slots: (0..MOST_LISTS).map(|_| Slot::new()).collect(), used: 0, ends: 0 }
    }

    pub fn begin(&mut self, ends: u64) {
        (self.used, self.ends) = (0, ends);
    }

    fn lay<T: Copy>(&mut self, list: &[T], lent: bool) -> (*mut T, usize) {
        let k = self.used;
        self.used += 1;
        (self.slots[k].lay(list, self.ends >> k & 1 == 1, lent), list.len())
    }

    /// A list to be read.
    pub fn read<T: Copy>(&mut self, list: &[T]) -> (*const T, usize) {
        let (at, len) = self.lay(list, false);
        (at, len)
    }

    /// A list to be changed.
    pub fn lend<T: Copy>(&mut self, list: &[T]) -> (*mut T, usize) {
        self.lay(list, true)
    }

    /// List k as it is, and as it was.
    pub fn now<T: Copy>(&self, k: usize) -> Vec<T> {
        numbers(self.slots[k].now())
    }

    pub fn before<T: Copy>(&self, k: usize) -> Vec<T> {
        numbers(&self.slots[k].before)
    }

    pub fn is_kept(&self, k: usize) -> bool {
        self.slots[k].now() == self.slots[k].before
    }

    /// What is wrong after a call: a canary, a list that was to be read, or on a refusal a lent one that is not `free`.
    pub fn end(&mut self, refused: bool, free: &[usize], whole: bool) -> Result<(), String> {
        let mut fine = Ok(());
        for k in 0..self.used {
            let kept = self.is_kept(k);
            let slot = &mut self.slots[k];
            let problem = match slot.clear(whole) {
                false => "was written outside",
                true if !kept && !slot.lent => "is to be read and was changed",
                true if !kept && refused && !free.contains(&k) => "was changed by a call that refused",
                true => continue,
            };
            fine = fine.and(Err(format!("list {k} {problem}")));
        }
        fine
    }
}

fn numbers<T: Copy>(bytes: &[u8]) -> Vec<T> {
    let mut list: Vec<T> = Vec::with_capacity(bytes.len() / size_of::<T>());
    // SAFETY: numbers without padding, for which there is room
    unsafe {
        std::ptr::copy_nonoverlapping(bytes.as_ptr(), list.as_mut_ptr().cast::<u8>(), bytes.len());
        list.set_len(bytes.len() / size_of::<T>());
    }
    list
}
