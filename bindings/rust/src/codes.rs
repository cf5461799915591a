//! Document 01's starred figures of single codes, by the exported writers and readers.

use crate::exported;

type Writer<'a> = &'a dyn Fn(*mut u8, usize) -> usize;
type Reader<'a> = &'a dyn Fn(*const u8, usize, *mut u64, usize);

/// The bins of a code, without their class, read back.
fn bins(value: u64, write: Writer, read: Reader) -> String {
    let mut list = [0; 64];
    let end = write(list.as_mut_ptr(), list.len());
    let mut out = [u64::MAX; 3];
    read(list.as_ptr(), end, out.as_mut_ptr(), out.len());
    assert_eq!(out, [0, value, end as u64]);
    list[..end].iter().map(|bin| if bin % 2 == 1 { '1' } else { '0' }).collect()
}

fn egk(order: u32, value: u32) -> String {
    bins(value.into(), &|list, len| unsafe { exported::velomitra_put_egk(list, len, 0, order, value) }, &|list, len, out, room| unsafe {
        exported::velomitra_egk_at(list, len, 0, order, out, room)
    })
}

fn tb(alphabet: u32, value: u32) -> String {
    bins(value.into(), &|list, len| unsafe { exported::velomitra_put_tb(list, len, 0, alphabet, value) }, &|list, len, out, room| unsafe {
        exported::velomitra_tb_at(list, len, 0, alphabet, out, room)
    })
}

fn run(longest: u32, more: u32) -> String {
    bins(
        more.into(),
        &|list, len| unsafe { exported::velomitra_put_run(list, len, 0, longest, true, 0, more) },
        &|list, len, out, room| unsafe { exported::velomitra_run_at(list, len, 0, longest, true, 0, out, room) },
    )
}

#[test]
fn exp_golomb() {
    assert_eq!([0, 1, 2, 3].map(|v| egk(0, v)), ["0", "100", "101", "11000"]);
    assert_eq!([0, 8].map(|v| egk(3, v)), ["0000", "100000"]);
}

#[test]
fn alphabet_of_five() {
    assert_eq!([0, 1, 2, 3, 4].map(|v| tb(5, v)), ["00", "01", "10", "110", "111"]);
}

#[test]
fn longest_run_of_five() {
    assert_eq!([0, 1, 2, 3, 4, 5].map(|more| run(5, more)), ["0", "10", "1100", "1101", "1110", "1111"]);
}
