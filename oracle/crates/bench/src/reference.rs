//! The kernels in C, reference.c. The answer is 5 where a word is not below p,
//! else 0.

use std::ffi::c_int;

unsafe extern "C" {
    fn reference_mul_repeat(x: *const u32, y: *const u32, times: u64, out: *mut u32) -> u32;
    fn reference_unreduced(words: *const u32, count: usize) -> u32;
    fn reference_new_from_point(
        point: *const u32,
        k: c_int,
        scale: *const u32,
        out: *mut u32,
    ) -> u32;
    fn reference_eval_base(table: *const u32, n: c_int, point: *const u32, out: *mut u32) -> u32;
    fn reference_eval_ext(table: *const u32, n: c_int, point: *const u32, out: *mut u32) -> u32;
    fn reference_fix_prefix(table: *mut u32, n: c_int, r: *const u32) -> u32;
    fn reference_sum_prefix(table: *mut u32, n: c_int) -> u32;
    fn reference_accumulate(
        point: *const u32,
        k: c_int,
        scale: *const u32,
        given: *const u32,
        work: *mut u32,
        out: *mut u32,
    ) -> u32;
    fn reference_compress_suffix(
        table: *const u32,
        n: c_int,
        point: *const u32,
        k: c_int,
        scale: *const u32,
        out: *mut u32,
    ) -> u32;
    fn reference_compress_prefix(
        table: *const u32,
        n: c_int,
        point: *const u32,
        k: c_int,
        scale: *const u32,
        work: *mut u32,
        out: *mut u32,
    ) -> u32;
}

/// Each function reads and writes just the words that the lengths say; they are
/// asked for here.
pub fn elements(words: &[u32]) -> c_int {
    assert!(words.len().is_multiple_of(4));
    (words.len() / 4) as c_int
}

pub fn variables(table: &[u32], k: c_int, out: &[u32]) -> c_int {
    assert!(table.len().is_power_of_two());
    let n = table.len().ilog2() as c_int;
    assert!(k <= n && out.len() == 4 << (n - k));
    n
}

pub fn mul_repeat(x: &[u32; 4], y: &[u32; 4], times: u64, out: &mut [u32]) -> u32 {
    assert!(out.len() == 4);
    unsafe { reference_mul_repeat(x.as_ptr(), y.as_ptr(), times, out.as_mut_ptr()) }
}

pub fn unreduced(words: &[u32]) -> u32 {
    unsafe { reference_unreduced(words.as_ptr(), words.len()) }
}

pub fn new_from_point(point: &[u32], scale: &[u32; 4], out: &mut [u32]) -> u32 {
    let k = elements(point);
    assert!(out.len() == 4 << k);
    unsafe { reference_new_from_point(point.as_ptr(), k, scale.as_ptr(), out.as_mut_ptr()) }
}

pub fn eval_base(table: &[u32], point: &[u32], out: &mut [u32]) -> u32 {
    let n = variables(table, elements(point), out);
    assert!(n >= 2 && elements(point) == n);
    unsafe { reference_eval_base(table.as_ptr(), n, point.as_ptr(), out.as_mut_ptr()) }
}

pub fn eval_ext(table: &[u32], point: &[u32], out: &mut [u32]) -> u32 {
    let n = elements(point);
    assert!(table.len() == 4 << n && out.len() == 4);
    unsafe { reference_eval_ext(table.as_ptr(), n, point.as_ptr(), out.as_mut_ptr()) }
}

pub fn fix_prefix(table: &mut [u32], r: &[u32; 4]) -> u32 {
    let n = entry_variables(table);
    unsafe { reference_fix_prefix(table.as_mut_ptr(), n, r.as_ptr()) }
}

pub fn sum_prefix(table: &mut [u32]) -> u32 {
    let n = entry_variables(table);
    unsafe { reference_sum_prefix(table.as_mut_ptr(), n) }
}

/// Of a table of elements, at least two.
pub fn entry_variables(table: &[u32]) -> c_int {
    let entries = elements(table) as u32;
    assert!(entries.is_power_of_two() && entries > 1);
    entries.ilog2() as c_int
}

pub fn accumulate(
    point: &[u32],
    scale: &[u32; 4],
    given: &[u32; 4],
    work: &mut [u32],
    out: &mut [u32],
) -> u32 {
    let k = elements(point);
    assert!(out.len() == 4 << k && work.len() == work_words(k));
    unsafe {
        reference_accumulate(
            point.as_ptr(),
            k,
            scale.as_ptr(),
            given.as_ptr(),
            work.as_mut_ptr(),
            out.as_mut_ptr(),
        )
    }
}

/// The words of both tables of a point.
fn work_words(k: c_int) -> usize {
    4 * ((1 << (k / 2)) + (1 << (k - k / 2)))
}

pub fn compress_suffix(table: &[u32], point: &[u32], scale: &[u32; 4], out: &mut [u32]) -> u32 {
    let k = elements(point);
    let n = variables(table, k, out);
    assert!(k >= 2);
    unsafe {
        reference_compress_suffix(
            table.as_ptr(),
            n,
            point.as_ptr(),
            k,
            scale.as_ptr(),
            out.as_mut_ptr(),
        )
    }
}

pub fn compress_prefix(
    table: &[u32],
    point: &[u32],
    scale: &[u32; 4],
    work: &mut [u32],
    out: &mut [u32],
) -> u32 {
    let k = elements(point);
    let n = variables(table, k, out);
    assert!(k >= 3 && work.len() == work_words(k));
    unsafe {
        reference_compress_prefix(
            table.as_ptr(),
            n,
            point.as_ptr(),
            k,
            scale.as_ptr(),
            work.as_mut_ptr(),
            out.as_mut_ptr(),
        )
    }
}
