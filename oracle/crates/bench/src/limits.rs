//! The kernels in C with vectors, limits.c. The answer is 5 where a word is not
//! below p, else 0.

use std::ffi::c_int;

use crate::input::MOST;
use crate::reference::{elements, entry_variables, variables};

type Fixed = unsafe extern "C" fn(table: *mut u32, n: c_int, r: *const u32) -> u32;

type Folded = unsafe extern "C" fn(
    table: *const u32,
    n: c_int,
    point: *const u32,
    k: c_int,
    scale: *const u32,
    out: *mut u32,
) -> u32;

unsafe extern "C" {
    fn limit_unreduced(words: *const u32, count: usize) -> u32;
    fn limit_new_from_point(point: *const u32, k: c_int, scale: *const u32, out: *mut u32) -> u32;
    fn limit_eval_base(table: *const u32, n: c_int, point: *const u32, out: *mut u32) -> u32;
    fn limit_eval_ext(table: *const u32, n: c_int, point: *const u32, out: *mut u32) -> u32;
    fn limit_fix_prefix(table: *mut u32, n: c_int, r: *const u32) -> u32;
    fn limit_fix_suffix(table: *mut u32, n: c_int, r: *const u32) -> u32;
    fn limit_fix_monomial(table: *mut u32, n: c_int, r: *const u32) -> u32;
    fn limit_sum_prefix(table: *mut u32, n: c_int) -> u32;
    fn limit_accumulate(
        point: *const u32,
        k: c_int,
        scale: *const u32,
        given: *const u32,
        out: *mut u32,
    ) -> u32;
    fn limit_compress_suffix(
        table: *const u32,
        n: c_int,
        point: *const u32,
        k: c_int,
        scale: *const u32,
        out: *mut u32,
    ) -> u32;
    fn limit_compress_prefix(
        table: *const u32,
        n: c_int,
        point: *const u32,
        k: c_int,
        scale: *const u32,
        out: *mut u32,
    ) -> u32;
}

/// What the calls have room for, beside what they are lent.
fn has_room(k: c_int) -> bool {
    k as usize <= MOST
}

pub fn unreduced(words: &[u32]) -> u32 {
    assert!(words.len().is_multiple_of(4));
    unsafe { limit_unreduced(words.as_ptr(), words.len()) }
}

pub fn new_from_point(point: &[u32], scale: &[u32; 4], out: &mut [u32]) -> u32 {
    let k = elements(point);
    assert!(out.len() == 4 << k);
    unsafe { limit_new_from_point(point.as_ptr(), k, scale.as_ptr(), out.as_mut_ptr()) }
}

pub fn eval_base(table: &[u32], point: &[u32], out: &mut [u32]) -> u32 {
    let n = variables(table, elements(point), out);
    assert!(n >= 4 && has_room(n) && elements(point) == n);
    unsafe { limit_eval_base(table.as_ptr(), n, point.as_ptr(), out.as_mut_ptr()) }
}

pub fn eval_ext(table: &[u32], point: &[u32], out: &mut [u32]) -> u32 {
    let n = elements(point);
    assert!(n >= 2 && has_room(n) && table.len() == 4 << n && out.len() == 4);
    unsafe { limit_eval_ext(table.as_ptr(), n, point.as_ptr(), out.as_mut_ptr()) }
}

fn fixed(table: &mut [u32], r: &[u32; 4], fix: Fixed) -> u32 {
    let n = entry_variables(table);
    unsafe { fix(table.as_mut_ptr(), n, r.as_ptr()) }
}

pub fn fix_prefix(table: &mut [u32], r: &[u32; 4]) -> u32 {
    fixed(table, r, limit_fix_prefix)
}

pub fn fix_suffix(table: &mut [u32], r: &[u32; 4]) -> u32 {
    fixed(table, r, limit_fix_suffix)
}

pub fn fix_monomial(table: &mut [u32], r: &[u32; 4]) -> u32 {
    fixed(table, r, limit_fix_monomial)
}

pub fn sum_prefix(table: &mut [u32]) -> u32 {
    let n = entry_variables(table);
    unsafe { limit_sum_prefix(table.as_mut_ptr(), n) }
}

pub fn accumulate(point: &[u32], scale: &[u32; 4], given: &[u32; 4], out: &mut [u32]) -> u32 {
    let k = elements(point);
    assert!(has_room(k) && out.len() == 4 << k);
    unsafe {
        limit_accumulate(
            point.as_ptr(),
            k,
            scale.as_ptr(),
            given.as_ptr(),
            out.as_mut_ptr(),
        )
    }
}

fn folded(table: &[u32], point: &[u32], scale: &[u32; 4], out: &mut [u32], fold: Folded) -> u32 {
    let k = elements(point);
    let n = variables(table, k, out);
    unsafe {
        fold(
            table.as_ptr(),
            n,
            point.as_ptr(),
            k,
            scale.as_ptr(),
            out.as_mut_ptr(),
        )
    }
}

pub fn compress_suffix(table: &[u32], point: &[u32], scale: &[u32; 4], out: &mut [u32]) -> u32 {
    let k = elements(point);
    assert!((k == 1 && out.len() >= 8) || (k >= 4 && has_room(k)));
    folded(table, point, scale, out, limit_compress_suffix)
}

pub fn compress_prefix(table: &[u32], point: &[u32], scale: &[u32; 4], out: &mut [u32]) -> u32 {
    let k = elements(point);
    assert!((k == 1 || (3..=11).contains(&k)) && out.len() >= 16);
    folded(table, point, scale, out, limit_compress_prefix)
}
