//! The proved operations, called through C. A slice passes as a pointer and then
//! a length in words, a scale as four numbers, and what has one length as a
//! pointer alone; the answer is 0 or the refusal's number.

/// A line gives the C name, the Rust name, and the parameters in their order:
/// the slices that are read, the elements, the scales, the numbers, the slices
/// that are written, and what is written of one length.
macro_rules! operations {
    ($(
        $c:ident = $name:ident
        $(reads($($read:ident),*))?
        $(elements($($element:ident),*))?
        $(scales($($scale:ident),*))?
        $(numbers($($number:ident: $kind:ty),*))?
        $(writes($($lent:ident),*))?
        $(gives($($given:ident: $whole:ty),*))?;
    )*) => {
        unsafe extern "C" {
            $(fn $c(
                $($($read: *const u32, _: usize,)*)?
                $($($element: *const [u32; 4],)*)?
                $($($scale: u32, _: u32, _: u32, _: u32,)*)?
                $($($number: $kind,)*)?
                $($($lent: *mut u32, _: usize,)*)?
                $($($given: *mut $whole,)*)?
            ) -> u32;)*
        }

        $(
            #[inline]
            pub fn $name(
                $($($read: &[u32],)*)?
                $($($element: &[u32; 4],)*)?
                $($($scale: [u32; 4],)*)?
                $($($number: $kind,)*)?
                $($($lent: &mut [u32],)*)?
                $($($given: &mut $whole,)*)?
            ) -> u32 {
                // Every pointer comes with the length of its own slice, or is to what has
                // the length that the call asks for.
                unsafe {
                    $c(
                        $($($read.as_ptr(), $read.len(),)*)?
                        $($($element,)*)?
                        $($($scale[0], $scale[1], $scale[2], $scale[3],)*)?
                        $($($number,)*)?
                        $($($lent.as_mut_ptr(), $lent.len(),)*)?
                        $($($given,)*)?
                    )
                }
            }
        )*
    };
}

/// The words of a session before its coordinates, and those of the coordinates.
pub const HEAD: usize = 11;
pub const COORDINATES: usize = 80;

operations! {
    host_add = add elements(x, y) gives(out: [u32; 4]);
    host_sub = sub elements(x, y) gives(out: [u32; 4]);
    host_mul = mul elements(x, y) gives(out: [u32; 4]);
    host_neg = neg elements(x) gives(out: [u32; 4]);
    host_double = double elements(x) gives(out: [u32; 4]);
    host_mul_base = mul_base elements(x) numbers(word: u32) gives(out: [u32; 4]);
    host_from_base = from_base numbers(word: u32) gives(out: [u32; 4]);
    host_mul_repeat = mul_repeat elements(x, y) numbers(times: u64) gives(out: [u32; 4]);

    host_equality_at_vertex = equality_at_vertex
        reads(point) numbers(vertex: u64) gives(out: [u32; 4]);
    host_equality_weights_msb = equality_weights_msb reads(point) writes(out);
    host_equality_weights_lsb = equality_weights_lsb reads(point) writes(out);
    host_eval_eq = eval_eq reads(point, row) gives(out: [u32; 4]);
    host_eval_next = eval_next reads(point, row) gives(out: [u32; 12]);
    host_eval_select = eval_select reads(point) numbers(var: u32) gives(out: [u32; 4]);
    host_new_from_point = new_from_point reads(point) scales(scale) writes(out);
    host_new_next_from_point = new_next_from_point reads(point) writes(out);
    host_new_cyclic_from_point = new_cyclic_from_point reads(point) writes(out);
    host_eval_eq_batch = eval_eq_batch reads(points, scalars) numbers(n: u64) writes(out);
    host_eval_eq_batch_add = eval_eq_batch_add reads(points, scalars) numbers(n: u64) writes(out);

    host_poly_eval_base = poly_eval_base reads(table, point) gives(out: [u32; 4]);
    host_poly_eval_ext = poly_eval_ext reads(table, point) gives(out: [u32; 4]);
    host_poly_eval_next_base = poly_eval_next_base reads(table, point) gives(out: [u32; 4]);
    host_poly_eval_cyclic_base = poly_eval_cyclic_base reads(table, point) gives(out: [u32; 4]);
    host_split_eval_base = split_eval_base
        reads(table, point) scales(scale) writes(work) gives(out: [u32; 4]);
    host_split_eval_ext = split_eval_ext
        reads(table, point) scales(scale) writes(work) gives(out: [u32; 4]);
    host_split_eval_next_base = split_eval_next_base
        reads(table, point) scales(scale) writes(work) gives(out: [u32; 4]);
    host_last_scalar = last_scalar reads(point) scales(scale) writes(work) gives(out: [u32; 4]);
    host_accumulate_into = accumulate_into reads(point) scales(scale, given) writes(work, out);
    host_compress_prefix = compress_prefix reads(table, point) scales(scale) writes(work, out);
    host_compress_suffix = compress_suffix reads(table, point) scales(scale) writes(work, out);
    host_compress_prefix_shifted = compress_prefix_shifted
        reads(table, point) scales(scale) writes(work, out);
    host_compress_suffix_shifted = compress_suffix_shifted
        reads(table, point) scales(scale) writes(work, out);
    host_compress_prefix_cyclic = compress_prefix_cyclic
        reads(table, point) scales(scale) writes(work, out);
    host_compress_suffix_cyclic = compress_suffix_cyclic
        reads(table, point) scales(scale) writes(work, out);
    host_fix_prefix_var_mut = fix_prefix_var_mut scales(r) writes(table) gives(count: u64);
    host_fix_suffix_var_mut = fix_suffix_var_mut scales(r) writes(table) gives(count: u64);
    host_fix_prefix_var_mut_monomial = fix_prefix_var_mut_monomial
        scales(r) writes(table) gives(count: u64);
    host_sum_prefix_var_mut = sum_prefix_var_mut writes(table) gives(count: u64);

    host_session_open = session_open
        reads(point) scales(scale) numbers(n: u64, columns: u64, side: u32, weight: u32)
        writes(out) gives(head: [u32; HEAD], coordinates: [u32; COORDINATES]);
    host_session_feed = session_feed
        reads(piece) writes(out) gives(head: [u32; HEAD], coordinates: [u32; COORDINATES]);
    host_session_close = session_close
        writes(out) gives(head: [u32; HEAD], coordinates: [u32; COORDINATES]);
    host_session_read = session_read
        numbers(place: u64) writes(out)
        gives(head: [u32; HEAD], coordinates: [u32; COORDINATES], element: [u32; 4]);
}
