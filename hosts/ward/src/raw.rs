//! The calls on bytes, as in include/ward.h. The answer is 0 or the refusal's
//! number. All of the crate's unsafe code is here.

unsafe extern "C" {
    fn ward_equality_at_vertex(
        point: *const u8,
        point_len: usize,
        vertex: u64,
        out: *mut u8,
        out_len: usize,
    ) -> u32;
    fn ward_eval_next(
        point: *const u8,
        point_len: usize,
        row: *const u8,
        row_len: usize,
        out: *mut u8,
        out_len: usize,
    ) -> u32;
}

/// out becomes eq of this row.
pub fn equality_at_vertex(point: &[u8], vertex: u64, out: &mut [u8]) -> u32 {
    // Every pointer comes with the length of its own slice; an empty slice's is not null.
    unsafe {
        ward_equality_at_vertex(
            point.as_ptr(),
            point.len(),
            vertex,
            out.as_mut_ptr(),
            out.len(),
        )
    }
}

/// out becomes carry, done and omega.
pub fn eval_next(point: &[u8], row: &[u8], out: &mut [u8]) -> u32 {
    // As above.
    unsafe {
        ward_eval_next(
            point.as_ptr(),
            point.len(),
            row.as_ptr(),
            row.len(),
            out.as_mut_ptr(),
            out.len(),
        )
    }
}

/// The two folds have the same parameters.
macro_rules! folds {
    ($($c:ident = $name:ident;)*) => {
        unsafe extern "C" {
            $(fn $c(
                table: *const u8,
                table_len: usize,
                point: *const u8,
                point_len: usize,
                scale0: u32,
                scale1: u32,
                scale2: u32,
                scale3: u32,
                work: *mut u8,
                work_len: usize,
                out: *mut u8,
                out_len: usize,
            ) -> u32;)*
        }

        $(
            /// out becomes the fold, and work both tables of the split point.
            pub fn $name(
                table: &[u8],
                point: &[u8],
                [scale0, scale1, scale2, scale3]: [u32; 4],
                work: &mut [u8],
                out: &mut [u8],
            ) -> u32 {
                // As above.
                unsafe {
                    $c(
                        table.as_ptr(),
                        table.len(),
                        point.as_ptr(),
                        point.len(),
                        scale0,
                        scale1,
                        scale2,
                        scale3,
                        work.as_mut_ptr(),
                        work.len(),
                        out.as_mut_ptr(),
                        out.len(),
                    )
                }
            }
        )*
    };
}

folds! {
    ward_compress_prefix_shifted = compress_prefix_shifted;
    ward_compress_suffix_shifted = compress_suffix_shifted;
}
