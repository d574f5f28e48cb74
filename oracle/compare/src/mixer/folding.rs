//! The fold with a table of the caller's own.
use super::{FoldGains, Status};

extern "C" {
    fn mixer_width_matrix_with(
        src: u32,
        dst: u32,
        gains: FoldGains,
        normalise: bool,
        pairs: *const u32,
        pairs_len: usize,
        table_gains: *const f32,
        table_gains_len: usize,
        matrix: *mut f32,
        matrix_len: usize,
    ) -> Status;
}

/// The table's lists are lent as what may be written to, so that a call that does can be seen.
pub fn width_matrix_with(
    src: u32,
    dst: u32,
    gains: FoldGains,
    normalise: bool,
    pairs: &mut [u32],
    table_gains: &mut [f32],
    matrix: &mut [f32],
) -> Status {
    unsafe {
        mixer_width_matrix_with(
            src,
            dst,
            gains,
            normalise,
            pairs.as_mut_ptr(),
            pairs.len(),
            table_gains.as_mut_ptr(),
            table_gains.len(),
            matrix.as_mut_ptr(),
            matrix.len(),
        )
    }
}
