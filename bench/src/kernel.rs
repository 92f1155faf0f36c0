//! The kernel's exported calls.

use crate::walk::{BoxRecord, Order};

#[repr(C)]
struct Answer {
    refusal: u8,
    number: u64,
}

extern "C" {
    fn jellyalloy_cut(
        words: *const u64,
        word_count: usize,
        x: u64,
        y: u64,
        z: u64,
        order: u8,
        table: *mut BoxRecord,
        length: usize,
    ) -> Answer;

    fn jellyalloy_volume(records: *const BoxRecord, length: usize, count: usize) -> Answer;
}

impl Answer {
    /// The number, or the number of the refusal.
    fn result(self) -> Result<u64, u8> {
        match self.refusal {
            0 => Ok(self.number),
            refusal => Err(refusal),
        }
    }
}

/// Cuts a packed grid, and gives the number of boxes.
pub fn cut(
    words: &[u64],
    sides: [u16; 3],
    order: Order,
    table: &mut [BoxRecord],
) -> Result<usize, u8> {
    let [x, y, z] = sides.map(u64::from);
    // SAFETY: the pointers and lengths are those of slices, and the call keeps none of them.
    let answer = unsafe {
        jellyalloy_cut(
            words.as_ptr(),
            words.len(),
            x,
            y,
            z,
            order as u8,
            table.as_mut_ptr(),
            table.len(),
        )
    };
    Ok(answer.result()? as usize)
}

/// The number of cells of the first `count` boxes.
pub fn volume(records: &[BoxRecord], count: usize) -> Result<u64, u8> {
    // SAFETY: the pointer and the length are those of a slice, and the call keeps none of them.
    unsafe { jellyalloy_volume(records.as_ptr(), records.len(), count) }.result()
}
