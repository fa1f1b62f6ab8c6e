//! Sets of squares under the symmetries of the board.

#[inline(always)]
fn files_mirrored(x: u64) -> u64 {
    let x = x >> 1 & 0x5555555555555555 | (x & 0x5555555555555555) << 1;
    let x = x >> 2 & 0x3333333333333333 | (x & 0x3333333333333333) << 2;
    x >> 4 & 0x0f0f0f0f0f0f0f0f | (x & 0x0f0f0f0f0f0f0f0f) << 4
}

#[inline(always)]
fn transposed(x: u64) -> u64 {
    let t = (x ^ x >> 7) & 0x00aa00aa00aa00aa;
    let x = x ^ t ^ t << 7;
    let t = (x ^ x >> 14) & 0x0000cccc0000cccc;
    let x = x ^ t ^ t << 14;
    let t = (x ^ x >> 28) & 0x00000000f0f0f0f0;
    x ^ t ^ t << 28
}

/// The image of a set under a symmetry: files mirrored, ranks mirrored, and then transposed, by its three bits.
#[inline(always)]
pub fn image_of(x: u64, symmetry: usize) -> u64 {
    let mut x = x;
    if symmetry & 1 != 0 {
        x = files_mirrored(x);
    }
    if symmetry & 2 != 0 {
        x = x.swap_bytes();
    }
    if symmetry & 4 != 0 {
        x = transposed(x);
    }
    x
}
