//! What a row's moves out of its class give.
use crate::geometry::*;
use crate::lines::Lines;
use crate::small::NO_POSITION;

/// The places of a row that are this byte.
#[inline(always)]
pub fn equal_to(cells: &[u8; 64], byte: u8) -> u64 {
    let all = u64::from(byte) * 0x0101010101010101;
    let mut set = 0;
    for part in 0..8 {
        let x = u64::from_le_bytes(cells[part * 8..part * 8 + 8].try_into().unwrap()) ^ all;
        // 0x80 where a byte is 0
        let zero = !((x & 0x7f7f7f7f7f7f7f7f) + 0x7f7f7f7f7f7f7f7f | x | 0x7f7f7f7f7f7f7f7f);
        set |= (zero >> 7).wrapping_mul(0x0102040810204080) >> 56 << (part * 8);
    }
    set
}

/// What the moves out of the class give for a row.
pub struct Leaving {
    pub any: u64,
    pub holds: u64,
    pub loss: [u8; 64],
    pub win: [u8; 64],
}

impl Leaving {
    #[inline(always)]
    pub fn add(&mut self, square: usize, cell: u8) {
        match cell {
            NO_POSITION => return,
            0 => self.holds |= set_of(square),
            odd if odd % 2 == 1 => self.loss[square] = self.loss[square].min(odd),
            even => self.win[square] = self.win[square].max(even),
        }
        self.any |= set_of(square);
    }

    /// A row of cells where these squares are the last man's.
    #[inline(always)]
    pub fn add_row(&mut self, lines: &Lines, cells: &[u8; 64], squares: u64) {
        let mut shown = [NO_POSITION; 64];
        for part in 0..8 {
            let keep = lines.spread[(squares >> (8 * part) & 255) as usize];
            let x = u64::from_le_bytes(cells[part * 8..part * 8 + 8].try_into().unwrap());
            shown[part * 8..part * 8 + 8].copy_from_slice(&(x & keep | !keep).to_le_bytes());
        }
        for at in 0..64 {
            let cell = shown[at];
            let loss = if cell & 1 == 1 { cell } else { 255 };
            let win = if cell & 1 == 0 { cell } else { 0 };
            self.loss[at] = self.loss[at].min(loss);
            self.win[at] = self.win[at].max(win);
        }
        self.any |= squares & !equal_to(&shown, NO_POSITION);
        self.holds |= equal_to(&shown, 0);
    }
}
