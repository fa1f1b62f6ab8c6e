//! The tables of three men, spread over the whole board.
use crate::classes::NAMES;
use crate::geometry::*;
use crate::sweeps::attackers;

/// A cell without a position.
pub const NO_POSITION: u8 = 255;

/// Cells of three men at any squares: by kind and side of the third man, side to move, white king, black king, third man.
pub struct Small {
    cells: Vec<u8>,
}

impl Small {
    pub fn new(geometry: &Geometry, tables: &[Vec<u8>]) -> Self {
        let mut cells = vec![NO_POSITION; 5 * 2 * 2 * 64 * 64 * 64];
        for (kind, name) in ["KQK", "KRK", "KBK", "KNK", "KPK"].iter().enumerate() {
            let table = &tables[NAMES.iter().position(|it| it == name).unwrap()];
            for side in 0..2 {
                for white_king in 0..64 {
                    let (symmetry, place, places) = if kind == PAWN as usize {
                        let symmetry = (white_king & 7) >> 2;
                        let image = geometry.images[symmetry][white_king] as usize;
                        (symmetry, image / 8 * 4 + image % 8, 32)
                    } else {
                        let symmetry = geometry.into_triangle[white_king] as usize;
                        (
                            symmetry,
                            geometry.place[geometry.images[symmetry][white_king] as usize] as usize,
                            10,
                        )
                    };
                    let images = &geometry.images[symmetry];
                    for black_king in 0..64 {
                        if black_king == white_king
                            || geometry.king[white_king] & set_of(black_king) != 0
                        {
                            continue;
                        }
                        let mut squares = !set_of(white_king) & !set_of(black_king);
                        if kind == PAWN as usize {
                            squares &= 0x00ffffffffffff00;
                        }
                        if side == 0 {
                            squares &=
                                !attackers(geometry, kind as Kind, true, black_king, &[white_king]);
                        }
                        let row = ((side * places + place) * 64 + images[black_king] as usize) * 64;
                        let own = Self::row(kind, true, side == 0, white_king, black_king);
                        let other =
                            Self::row(kind, false, side != 0, black_king ^ 56, white_king ^ 56);
                        for square in squares_of(squares) {
                            let cell = table[row + images[square] as usize];
                            cells[own + square] = cell;
                            cells[other + (square ^ 56)] = cell;
                        }
                    }
                }
            }
        }
        Small { cells }
    }

    #[inline(always)]
    fn row(
        kind: usize,
        man_is_white: bool,
        white_to_move: bool,
        white_king: usize,
        black_king: usize,
    ) -> usize {
        ((((kind * 2 + !man_is_white as usize) * 2 + !white_to_move as usize) * 64 + white_king)
            * 64
            + black_king)
            * 64
    }

    #[inline(always)]
    pub fn cells(
        &self,
        kind: Kind,
        man_is_white: bool,
        white_to_move: bool,
        white_king: usize,
        black_king: usize,
    ) -> &[u8; 64] {
        let at = Self::row(
            kind as usize,
            man_is_white,
            white_to_move,
            white_king,
            black_king,
        );
        (&self.cells[at..at + 64]).try_into().unwrap()
    }
}
