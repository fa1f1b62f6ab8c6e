//! Tables of the board for whole rows.
use crate::geometry::*;

/// The squares that lie between two squares of a line, both left out.
pub struct Lines {
    pub between: Vec<[u64; 64]>,
    /// By place: the white king's steps without pawns, of moves and of steps back, and with pawns.
    pub forth: Vec<Vec<KingStep>>,
    pub back: Vec<Vec<KingStep>>,
    /// By byte: eight bytes, 255 where its bit is set.
    pub spread: Vec<u64>,
}

impl Lines {
    pub fn new(geometry: &Geometry) -> Self {
        let mut between = vec![[0u64; 64]; 64];
        for from in 0..64 {
            for to in 0..64 {
                between[from][to] = geometry.line[QUEEN as usize][from][to] & !set_of(from);
            }
        }
        let forth = geometry.steps_without_pawns.clone();
        let mut back = vec![];
        for place in 0..10 {
            let king = geometry.triangle[place] as usize;
            let mut list = vec![];
            for step in &forth[place] {
                let lands_on_diagonal = geometry.diagonal[geometry.triangle[step.place] as usize];
                // both images of a position on the diagonal are gone back from, and both are reached
                if geometry.diagonal[king] && step.square % 8 < step.square / 8 {
                    continue;
                }
                list.push(*step);
                if lands_on_diagonal && !(geometry.diagonal[king] && geometry.diagonal[step.square])
                {
                    list.push(KingStep {
                        symmetry: compose(geometry, step.symmetry),
                        ..*step
                    });
                }
            }
            back.push(list);
        }
        let spread = (0..256u64)
            .map(|byte| (0..8).fold(0, |sum, bit| sum | (0xff * (byte >> bit & 1)) << (8 * bit)))
            .collect();
        Lines {
            between,
            forth,
            back,
            spread,
        }
    }
}

/// A symmetry followed by the transposition.
fn compose(geometry: &Geometry, symmetry: usize) -> usize {
    (0..8)
        .find(|it| {
            (0..64).all(|s| {
                geometry.images[*it][s] == geometry.images[4][geometry.images[symmetry][s] as usize]
            })
        })
        .unwrap()
}
