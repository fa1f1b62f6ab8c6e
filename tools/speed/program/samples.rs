// Rattle: `rt` builds this file as src/samples.rt of the crate study_speed, which ../build.sh puts together outside of the repository.
//! Positions on which calls are timed.
ghost use Rattle.std.specs.Prelude.{◌≡◌, true};
ghost use Rattle.study_moves.specs.Rules.{is_legal};

use std::io;
use study_board::{Kind, Man, Position, Side, Square};
use study_moves::{Move, legal_moves};

/// Which positions to time on: a man for White and one for Black, which stands on one square.
#[derive(Clone, Copy)]
pub struct Setting {
    pub label: &'static str,
    pub ours: Kind,
    pub theirs: Kind,
    pub to_move: Side,
    pub fixed: u8,
}

/// A position, and a legal move.
#[derive(Drop)]
pub struct Turn {
    pub position: Position,
    pub by: Move,
    ghost legal: { is_legal position by ≡ true },
}

impl Setting {
    /// The position whose other men stand on these squares, if there is one.
    fn position(&self, white_king: u8, black_king: u8, ours: u8) -> Option<Position> {
        let men = [
            man(Side::White, Kind::King, white_king)?,
            man(Side::Black, Kind::King, black_king)?,
            man(Side::White, self.ours, ours)?,
            man(Side::Black, self.theirs, self.fixed)?,
        ];
        Position::new(&men, self.to_move, None).ok()
    }

    /// All positions.
    /// No contract: any sample serves to measure on.
    pub fn positions(&self, rt: HostRuntime) -> io::Result<Vec<Position>> {
        let mut list = Vec::new(rt.alloc());
        for white_king in 0..64u8 {
            for black_king in 0..64u8 {
                for ours in 0..64u8 {
                    if let Some(position) = self.position(white_king, black_king, ours) {
                        list.push(position)?;
                    }
                }
            }
        }
        Ok(list)
    }
}

fn man(side: Side, kind: Kind, number: u8) -> Option<Man> {
    let at = Square::new(number)?;
    Some(Man { side, kind, at })
}

/// Each legal move of every eighth position.
/// No contract: any sample serves to measure on.
pub fn turns(rt: HostRuntime, positions: &[Position]) -> io::Result<Vec<Turn>> {
    let mut list = Vec::new(rt.alloc());
    for position in positions.iter().step_by(8) {
        let moves = legal_moves(position);
        for by in moves.as_slice() {
            list.push(Turn {
                position: position.copied(),
                by: *by,
            })?;
        }
    }
    Ok(list)
}
