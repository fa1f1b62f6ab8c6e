//! The builder: the mates and what moves out of the class give, and then level by level back from decided positions.

use crate::decode::decode;
use crate::earlier::numbers_before;
use crate::moves::{is_mate, legal_moves, played};
use crate::position::Position;
use crate::retro::{ClassGame, Place, Tally, Value};

/// What a number begins with: its cell, and whether it has a mate that no cell can tell.
struct First {
    cell: u8,
    far: bool,
}

impl ClassGame<'_> {
    /// What the moves out of the class alone give a position.
    fn converted(&self, at: &Position) -> Value {
        let mut tally = Tally::default();
        for by in legal_moves(at).as_slice() {
            if self.leaves(at, *by) {
                if let Place::Outside(value) = self.place(&played(at, *by)) {
                    tally = tally.with(value);
                }
            }
        }
        tally.given(false)
    }

    fn first_of(&self, number: u32) -> First {
        let nothing = First {
            cell: 0,
            far: false,
        };
        let Some(at) = decode(self.class, number) else {
            return nothing;
        };
        if is_mate(&at) {
            return First {
                cell: 1,
                far: false,
            };
        }
        match self.converted(&at).distance() {
            None => nothing,
            Some(255) => First { cell: 0, far: true },
            Some(plies) => First {
                cell: plies + 1,
                far: false,
            },
        }
    }

    fn start(&self, cells: &mut [u8]) -> bool {
        let mut far = false;
        for number in 0..self.cells() {
            let first = self.first_of(number);
            cells[number as usize] = first.cell;
            far |= first.far;
        }
        far
    }

    /// Whether a position has a move, and each leads to a win within `level` plies.
    fn is_lost(&self, cells: &[u8], at: &Position, level: u8) -> bool {
        let moves = legal_moves(at);
        for by in moves.as_slice() {
            let value = self.label(cells, &played(at, *by));
            if !matches!(value, Value::Win(plies) if plies <= level) {
                return false;
            }
        }
        !moves.as_slice().is_empty()
    }

    fn is_lost_at(&self, cells: &[u8], number: u32, level: u8) -> bool {
        decode(self.class, number).is_some_and(|at| self.is_lost(cells, &at, level))
    }

    /// A position that is lost in `level` plies: what leads to it is won in one more.
    fn go_back_from_loss(&self, cells: &mut [u8], number: u32, level: u8) -> u64 {
        let before = numbers_before(self.class, number);
        for from in before.as_slice() {
            let cell = &mut cells[*from as usize];
            if *cell == 0 || level + 2 < *cell {
                *cell = level + 2;
            }
        }
        before.as_slice().len() as u64
    }

    fn go_back_from_win(&self, cells: &mut [u8], number: u32, level: u8) -> u64 {
        if cells[number as usize] != level + 1 {
            return 0;
        }
        self.deny_before(cells, number, level)
    }

    // Not inlined: the list of numbers would be cleared for each number of a level.
    #[inline(never)]
    fn deny_before(&self, cells: &mut [u8], number: u32, level: u8) -> u64 {
        let before = numbers_before(self.class, number);
        for from in before.as_slice() {
            let cell = &mut cells[*from as usize];
            if *cell == 0 {
                *cell = level + 2;
            }
        }
        before.as_slice().len() as u64 + 1
    }

    fn level_of_losses(&self, cells: &mut [u8], level: u8) -> u64 {
        let mut examined = 0;
        for number in 0..self.cells() {
            if cells[number as usize] == level + 1 {
                examined += self.go_back_from_loss(cells, number, level) + 1;
            }
        }
        examined
    }

    /// Looks at a number that may be lost in `level + 1` plies.
    fn confirm(&self, cells: &mut [u8], number: u32, level: u8) -> u64 {
        if cells[number as usize] != level + 2 {
            return 0;
        }
        if !self.is_lost_at(cells, number, level) {
            cells[number as usize] = 0;
        }
        1
    }

    fn level_of_wins(&self, cells: &mut [u8], level: u8) -> u64 {
        let mut examined = 0;
        for number in 0..self.cells() {
            examined += self.go_back_from_win(cells, number, level);
        }
        for number in 0..self.cells() {
            examined += self.confirm(cells, number, level);
        }
        examined
    }

    fn all_levels(&self, cells: &mut [u8]) -> u64 {
        let mut examined = 0;
        for level in 0..254u8 {
            if !cells.iter().any(|cell| *cell > level) {
                return examined;
            }
            examined += if level % 2 == 0 {
                self.level_of_losses(cells, level)
            } else {
                self.level_of_wins(cells, level)
            };
        }
        panic!("some distance is above 254 plies");
    }

    /// The cells of the class, and how many numbers were decoded and positions gone back to.
    #[inline(never)]
    pub fn build(&self) -> (Vec<u8>, u64) {
        let mut cells = vec![0; self.cells() as usize];
        let far = self.start(&mut cells);
        let examined = u64::from(self.cells()) + self.all_levels(&mut cells);
        assert!(!far, "some distance is above 254 plies");
        (cells, examined)
    }
}
