//! Whole rows of 64 numbers as sets of squares of the last man: the levels on bits, each cell written once. A move is legal if the number after it has a
//! position. The numbering, the cells and the order of classes are those of `builder.rs`.
use crate::classes::Conversions;
use crate::geometry::*;
use crate::images::image_of;
use crate::leaving::{Leaving, equal_to};
use crate::lines::Lines;
use crate::small::Small;
use crate::sweeps::{FEW, NOT_A, NOT_H, attackers, swept};

/// A set of rows, gone through in order.
struct Touched {
    words: Vec<u64>,
}

impl Touched {
    fn new(rows: usize) -> Self {
        Touched {
            words: vec![0; rows / 64],
        }
    }

    #[inline(always)]
    fn add(&mut self, row: usize) {
        self.words[row / 64] |= 1 << (row % 64);
    }

    #[inline(always)]
    fn drain(&mut self, mut each: impl FnMut(usize)) {
        for at in 0..self.words.len() {
            let mut word = std::mem::take(&mut self.words[at]);
            while word != 0 {
                each(at * 64 + word.trailing_zeros() as usize);
                word &= word - 1;
            }
        }
    }
}

/// A class of four men: the kinds of its third and fourth man, and whether the fourth is White's.
pub struct Sets<'t, const THIRD: Kind, const FOURTH: Kind, const FOURTH_IS_WHITE: bool> {
    pub geometry: &'t Geometry,
    pub lines: &'t Lines,
    pub small: &'t Small,
    pub conversions: Conversions<'t>,
}

/// What is known of each row.
struct State {
    /// Positions that are not won for the side to move.
    open: Vec<u64>,
    /// Positions that need no test: drawn at least by a move out of the class, won or lost by one that is not due yet, or lost already.
    shut: Vec<u64>,
    /// What a level gathers, and the rows where that is something.
    gathered: Vec<u64>,
    touched: Touched,
    /// By cell: what the moves out of the class give then.
    due: Vec<Vec<(u32, u64)>>,
    lost: Vec<(u32, u64)>,
}

impl<const THIRD: Kind, const FOURTH: Kind, const FOURTH_IS_WHITE: bool>
    Sets<'_, THIRD, FOURTH, FOURTH_IS_WHITE>
{
    const HAS_PAWN: bool = THIRD == PAWN || FOURTH == PAWN;
    const PASSES: bool = THIRD == PAWN && FOURTH == PAWN && !FOURTH_IS_WHITE;
    const PLACES: usize = if Self::HAS_PAWN { 32 } else { 10 };
    const SIDE: usize = Self::PLACES << 12;
    const ROWS: usize = 2 * Self::SIDE;

    #[inline(always)]
    fn read(&self, row: usize) -> (bool, usize, [usize; 3]) {
        let white = row < Self::SIDE;
        let place = (row >> 12) - if white { 0 } else { Self::PLACES };
        let king = if Self::HAS_PAWN {
            place / 4 * 8 + place % 4
        } else {
            self.geometry.triangle[place] as usize
        };
        (white, place, [king, row >> 6 & 63, row & 63])
    }

    #[inline(always)]
    fn third_reach(&self, squares: &[usize; 3]) -> u64 {
        let [white_king, black_king, third] = *squares;
        match THIRD {
            PAWN => self.geometry.pawn[0][third],
            KNIGHT => self.geometry.knight[third],
            _ => {
                let shadow = &self.geometry.shadow[THIRD as usize][third];
                self.geometry.reach[THIRD as usize][third]
                    & !shadow[white_king]
                    & !shadow[black_king]
            }
        }
    }

    /// The squares of the last man with which there is a position.
    fn positions(&self, row: usize) -> u64 {
        let (white, _, squares) = self.read(row);
        let [white_king, black_king, third] = squares;
        if white_king == black_king || white_king == third || black_king == third {
            return 0;
        }
        if self.geometry.king[white_king] & set_of(black_king) != 0
            || THIRD == PAWN && !(8..56).contains(&third)
        {
            return 0;
        }
        let mut set = !(set_of(white_king) | set_of(black_king) | set_of(third));
        if FOURTH == PAWN {
            set &= 0x00ffffffffffff00;
        }
        let (own, enemy) = if white {
            (white_king, black_king)
        } else {
            (black_king, white_king)
        };
        if FOURTH_IS_WHITE == white {
            set &= !attackers(self.geometry, FOURTH, FOURTH_IS_WHITE, enemy, &[own, third]);
        }
        if white && self.third_reach(&squares) & set_of(black_king) != 0 {
            set &= self.lines.between[third][black_king];
        }
        set
    }

    /// The squares of the last man with which the side to move is in check.
    fn checks(&self, row: usize) -> u64 {
        let (white, _, squares) = self.read(row);
        let [white_king, black_king, third] = squares;
        let (own, enemy) = if white {
            (white_king, black_king)
        } else {
            (black_king, white_king)
        };
        let mut set = 0;
        if FOURTH_IS_WHITE != white {
            set |= attackers(self.geometry, FOURTH, FOURTH_IS_WHITE, own, &[enemy, third]);
        }
        if !white && self.third_reach(&squares) & set_of(black_king) != 0 {
            set |= !self.lines.between[third][black_king];
        }
        set
    }

    /// Where a capture in passing is legal, by the squares of the last man, positions given.
    fn passing(&self, row: usize, positions: u64) -> u64 {
        let (white, _, [white_king, black_king, third]) = self.read(row);
        let rank = if white { 4 } else { 3 };
        if third / 8 != rank {
            return 0;
        }
        let kings = set_of(white_king) | set_of(black_king);
        let beside = (set_of(third) << 1 & NOT_A | set_of(third) >> 1 & NOT_H) & positions;
        if white {
            beside & !(kings >> 8) & !(kings >> 16)
        } else if kings & (set_of(third) >> 8 | set_of(third) >> 16) != 0 {
            0
        } else {
            beside
        }
    }

    // ---- moves out of the class

    #[inline(always)]
    fn leaving(&self, row: usize, positions: u64, passing: bool) -> Leaving {
        let (white, _, squares) = self.read(row);
        let [white_king, black_king, third] = squares;
        let mut out = Leaving {
            any: 0,
            holds: 0,
            loss: [255; 64],
            win: [0; 64],
        };
        let occupied = set_of(white_king) | set_of(black_king) | set_of(third);
        let after_king = |to: usize| {
            if white {
                (to, black_king)
            } else {
                (white_king, to)
            }
        };
        let own = if white { white_king } else { black_king };
        // the fourth man is taken
        if FOURTH_IS_WHITE != white {
            for to in squares_of(self.geometry.king[own] & positions) {
                let (w, b) = after_king(to);
                out.add(to, self.small.cells(THIRD, true, !white, w, b)[third]);
            }
            if white {
                let targets = self.third_reach(&squares) & positions;
                if targets != 0 {
                    out.add_row(
                        self.lines,
                        self.small.cells(THIRD, true, false, white_king, black_king),
                        targets,
                    );
                }
            }
        }
        // the third man is taken
        if !white {
            if self.geometry.king[black_king] & set_of(third) != 0 {
                let cells = self
                    .small
                    .cells(FOURTH, FOURTH_IS_WHITE, true, white_king, third);
                out.add_row(self.lines, cells, positions);
            }
            if !FOURTH_IS_WHITE {
                let origins = attackers(
                    self.geometry,
                    FOURTH,
                    false,
                    third,
                    &[white_king, black_king],
                ) & positions;
                if origins != 0 && FOURTH == PAWN && third < 8 {
                    for kind in QUEEN..PAWN {
                        let cell =
                            self.small.cells(kind, false, true, white_king, black_king)[third];
                        squares_of(origins).for_each(|origin| out.add(origin, cell));
                    }
                } else if origins != 0 {
                    let cell = self
                        .small
                        .cells(FOURTH, false, true, white_king, black_king)[third];
                    squares_of(origins).for_each(|origin| out.add(origin, cell));
                }
            }
        }
        // promotions
        if FOURTH == PAWN && FOURTH_IS_WHITE == white {
            let (from, by) = if white {
                (0xffu64 << 48, 8isize)
            } else {
                (0xff00, -8)
            };
            let origins = positions & from;
            if origins != 0 {
                let lines: [_; 4] = std::array::from_fn(|kind| {
                    let by = self.conversions.promotion(3, kind, 0);
                    by.line(
                        self.geometry,
                        &[white_king, black_king, third, 0],
                        !white,
                        3,
                    )
                });
                for origin in squares_of(origins) {
                    let to = (origin as isize + by) as usize;
                    if occupied & set_of(to) != 0 {
                        continue;
                    }
                    if !white
                        && attackers(self.geometry, THIRD, true, black_king, &[white_king, to])
                            & set_of(third)
                            != 0
                    {
                        continue;
                    }
                    for line in &lines {
                        out.add(origin, line.cell(to));
                    }
                }
            }
        }
        if THIRD == PAWN && white && third / 8 == 6 && occupied & set_of(third + 8) == 0 {
            let mut fourth = positions & !set_of(third + 8);
            if !FOURTH_IS_WHITE {
                fourth &= !attackers(
                    self.geometry,
                    FOURTH,
                    false,
                    white_king,
                    &[black_king, third + 8],
                );
            }
            if fourth != 0 {
                let lines: [_; 4] = std::array::from_fn(|kind| {
                    let by = self.conversions.promotion(2, kind, 0);
                    by.line(
                        self.geometry,
                        &[white_king, black_king, third + 8, 0],
                        false,
                        3,
                    )
                });
                for square in squares_of(fourth) {
                    for line in &lines {
                        out.add(square, line.cell(square));
                    }
                }
            }
        }
        if passing {
            for fourth in squares_of(positions) {
                if white {
                    out.add(
                        fourth,
                        self.small.cells(PAWN, true, false, white_king, black_king)[fourth + 8],
                    );
                } else {
                    out.add(
                        fourth,
                        self.small.cells(PAWN, false, true, white_king, black_king)[third - 8],
                    );
                }
            }
        }
        out
    }

    // ---- moves that stay in the class

    #[inline(always)]
    fn last_origins(&self, row: usize, from: u64, free: u64, passing: bool, live: u64) -> u64 {
        let _ = row;
        if FOURTH != PAWN {
            return swept::<FOURTH>(self.geometry, from, free) & free;
        }
        if FOURTH_IS_WHITE {
            let one = from >> 8 & free;
            let two = (from & 0xff000000) >> 8 & free;
            one | two >> 8 & free
        } else {
            let one = if passing { 0 } else { from << 8 & free };
            let two = (from & !live & 0xff00000000) << 8 & free;
            one | two << 8 & free
        }
    }

    /// Goes back by each move of the men but the white king, in whole rows.
    #[inline(always)]
    fn go_back(&self, row: usize, from: u64, live: u64, mut go: impl FnMut(usize, u64)) {
        let passing = Self::PASSES && row >= Self::ROWS;
        let row = if passing { row - Self::ROWS } else { row };
        let (white, place, squares) = self.read(row);
        let [white_king, black_king, third] = squares;
        let occupied = set_of(white_king) | set_of(black_king) | set_of(third);
        let turned = if white {
            row + Self::SIDE
        } else {
            row - Self::SIDE
        };
        // the last man
        if FOURTH_IS_WHITE != white {
            let origins = self.last_origins(row, from, !occupied, passing, live);
            if origins != 0 {
                go(turned, origins);
            }
        }
        if !white {
            // the third man and the white king
            if THIRD == PAWN {
                let one = set_of(third) >> 8 & !occupied & !0xff;
                if one != 0 {
                    if !passing {
                        go(turned - 8, from & !one);
                    }
                    if third / 8 == 3 && one >> 8 & !occupied != 0 {
                        go(turned - 16, from & !one & !live);
                    }
                }
            } else {
                for origin in squares_of(self.third_reach(&squares) & !occupied) {
                    go(
                        turned - third + origin,
                        from & !self.lines.between[third][origin],
                    );
                }
            }
            if passing {
                return;
            }
            let steps = if Self::HAS_PAWN {
                &self.geometry.steps_with_pawns
            } else {
                &self.lines.back
            };
            let barred = occupied | self.geometry.king[black_king];
            for step in &steps[place] {
                if barred & set_of(step.square) == 0 {
                    let images = &self.geometry.images[step.symmetry];
                    let before = (step.place << 6 | images[black_king] as usize) << 6
                        | images[third] as usize;
                    go(before, image_of(from, step.symmetry));
                }
            }
        } else if !passing {
            for origin in squares_of(
                self.geometry.king[black_king] & !occupied & !self.geometry.king[white_king],
            ) {
                go(turned - (black_king << 6) + (origin << 6), from);
            }
        }
    }

    /// The positions, among some of a row, each of whose moves that stay in the class leads to none that is open.
    #[inline(always)]
    fn held(&self, open: &[u64], live: &[u64], row: usize, candidates: u64) -> u64 {
        let row = if Self::PASSES && row >= Self::ROWS {
            row - Self::ROWS
        } else {
            row
        };
        let (white, place, squares) = self.read(row);
        let [white_king, black_king, third] = squares;
        let occupied = set_of(white_king) | set_of(black_king) | set_of(third);
        let free = !occupied;
        let turned = if white {
            row + Self::SIDE
        } else {
            row - Self::SIDE
        };
        let mut left = candidates;
        let goal = |row: usize, double: bool| {
            if Self::PASSES && double {
                open[row] & !live[row] | open[row + Self::ROWS]
            } else {
                open[row]
            }
        };
        if !white {
            for to in
                squares_of(self.geometry.king[black_king] & free & !self.geometry.king[white_king])
            {
                left &= !open[turned - (black_king << 6) + (to << 6)];
                if left == 0 {
                    return 0;
                }
            }
        }
        if FOURTH_IS_WHITE == white {
            let to = open[turned];
            let origins = if FOURTH != PAWN && FOURTH != KNIGHT && left.count_ones() <= FEW {
                squares_of(left)
                    .filter(|square| {
                        let shadow = &self.geometry.shadow[FOURTH as usize][*square];
                        let hidden = shadow[white_king] | shadow[black_king] | shadow[third];
                        self.geometry.reach[FOURTH as usize][*square] & !hidden & to != 0
                    })
                    .fold(0, |set, square| set | set_of(square))
            } else if FOURTH != PAWN {
                swept::<FOURTH>(self.geometry, to, free)
            } else if FOURTH_IS_WHITE {
                to >> 8 | (to & 0xff000000) >> 16 & free >> 8
            } else {
                to << 8 | (goal(turned, true) & 0xff00000000) << 16 & free << 8
            };
            left &= !origins;
            if left == 0 {
                return 0;
            }
        }
        if white {
            if THIRD == PAWN {
                let one = set_of(third) << 8 & free;
                if one != 0 && third < 48 {
                    left &= !(open[turned + 8] & !one);
                    if third < 16 && one << 8 & free != 0 {
                        left &= !(goal(turned + 16, true) & !one);
                    }
                }
            } else {
                for to in squares_of(self.third_reach(&squares) & free) {
                    left &= !(open[turned - third + to] & !self.lines.between[third][to]);
                    if left == 0 {
                        return 0;
                    }
                }
            }
            if left == 0 {
                return 0;
            }
            let steps = if Self::HAS_PAWN {
                &self.geometry.steps_with_pawns
            } else {
                &self.lines.forth
            };
            let barred = occupied | self.geometry.king[black_king];
            for step in &steps[place] {
                if barred & set_of(step.square) == 0 {
                    let images = &self.geometry.images[step.symmetry];
                    let after = ((Self::PLACES + step.place) << 6 | images[black_king] as usize)
                        << 6
                        | images[third] as usize;
                    // the inverse of a symmetry: the same, but for those that mirror one way and transpose
                    let inverse = match step.symmetry {
                        5 => 6,
                        6 => 5,
                        other => other,
                    };
                    left &= !image_of(open[after], inverse);
                    if left == 0 {
                        return 0;
                    }
                }
            }
        }
        left
    }

    // ---- before the levels

    fn begin(&self, state: &mut State, live: &mut [u64]) {
        for row in 0..Self::ROWS {
            state.open[row] = self.positions(row);
            if Self::PASSES {
                live[row] = self.passing(row, state.open[row]);
                state.open[row + Self::ROWS] = live[row];
            }
        }
        for row in 0..state.open.len() {
            let positions = state.open[row];
            if positions == 0 {
                continue;
            }
            let passing = row >= Self::ROWS;
            let bare = if passing { row - Self::ROWS } else { row };
            let leaving = self.leaving(bare, positions, passing);
            let mut shut = 0;
            if leaving.any != 0 {
                let any = leaving.any & positions;
                let won = any & !equal_to(&leaving.loss, 255);
                let holds = leaving.holds & positions & !won;
                let lost = any & !won & !holds;
                shut = any;
                let mut rest = won;
                while rest != 0 {
                    let cell = leaving.loss[rest.trailing_zeros() as usize];
                    let same = rest & equal_to(&leaving.loss, cell);
                    state.due[cell as usize + 1].push((row as u32, same));
                    rest &= !same;
                }
                let mut rest = lost;
                while rest != 0 {
                    let cell = leaving.win[rest.trailing_zeros() as usize];
                    let same = rest & equal_to(&leaving.win, cell);
                    state.due[cell as usize + 1].push((row as u32, same));
                    rest &= !same;
                }
            }
            let stuck = self.held(&state.open, live, row, positions & !leaving.any);
            if stuck != 0 {
                shut |= stuck;
                let mates = stuck & self.checks(bare);
                if mates != 0 {
                    state.lost.push((row as u32, mates));
                }
            }
            state.shut[row] = shut;
        }
    }

    #[inline(always)]
    fn write(&self, cells: &mut [u8], row: usize, set: u64, cell: u8) {
        let cells: &mut [u8; 64] = (&mut cells[row * 64..row * 64 + 64]).try_into().unwrap();
        if set.count_ones() < 12 {
            for square in squares_of(set) {
                cells[square & 63] = cell;
            }
            return;
        }
        let all = u64::from(cell) * 0x0101010101010101;
        for part in 0..8 {
            let change = self.lines.spread[(set >> (8 * part) & 255) as usize];
            let place = &mut cells[part * 8..part * 8 + 8];
            let old = u64::from_le_bytes((&*place).try_into().unwrap());
            place.copy_from_slice(&(old & !change | all & change).to_le_bytes());
        }
    }

    /// The cells of the class, with each image of a position.
    pub fn build(&self) -> Vec<u8> {
        let rows = if Self::PASSES {
            2 * Self::ROWS
        } else {
            Self::ROWS
        };
        let mut cells = vec![0u8; rows * 64];
        let mut live = vec![0u64; if Self::PASSES { Self::ROWS } else { 0 }];
        let mut state = State {
            open: vec![0; rows],
            shut: vec![0; rows],
            gathered: vec![0; rows],
            touched: Touched::new(rows),
            due: vec![vec![]; 257],
            lost: vec![],
        };
        self.begin(&mut state, &mut live);
        let State {
            open,
            shut,
            gathered,
            touched,
            due,
            lost,
        } = &mut state;
        let live = &live;
        let live_of = |row: usize| {
            if Self::PASSES && row < Self::ROWS {
                live[row]
            } else {
                0
            }
        };
        let mut won: Vec<(u32, u64)> = vec![];
        let mut cell = 1usize;
        while cell < 254 {
            if lost.is_empty() && due[cell + 1..].iter().all(|list| list.is_empty()) {
                break;
            }
            // what leads to a loss is won
            for (row, set) in lost.drain(..) {
                let row = row as usize;
                self.write(&mut cells, row, set, cell as u8);
                self.go_back(row, set, live_of(row), |before, origins| {
                    let mut go = |before: usize| {
                        let new = origins & open[before];
                        if new != 0 {
                            open[before] &= !new;
                            touched.add(before);
                            gathered[before] |= new;
                        }
                    };
                    go(before);
                    if Self::PASSES {
                        go(before + Self::ROWS);
                    }
                });
            }
            for (row, set) in &due[cell + 1] {
                let row = *row as usize;
                let new = set & open[row];
                if new != 0 {
                    open[row] &= !new;
                    touched.add(row);
                    gathered[row] |= new;
                }
            }
            // what leads to a win may be lost
            won.clear();
            touched.drain(|row| won.push((row as u32, std::mem::take(&mut gathered[row]))));
            for (row, set) in won.iter().copied() {
                let row = row as usize;
                self.write(&mut cells, row, set, cell as u8 + 1);
                self.go_back(row, set, live_of(row), |before, origins| {
                    let mut go = |before: usize| {
                        let new = origins & open[before] & !shut[before];
                        if new != 0 {
                            touched.add(before);
                            gathered[before] |= new;
                        }
                    };
                    go(before);
                    if Self::PASSES {
                        go(before + Self::ROWS);
                    }
                });
            }
            for (row, set) in &due[cell + 2] {
                let row = *row as usize;
                shut[row] &= !set;
                let new = set & open[row];
                if new != 0 {
                    touched.add(row);
                    gathered[row] |= new;
                }
            }
            touched.drain(|row| {
                let candidates = std::mem::take(&mut gathered[row]);
                let found = self.held(open, live, row, candidates);
                if found != 0 {
                    shut[row] |= found;
                    lost.push((row as u32, found));
                }
            });
            cell += 2;
        }
        cells
    }
}
