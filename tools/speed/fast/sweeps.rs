//! The squares on which men bear, for whole sets of them.
use crate::geometry::*;

/// Of so few squares each is gone through by itself: a fill takes as long as some of them.
pub const FEW: u32 = 5;

pub const NOT_A: u64 = 0xfefefefefefefefe;
pub const NOT_H: u64 = 0x7f7f7f7f7f7f7f7f;

macro_rules! fill_up {
    ($from:expr, $free:expr, $by:expr, $edge:expr) => {{
        let mut set = $from;
        let mut free = $free & $edge;
        set |= free & set << $by;
        free &= free << $by;
        set |= free & set << (2 * $by);
        free &= free << (2 * $by);
        set |= free & set << (4 * $by);
        set << $by & $edge
    }};
}
macro_rules! fill_down {
    ($from:expr, $free:expr, $by:expr, $edge:expr) => {{
        let mut set = $from;
        let mut free = $free & $edge;
        set |= free & set >> $by;
        free &= free >> $by;
        set |= free & set >> (2 * $by);
        free &= free >> (2 * $by);
        set |= free & set >> (4 * $by);
        set >> $by & $edge
    }};
}

#[inline(always)]
fn straight(from: u64, free: u64) -> u64 {
    fill_up!(from, free, 8, !0u64)
        | fill_down!(from, free, 8, !0u64)
        | fill_up!(from, free, 1, NOT_A)
        | fill_down!(from, free, 1, NOT_H)
}

#[inline(always)]
fn diagonal(from: u64, free: u64) -> u64 {
    fill_up!(from, free, 9, NOT_A)
        | fill_down!(from, free, 9, NOT_H)
        | fill_up!(from, free, 7, NOT_H)
        | fill_down!(from, free, 7, NOT_A)
}

#[inline(always)]
fn leaps(from: u64) -> u64 {
    let one = from << 1 & NOT_A | from >> 1 & NOT_H;
    let two = from << 2 & 0xfcfcfcfcfcfcfcfc | from >> 2 & 0x3f3f3f3f3f3f3f3f;
    one << 16 | one >> 16 | two << 8 | two >> 8
}

/// All squares on which men of a kind bear from some squares, past what is not free.
#[inline(always)]
pub fn swept<const KIND: Kind>(geometry: &Geometry, from: u64, free: u64) -> u64 {
    if KIND == KNIGHT {
        return leaps(from);
    }
    if from.count_ones() <= FEW {
        return squares_of(from).fold(0, |all, square| {
            let mut set = geometry.reach[KIND as usize][square];
            let mut blockers = set & !free;
            while blockers != 0 {
                set &= !geometry.shadow[KIND as usize][square][blockers.trailing_zeros() as usize];
                blockers &= blockers - 1;
            }
            all | set
        });
    }
    match KIND {
        QUEEN => straight(from, free) | diagonal(from, free),
        ROOK => straight(from, free),
        BISHOP => diagonal(from, free),
        _ => unreachable!(),
    }
}

/// The squares from which a man bears on a square past blockers.
#[inline(always)]
pub fn attackers(
    geometry: &Geometry,
    kind: Kind,
    white: bool,
    square: usize,
    blockers: &[usize],
) -> u64 {
    match kind {
        KNIGHT => geometry.knight[square],
        PAWN => geometry.pawn[white as usize][square],
        _ => {
            let mut set = geometry.reach[kind as usize][square];
            for blocker in blockers {
                set &= !geometry.shadow[kind as usize][square][*blocker];
            }
            set
        }
    }
}
