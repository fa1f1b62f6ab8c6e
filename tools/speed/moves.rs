//! Legal moves and the positions that they lead to.

use crate::board::{Kind, Man, Side, Square, in_check};
use crate::list::List;
use crate::position::Position;
use crate::sets::{attacks, attacks_without, between, has, pawn_captures_of, set_of};

#[derive(Clone, Copy, Debug, Default, PartialEq, Eq)]
pub struct Move {
    pub origin: Square,
    pub target: Square,
    pub promoted: Option<Kind>,
}

fn squares_of(men: &[Man], side: Side) -> u64 {
    men.iter()
        .filter(|man| man.side == side)
        .fold(0, |set, man| set | set_of(man.at))
}

#[inline]
fn pawn_targets(man: &Man, passed: Option<Square>, own: u64, theirs: u64) -> u64 {
    let at = set_of(man.at);
    let free = !(own | theirs);
    let steps = match man.side {
        Side::White => {
            let one = at << 8 & free;
            one | (one & 0xff_0000) << 8 & free
        }
        Side::Black => {
            let one = at >> 8 & free;
            one | (one & 0xff00_0000_0000) >> 8 & free
        }
    };
    steps | pawn_captures_of(man.side, man.at) & (theirs | passed.map_or(0, set_of))
}

/// The squares to which the man goes, and where none of its side stands.
#[inline]
fn targets(position: &Position, man: &Man) -> u64 {
    let men = position.men();
    let own = squares_of(men, position.to_move);
    if man.kind == Kind::Pawn {
        let theirs = squares_of(men, position.to_move.other());
        pawn_targets(man, position.passed, own, theirs) & !own
    } else {
        attacks(men, man) & !own
    }
}

/// The squares that neither take the man nor stand in its line to the king.
#[inline]
fn no_shields(man: &Man, king: Square) -> u64 {
    let line = match man.kind {
        Kind::Queen | Kind::Rook | Kind::Bishop => between(man.at, king),
        _ => 0,
    };
    !(set_of(man.at) | line)
}

/// The squares on which a move of the man leaves a king of the side attacked.
#[inline]
fn unsafe_targets(men: &[Man], side: Side, man: &Man) -> u64 {
    let others = || {
        men.iter()
            .filter(|other| other.side != side && other.at != man.at)
    };
    let mut set = 0;
    if man.kind == Kind::King {
        for other in others() {
            set |= attacks_without(men, man.at, other);
        }
    }
    for king in men {
        if king.is(side, Kind::King) && king.at != man.at {
            for other in others() {
                if has(attacks_without(men, man.at, other), king.at) {
                    set |= no_shields(other, king.at);
                }
            }
        }
    }
    set
}

#[inline]
fn reaches_end(man: &Man, target: Square) -> bool {
    let last = match man.side {
        Side::White => 7,
        Side::Black => 0,
    };
    man.kind == Kind::Pawn && target.rank() == last
}

/// Whether the man is a pawn, and a pawn has just jumped over a square.
#[inline]
fn may_pass(position: &Position, man: &Man) -> bool {
    position.passed.is_some() && man.kind == Kind::Pawn
}

/// Moves of a position at most.
pub const MAX_MOVES: usize = 62;

/// Each legal move once, ascending by origin, target and promotion.
pub fn legal_moves(position: &Position) -> List<Move, MAX_MOVES> {
    let mut list = List::new();
    for man in position.men() {
        if man.side == position.to_move {
            add_moves_of(position, man, &mut list);
        }
    }
    list
}

fn add_moves_of(position: &Position, man: &Man, list: &mut List<Move, MAX_MOVES>) {
    let mut rest = targets(position, man);
    let sure = !may_pass(position, man);
    if sure {
        rest &= !unsafe_targets(position.men(), position.to_move, man);
    }
    while rest != 0 {
        let target = Square(rest.trailing_zeros() as u8);
        rest &= rest - 1;
        if sure || !leaves_check(position, man, target) {
            add_target(man, target, list);
        }
    }
}

#[inline]
fn add_target(man: &Man, target: Square, list: &mut List<Move, MAX_MOVES>) {
    let mut add = |promoted| {
        list.push(Move {
            origin: man.at,
            target,
            promoted,
        });
    };
    if reaches_end(man, target) {
        for kind in [Kind::Queen, Kind::Rook, Kind::Bishop, Kind::Knight] {
            add(Some(kind));
        }
    } else {
        add(None);
    }
}

/// Whether a move, by its men after it, leaves the mover's king attacked.
fn leaves_check(position: &Position, man: &Man, target: Square) -> bool {
    let moved = Man { at: target, ..*man };
    in_check(men_after(position, man, moved).as_slice(), position.to_move)
}

/// Whether the move is legal.
pub fn is_legal(position: &Position, by: Move) -> bool {
    let Some(man) = position.man_at(by.origin) else {
        return false;
    };
    if man.side != position.to_move
        || !is_choice(reaches_end(&man, by.target), by.promoted)
        || !has(targets(position, &man), by.target)
    {
        return false;
    }
    if may_pass(position, &man) {
        !leaves_check(position, &man, by.target)
    } else {
        !has(
            unsafe_targets(position.men(), position.to_move, &man),
            by.target,
        )
    }
}

#[inline]
fn is_choice(end: bool, promoted: Option<Kind>) -> bool {
    match promoted {
        None => !end,
        Some(Kind::King | Kind::Pawn) => false,
        Some(_) => end,
    }
}

/// The men after a move that brings the man to where `moved` stands: it is carried up to there.
#[inline]
fn men_after(position: &Position, man: &Man, moved: Man) -> List<Man, 4> {
    let target = moved.at;
    let passing =
        man.kind == Kind::Pawn && man.at.file() != target.file() && position.passed == Some(target);
    let gone = if passing {
        Square(8 * man.at.rank() + target.file())
    } else {
        target
    };
    let mut men = List::new();
    let mut carried = moved;
    for other in position.men() {
        if other.at != man.at && other.at != target && other.at != gone {
            let (lower, higher) = if other.at < carried.at {
                (*other, carried)
            } else {
                (carried, *other)
            };
            men.push(lower);
            carried = higher;
        }
    }
    men.push(carried);
    men
}

/// The position after a legal move.
pub fn played(position: &Position, by: Move) -> Position {
    let man = position
        .man_at(by.origin)
        .expect("a man stands on the origin");
    let moved = Man {
        kind: by.promoted.unwrap_or(man.kind),
        at: by.target,
        ..man
    };
    let jumped = man.kind == Kind::Pawn && man.at.rank().abs_diff(by.target.rank()) == 2;
    Position {
        men: men_after(position, &man, moved),
        to_move: position.to_move.other(),
        passed: jumped.then(|| Square((man.at.0 + by.target.0) / 2)),
    }
}

pub fn is_mate(position: &Position) -> bool {
    position.in_check() && legal_moves(position).as_slice().is_empty()
}

#[inline]
fn pawn_origins(free: u64, man: &Man) -> u64 {
    let at = set_of(man.at);
    match man.side {
        Side::White => {
            let one = at >> 8 & free & !0xff;
            one | (one & 0xff_0000) >> 8 & free
        }
        Side::Black => {
            let one = at << 8 & free & !(0xff << 56);
            one | (one & 0xff00_0000_0000) << 8 & free
        }
    }
}

/// The squares from which the man cannot have come, since a king of the side to move was attacked then.
#[inline]
fn checks_back(men: &[Man], side: Side, man: &Man) -> u64 {
    let mut set = 0;
    for king in men {
        if king.is(side, Kind::King) {
            let mirrored = Man {
                side: man.side.other(),
                kind: man.kind,
                at: king.at,
            };
            set |= attacks_without(men, man.at, &mirrored);
            for other in men {
                if other.side != side
                    && other.at != man.at
                    && has(attacks_without(men, man.at, other), king.at)
                {
                    set |= no_shields(other, king.at);
                }
            }
        }
    }
    set
}

/// The squares from which the man can have come by a quiet move.
#[inline]
fn origins(position: &Position, man: &Man) -> u64 {
    let men = position.men();
    let free = !men.iter().fold(0, |set, man| set | set_of(man.at));
    let ways = if man.kind == Kind::Pawn {
        pawn_origins(free, man)
    } else {
        attacks(men, man) & free
    };
    ways & !checks_back(men, position.to_move, man)
}

/// Each quiet move that can have led to the position.
pub fn unmoves(position: &Position) -> List<Move, 192> {
    let mut list = List::new();
    for man in position.men() {
        if man.side != position.to_move {
            let mut rest = origins(position, man);
            while rest != 0 {
                list.push(Move {
                    origin: Square(rest.trailing_zeros() as u8),
                    target: man.at,
                    promoted: None,
                });
                rest &= rest - 1;
            }
        }
    }
    list
}

/// The position before a quiet move.
pub fn unplayed(position: &Position, by: Move) -> Position {
    let man = position
        .man_at(by.target)
        .expect("a man stands on the target");
    let back = Man {
        at: by.origin,
        ..man
    };
    let unpassed = Position {
        passed: None,
        ..*position
    };
    Position {
        men: men_after(&unpassed, &man, back),
        to_move: position.to_move.other(),
        passed: None,
    }
}

/// Each position from which a quiet move leads to the position.
pub fn earlier(position: &Position) -> List<Position, 192> {
    let mut list = List::new();
    for by in unmoves(position).as_slice() {
        list.push(unplayed(position, *by));
    }
    list
}
