//! The positions of numbers.

use crate::board::{Kind, Man, Side, Square};
use crate::index::{least_of, places};
use crate::material::Class;
use crate::passing::{has_legal_en_passant, square_behind_pawn};
use crate::position::Position;

/// What man fills a place in the order of a class.
#[derive(Clone, Copy)]
struct Slot {
    side: Side,
    kind: Kind,
}

const fn white(kind: Kind) -> Slot {
    Slot {
        side: Side::White,
        kind,
    }
}

const fn black(kind: Kind) -> Slot {
    Slot {
        side: Side::Black,
        kind,
    }
}

/// How many numbers there are for positions of the class.
pub fn cells(class: Class) -> u32 {
    use Class::*;
    match class {
        KK => 1_280,
        KQK | KRK | KBK | KNK => 81_920,
        KPK => 262_144,
        KQPK | KRPK | KBPK | KNPK | KPPK | KQKP | KRKP | KBKP | KNKP => 16_777_216,
        KPKP => 33_554_432,
        _ => 5_242_880,
    }
}

/// The slots of the class.
fn slots(class: Class) -> &'static [Slot] {
    use Class::*;
    use Kind::*;
    match class {
        KK => const { &[white(King), black(King)] },
        KQK => const { &[white(King), black(King), white(Queen)] },
        KRK => const { &[white(King), black(King), white(Rook)] },
        KBK => const { &[white(King), black(King), white(Bishop)] },
        KNK => const { &[white(King), black(King), white(Knight)] },
        KPK => const { &[white(King), black(King), white(Pawn)] },
        KQQK => const { &[white(King), black(King), white(Queen), white(Queen)] },
        KQRK => const { &[white(King), black(King), white(Queen), white(Rook)] },
        KQBK => const { &[white(King), black(King), white(Queen), white(Bishop)] },
        KQNK => const { &[white(King), black(King), white(Queen), white(Knight)] },
        KQPK => const { &[white(King), black(King), white(Queen), white(Pawn)] },
        KRRK => const { &[white(King), black(King), white(Rook), white(Rook)] },
        KRBK => const { &[white(King), black(King), white(Rook), white(Bishop)] },
        KRNK => const { &[white(King), black(King), white(Rook), white(Knight)] },
        KRPK => const { &[white(King), black(King), white(Rook), white(Pawn)] },
        KBBK => const { &[white(King), black(King), white(Bishop), white(Bishop)] },
        KBNK => const { &[white(King), black(King), white(Bishop), white(Knight)] },
        KBPK => const { &[white(King), black(King), white(Bishop), white(Pawn)] },
        KNNK => const { &[white(King), black(King), white(Knight), white(Knight)] },
        KNPK => const { &[white(King), black(King), white(Knight), white(Pawn)] },
        KPPK => const { &[white(King), black(King), white(Pawn), white(Pawn)] },
        KQKQ => const { &[white(King), black(King), white(Queen), black(Queen)] },
        KQKR => const { &[white(King), black(King), white(Queen), black(Rook)] },
        KQKB => const { &[white(King), black(King), white(Queen), black(Bishop)] },
        KQKN => const { &[white(King), black(King), white(Queen), black(Knight)] },
        KQKP => const { &[white(King), black(King), white(Queen), black(Pawn)] },
        KRKR => const { &[white(King), black(King), white(Rook), black(Rook)] },
        KRKB => const { &[white(King), black(King), white(Rook), black(Bishop)] },
        KRKN => const { &[white(King), black(King), white(Rook), black(Knight)] },
        KRKP => const { &[white(King), black(King), white(Rook), black(Pawn)] },
        KBKB => const { &[white(King), black(King), white(Bishop), black(Bishop)] },
        KBKN => const { &[white(King), black(King), white(Bishop), black(Knight)] },
        KBKP => const { &[white(King), black(King), white(Bishop), black(Pawn)] },
        KNKN => const { &[white(King), black(King), white(Knight), black(Knight)] },
        KNKP => const { &[white(King), black(King), white(Knight), black(Pawn)] },
        KPKP => const { &[white(King), black(King), white(Pawn), black(Pawn)] },
    }
}

#[inline]
fn listed(pawns: bool, place: u32) -> u32 {
    if pawns {
        8 * (place / 4) + place % 4
    } else if place < 4 {
        place
    } else if place < 7 {
        place + 5
    } else if place < 9 {
        place + 11
    } else {
        27
    }
}

#[inline]
fn man(slot: &Slot, square: u32) -> Man {
    Man {
        side: slot.side,
        kind: slot.kind,
        at: Square(square as u8),
    }
}

/// The position of these men, the square behind the pawn of the side that is not to move being passed.
fn placed_behind(men: &[Man], to_move: Side) -> Option<Position> {
    match square_behind_pawn(to_move.other(), men) {
        None => Position::told(men, to_move, None),
        Some(number) if number < 64 => Position::told(men, to_move, Some(Square(number))),
        Some(_) => None,
    }
}

/// The position of these men, if `number` is their least and they are one.
#[inline]
fn numbered(
    pawns: bool,
    to_move: Side,
    number: u32,
    passed: bool,
    men: &[Man],
) -> Option<Position> {
    if least_of(pawns, to_move, false, men) != Some(number) {
        None
    } else if passed {
        placed_behind(men, to_move)
    } else {
        Position::told(men, to_move, None)
    }
}

#[inline]
fn side_of(number: u32) -> Side {
    if number == 0 {
        Side::White
    } else {
        Side::Black
    }
}

/// The position of the men and the side that the number tells, with a passed square or without.
fn read_off(slots: &[Slot], number: u32, passed: bool) -> Option<Position> {
    let pawns = slots.iter().any(|slot| slot.kind == Kind::Pawn);
    let places = places(pawns);
    let king = |slot, head| man(slot, listed(pawns, head % places));
    let side = |head| side_of(head / places);
    match slots {
        [k, b] => {
            let head = number / 64;
            let men = [king(k, head), man(b, number % 64)];
            numbered(pawns, side(head), number, passed, &men)
        }
        [k, b, x] => {
            let head = number / 64 / 64;
            let black = man(b, number / 64 % 64);
            let men = [king(k, head), black, man(x, number % 64)];
            numbered(pawns, side(head), number, passed, &men)
        }
        [k, b, x, y] => {
            let head = number / 64 / 64 / 64;
            let black = man(b, number / 64 / 64 % 64);
            let further = man(x, number / 64 % 64);
            let men = [king(k, head), black, further, man(y, number % 64)];
            numbered(pawns, side(head), number, passed, &men)
        }
        _ => unreachable!(),
    }
}

/// The position of the class that has this number, if there is one, with a passed square where the number has the bit.
pub fn decode(class: Class, number: u32) -> Option<Position> {
    if number >= cells(class) {
        None
    } else if number < 16_777_216 {
        read_off(slots(class), number, false)
    } else {
        read_off(slots(class), number - 16_777_216, true).filter(has_legal_en_passant)
    }
}
