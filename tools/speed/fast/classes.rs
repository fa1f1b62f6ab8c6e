//! The classes of material, and where a capture or a promotion leads.
use crate::geometry::*;

pub const NAMES: [&str; 36] = [
    "KK", "KQK", "KRK", "KBK", "KNK", "KPK", "KQQK", "KQRK", "KQBK", "KQNK", "KQPK", "KRRK",
    "KRBK", "KRNK", "KRPK", "KBBK", "KBNK", "KBPK", "KNNK", "KNPK", "KPPK", "KQKQ", "KQKR", "KQKB",
    "KQKN", "KQKP", "KRKR", "KRKB", "KRKN", "KRKP", "KBKB", "KBKN", "KBKP", "KNKN", "KNKP", "KPKP",
];

const LETTERS: &str = "QRBNP";

pub fn has_pawn(class: usize) -> bool {
    NAMES[class].contains('P')
}

/// The men of a class but the kings, in the order of their slots: whether a man is White's, and its kind.
fn men_of(class: usize) -> Vec<(bool, Kind)> {
    let kinds = |part: &str| {
        part.chars()
            .map(|c| LETTERS.find(c).unwrap() as Kind)
            .collect::<Vec<_>>()
    };
    let parts: Vec<_> = NAMES[class][1..].split('K').map(kinds).collect();
    let white = parts[0].iter().map(|kind| (true, *kind));
    white
        .chain(parts[1].iter().map(|kind| (false, *kind)))
        .collect()
}

/// All classes, each after those that it needs.
pub fn all() -> Vec<usize> {
    let mut list: Vec<usize> = (0..36).collect();
    list.sort_by_key(|class| {
        (
            NAMES[*class].len(),
            NAMES[*class].matches('P').count(),
            *class,
        )
    });
    list
}

/// The classes with no more men and no more pawns than one that is built before it.
pub fn up_to(class: usize) -> Vec<usize> {
    let mut list = vec![];
    add_needs(class, &mut list);
    list
}

fn add_needs(class: usize, list: &mut Vec<usize>) {
    if list.contains(&class) {
        return;
    }
    let men = men_of(class);
    for taken in 2..men.len() + 2 {
        add_needs(after(&men, Some(taken), None).class, list);
    }
    for (slot, _) in (2..).zip(&men).filter(|(_, man)| man.1 == PAWN) {
        for kind in QUEEN..PAWN {
            add_needs(after(&men, None, Some((slot, kind))).class, list);
            for taken in takings(&men, slot) {
                add_needs(after(&men, Some(taken), Some((slot, kind))).class, list);
            }
        }
    }
    list.push(class);
}

/// The slots that the pawn of a slot may capture from as it promotes: no pawn stands on the last rank.
fn takings(men: &[(bool, Kind)], slot: usize) -> impl Iterator<Item = usize> + '_ {
    (2..men.len() + 2)
        .filter(move |other| men[other - 2].0 != men[slot - 2].0 && men[other - 2].1 != PAWN)
}

/// What is left after a capture or a promotion: the class, whether its colours are exchanged, and which slot of ours fills each of its slots.
struct Left {
    class: usize,
    swapped: bool,
    from: [usize; 4],
}

fn after(men: &[(bool, Kind)], taken: Option<usize>, promoted: Option<(usize, Kind)>) -> Left {
    let mut sides: [Vec<(Kind, usize)>; 2] = [vec![], vec![]];
    for (slot, (white, kind)) in (2..).zip(men).filter(|(slot, _)| Some(*slot) != taken) {
        let kind = promoted
            .filter(|(pawn, _)| *pawn == slot)
            .map_or(*kind, |(_, kind)| kind);
        sides[!*white as usize].push((kind, slot));
    }
    sides.iter_mut().for_each(|side| side.sort());
    let kinds = |side: &[(Kind, usize)]| side.iter().map(|man| man.0).collect::<Vec<_>>();
    let (white, black) = (kinds(&sides[0]), kinds(&sides[1]));
    let swapped = if white.len() != black.len() {
        white.len() < black.len()
    } else {
        white > black
    };
    if swapped {
        sides.swap(0, 1);
    }
    let letters = |side: &[(Kind, usize)]| {
        side.iter()
            .map(|man| LETTERS.as_bytes()[man.0 as usize] as char)
            .collect::<String>()
    };
    let name = format!("K{}K{}", letters(&sides[0]), letters(&sides[1]));
    let mut from = [swapped as usize, !swapped as usize, 0, 0];
    for (place, man) in (2..).zip(sides[0].iter().chain(&sides[1])) {
        from[place] = man.1;
    }
    Left {
        class: NAMES.iter().position(|it| *it == name).unwrap(),
        swapped,
        from,
    }
}

/// Where the value of a position after a capture or a promotion is looked up.
#[derive(Clone, Copy)]
pub struct Conversion<'t> {
    cells: &'t [u8],
    men: usize,
    pawns: bool,
    /// What turns a square over where the colours are exchanged.
    turned: usize,
    from: [usize; 4],
}

impl<'t> Conversion<'t> {
    fn new(
        tables: &'t [Vec<u8>],
        men: &[(bool, Kind)],
        taken: Option<usize>,
        promoted: Option<(usize, Kind)>,
    ) -> Self {
        let left = after(men, taken, promoted);
        Conversion {
            cells: &tables[left.class],
            men: 2 + men.len() - taken.is_some() as usize,
            pawns: has_pawn(left.class),
            turned: if left.swapped { 56 } else { 0 },
            from: left.from,
        }
    }

    /// The symmetry that brings the first king where the table has it, and the number of his place and of the side to move.
    #[inline(always)]
    fn head(
        &self,
        geometry: &Geometry,
        squares: &[usize; 4],
        white_to_move: bool,
    ) -> (usize, usize) {
        let king = squares[self.from[0]] ^ self.turned;
        let is_black = (white_to_move == (self.turned != 0)) as usize;
        if self.pawns {
            let symmetry = (king & 7) >> 2;
            let square = geometry.images[symmetry][king] as usize;
            (symmetry, square / 8 * 4 + square % 8 + 32 * is_black)
        } else {
            let symmetry = geometry.into_triangle[king] as usize;
            (
                symmetry,
                geometry.place[geometry.images[symmetry][king] as usize] as usize + 10 * is_black,
            )
        }
    }

    /// The cell of the position after it, 0 for a draw. Each image of a position has its cell in `cells`.
    pub fn cell(&self, geometry: &Geometry, squares: &[usize; 4], white_to_move: bool) -> u8 {
        let (symmetry, head) = self.head(geometry, squares, white_to_move);
        let images = &geometry.images[symmetry];
        self.cells[(1..self.men).fold(head, |n, slot| {
            n * 64 + images[squares[self.from[slot]] ^ self.turned] as usize
        })]
    }
}

/// The cells of the positions after a conversion where one man's square varies.
pub struct Line<'c> {
    cells: &'c [u8],
    base: usize,
    shift: usize,
    turned: usize,
    images: &'c [u8; 64],
}

impl Line<'_> {
    #[inline(always)]
    pub fn cell(&self, square: usize) -> u8 {
        self.cells[self.base + ((self.images[square ^ self.turned] as usize) << self.shift)]
    }
}

impl<'t> Conversion<'t> {
    /// The cells where the man of a slot, which is no king, stands on any square.
    #[inline(always)]
    pub fn line<'c>(
        &'c self,
        geometry: &'c Geometry,
        squares: &[usize; 4],
        white_to_move: bool,
        slot: usize,
    ) -> Line<'c> {
        let (symmetry, head) = self.head(geometry, squares, white_to_move);
        let images = &geometry.images[symmetry];
        let (mut base, mut shift) = (head, 0);
        for place in 1..self.men {
            shift += 6;
            base <<= 6;
            if self.from[place] == slot {
                shift = 0;
            } else {
                base += images[squares[self.from[place]] ^ self.turned] as usize;
            }
        }
        Line {
            cells: self.cells,
            base,
            shift,
            turned: self.turned,
            images,
        }
    }
}

/// The conversions of a class: by the slot that is taken, and by the pawn's slot, the kind and the slot that is taken as well.
pub struct Conversions<'t> {
    captures: [Option<Conversion<'t>>; 4],
    promotions: Vec<Option<Conversion<'t>>>,
}

impl<'t> Conversions<'t> {
    pub fn new(class: usize, tables: &'t [Vec<u8>]) -> Self {
        let men = men_of(class);
        let mut captures = [None; 4];
        for (slot, capture) in captures.iter_mut().enumerate().take(men.len() + 2).skip(2) {
            *capture = Some(Conversion::new(tables, &men, Some(slot), None));
        }
        let mut promotions = vec![None; 4 * 4 * 4];
        for (slot, _) in (2..).zip(&men).filter(|(_, man)| man.1 == PAWN) {
            for kind in QUEEN..PAWN {
                let way = (slot * 4 + kind as usize) * 4;
                promotions[way] = Some(Conversion::new(tables, &men, None, Some((slot, kind))));
                for taken in takings(&men, slot) {
                    promotions[way + taken] = Some(Conversion::new(
                        tables,
                        &men,
                        Some(taken),
                        Some((slot, kind)),
                    ));
                }
            }
        }
        Conversions {
            captures,
            promotions,
        }
    }

    pub fn capture(&self, taken: usize) -> &Conversion<'t> {
        self.captures[taken].as_ref().unwrap()
    }

    /// `taken` is 0 where nothing is taken.
    pub fn promotion(&self, slot: usize, kind: usize, taken: usize) -> &Conversion<'t> {
        self.promotions[(slot * 4 + kind) * 4 + taken]
            .as_ref()
            .unwrap()
    }
}
