//! A gadget on each of 512 columns of shares.

use super::gadgets::{
    check_coefficient, judge, public, sec_add, sec_add_modp, to_residues, to_words,
};
use super::shares::{Shares, open_residue, refresh_residues, refresh_words, sec_and};
use super::source::{Generator, Mark, Source, Tape};
use super::{Set, SetI, SetS};

/// How many columns an area has.
pub const COLUMNS: usize = 512;

/// The areas of a call: share i of column c stands at i · 512 + c.
pub struct Areas<'a> {
    pub out: &'a mut [u32],
    pub x: &'a [u32],
    pub y: &'a [u32],
}

fn column<const M: usize>(area: &[u32], c: usize) -> Shares<M> {
    std::array::from_fn(|i| area[i * COLUMNS + c])
}

/// Does `gadget` on each column of x and of y.
fn each_column<const M: usize>(
    areas: &mut Areas<'_>,
    mut gadget: impl FnMut(Shares<M>, Shares<M>) -> Result<Shares<M>, Mark>,
) -> Result<(), Mark> {
    for c in 0..COLUMNS {
        let z = gadget(column(areas.x, c), column(areas.y, c))?;
        for (i, share) in z.into_iter().enumerate() {
            areas.out[i * COLUMNS + c] = share;
        }
    }
    Ok(())
}

/// Each share cut to so few bits that it is a residue, and so is the word that they stand for.
fn small<const M: usize, const N: usize, S: Set<N>>(x: Shares<M>) -> Shares<M> {
    x.map(|share| share & ((1 << (S::BITS - 1)) - 1))
}

fn run<const M: usize, const N: usize, S: Set<N>, W: Source>(
    number: u8,
    areas: &mut Areas<'_>,
    masks: &mut W,
) -> Result<(), Mark> {
    let cut = small::<M, N, S>;
    match number {
        0 => each_column(areas, |x, _| refresh_words::<M, W>(x, masks)),
        1 => each_column(areas, |x, _| {
            let mut x = cut(x);
            refresh_residues::<M, N, S, W>(&mut x, masks)?;
            Ok(x)
        }),
        2 => each_column(areas, |x, y| sec_and::<M, W>(x, y, masks)),
        3 => each_column(areas, |x, y| sec_add::<M, W>(x, y, masks)),
        4 => each_column(areas, |x, y| {
            sec_add_modp::<M, N, S, W>(cut(x), cut(y), masks)
        }),
        5 => each_column(areas, |x, _| to_words::<M, N, S, W>(cut(x), masks)),
        6 => each_column(areas, |x, _| to_residues::<M, N, S, W>(cut(x), masks)),
        7 => each_column(areas, |x, _| {
            Ok(public::<M>(open_residue::<M, N, S, W>(cut(x), masks)?))
        }),
        8 => each_column(areas, |x, _| {
            Ok(judge::<M, N, S, W>(x, masks)?.unwrap_or([0; M]))
        }),
        _ => each_column(areas, |x, y| {
            check_coefficient::<M, N, S, W>(cut(x), y, masks)
        }),
    }
}

fn run_shares<const N: usize, S: Set<N>, W: Source>(
    number: u8,
    shares: u8,
    areas: &mut Areas<'_>,
    masks: &mut W,
) -> Result<(), Mark> {
    match shares {
        1 => run::<1, N, S, W>(number, areas, masks),
        2 => run::<2, N, S, W>(number, areas, masks),
        3 => run::<3, N, S, W>(number, areas, masks),
        4 => run::<4, N, S, W>(number, areas, masks),
        5 => run::<5, N, S, W>(number, areas, masks),
        6 => run::<6, N, S, W>(number, areas, masks),
        7 => run::<7, N, S, W>(number, areas, masks),
        _ => run::<8, N, S, W>(number, areas, masks),
    }
}

/// The tests of a call in their order: 0 where it was done, else the refusal's number.
fn gauge<W: Source>(
    number: u8,
    field: bool,
    shares: u8,
    mut areas: Areas<'_>,
    masks: &mut W,
) -> u8 {
    if number > 9 {
        return 7;
    }
    if !(1..=8).contains(&shares) {
        return 1;
    }
    let size = COLUMNS * usize::from(shares);
    if areas.out.len() != size || areas.x.len() != size || areas.y.len() != size {
        return 2;
    }
    let outcome = if field {
        run_shares::<512, SetI, W>(number, shares, &mut areas, masks)
    } else {
        run_shares::<4, SetS, W>(number, shares, &mut areas, masks)
    };
    if outcome.is_ok() { 0 } else { 22 }
}

pub fn gauge_tape(number: u8, field: bool, shares: u8, areas: Areas<'_>, words: &[u32]) -> u8 {
    gauge(number, field, shares, areas, &mut Tape::new(words))
}

pub fn gauge_generator(number: u8, field: bool, shares: u8, areas: Areas<'_>, count: u64) -> u8 {
    if count > 1 << 40 {
        return 11;
    }
    gauge(
        number,
        field,
        shares,
        areas,
        &mut Generator::new(&[0; 32], count),
    )
}
