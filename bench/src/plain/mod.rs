//! The same work by the same algorithms in plain Rust, written from the pages of docs/.

pub mod card;
pub mod columns;
pub mod gadgets;
pub mod keccak;
pub mod ring;
pub mod scenario;
pub mod shares;
pub mod source;
pub mod till;

/// A parameter set, whose polynomials have N coefficients.
pub trait Set<const N: usize> {
    const P: u32;
    const K: u32;
    const ALPHA: u32;
    const NUMBER: u8;

    /// How far from 0 a coefficient of a signature may lie.
    const REACH: u32 = Self::K - Self::ALPHA;
    /// What an accepted candidate is below.
    const LIMIT: u32 = 2 * Self::K + 1;
    /// How many low bits of a nonce word make a candidate.
    const BITS: u32 = u32::BITS - Self::LIMIT.leading_zeros();
    /// The bytes of a record.
    const SIZE: usize = 40 + 4 * N + N / 4;
    const KIND: u16 = 0x4700 + Self::NUMBER as u16;
}

/// The small set.
pub struct SetS;

impl Set<4> for SetS {
    const P: u32 = 97;
    const K: u32 = 10;
    const ALPHA: u32 = 2;
    const NUMBER: u8 = 0;
}

/// The set that cards in the field use.
pub struct SetI;

impl Set<512> for SetI {
    const P: u32 = 8_383_489;
    const K: u32 = 16_384;
    const ALPHA: u32 = 32;
    const NUMBER: u8 = 1;
}
