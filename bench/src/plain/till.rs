//! A till's check of a record of set I, and a product with the tests of its areas.

use super::ring::{challenge, multiply, reduce_once, residue};
use super::{Set, SetI};

pub const N: usize = 512;
pub const P: u32 = SetI::P;
pub const SIZE: usize = SetI::SIZE;

/// The words as a polynomial, if they are the coefficients of one.
fn polynomial(words: &[u32]) -> Option<&[u32; N]> {
    let words: &[u32; N] = words.try_into().ok()?;
    words.iter().all(|&w| w < P).then_some(words)
}

pub fn product(out: &mut [u32], a: &[u32], b: &[u32]) -> u8 {
    let (Some(a), Some(b), Ok(out)) = (polynomial(a), polynomial(b), out.try_into()) else {
        return 1;
    };
    multiply::<N, SetI>(out, a, b);
    0
}

/// All tests of a till in their order: 0 where the record is accepted, else the refusal's number.
pub fn check(key: &[u32], bytes: &[u8], last: Option<u16>) -> u8 {
    let Some((a, t)) = key.split_first_chunk::<N>() else {
        return 2;
    };
    let Ok(t) = <&[u32; N]>::try_from(t) else {
        return 2;
    };
    if key.iter().any(|&w| w >= P) {
        return 3;
    }
    if bytes.len() != SIZE || bytes[..4] != (SIZE as u32 - 4).to_le_bytes() {
        return 6;
    }
    if bytes[4..6] != SetI::KIND.to_le_bytes() {
        return 7;
    }
    let counter = u16::from_le_bytes([bytes[6], bytes[7]]);
    let digest = &bytes[8..40];
    let (z_bytes, c_bytes) = bytes[40..].split_at(4 * N);
    let integer = |pair: &[u8]| i16::from_le_bytes([pair[0], pair[1]]);
    if z_bytes
        .chunks_exact(2)
        .any(|pair| u32::from(integer(pair).unsigned_abs()) > SetI::REACH)
    {
        return 8;
    }
    let code = |i: usize| c_bytes[i / 4] >> (2 * (i % 4)) & 3;
    if (0..N).any(|i| code(i) == 2) {
        return 9;
    }

    let mut z = [[0u32; N]; 2];
    for (x, pair) in z.as_flattened_mut().iter_mut().zip(z_bytes.chunks_exact(2)) {
        *x = residue::<N, SetI>(i32::from(integer(pair)));
    }
    let mut c = [0u32; N];
    for (i, x) in c.iter_mut().enumerate() {
        *x = if code(i) == 3 {
            P - 1
        } else {
            u32::from(code(i))
        };
    }
    let mut tc = [0u32; N];
    let mut r = [0u32; N];
    multiply::<N, SetI>(&mut tc, t, &c);
    multiply::<N, SetI>(&mut r, a, &z[0]);
    for ((x, &plus), &minus) in r.iter_mut().zip(&z[1]).zip(&tc) {
        *x = reduce_once::<N, SetI>(reduce_once::<N, SetI>(*x + plus) + (P - minus));
    }
    if challenge::<N, SetI>(&r, digest, counter) != c {
        return 10;
    }
    if last.is_some_and(|last| counter <= last) {
        return 24;
    }
    0
}
