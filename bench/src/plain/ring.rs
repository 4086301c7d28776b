//! Polynomials of N residues modulo P, with xᴺ = −1, and the hash that gives a challenge.

use super::Set;
use super::keccak::Sponge;

/// A sum below 2p, reduced.
pub fn reduce_once<const N: usize, S: Set<N>>(sum: u32) -> u32 {
    if sum < S::P { sum } else { sum - S::P }
}

/// The residue of an integer that is nearer to 0 than p.
pub fn residue<const N: usize, S: Set<N>>(v: i32) -> u32 {
    if v < 0 {
        (v + S::P as i32) as u32
    } else {
        v as u32
    }
}

/// The integer nearest 0 that a residue stands for.
pub fn centred<const N: usize, S: Set<N>>(v: u32) -> i32 {
    if v <= (S::P - 1) / 2 {
        v as i32
    } else {
        v as i32 - S::P as i32
    }
}

/// The long product. With b's coefficients from the highest down, and those of −b behind them, coefficient j is the sum of a's products with
/// the N words from place N − 1 − j on: one remainder a coefficient.
pub fn multiply<const N: usize, S: Set<N>>(out: &mut [u32; N], a: &[u32; N], b: &[u32; N]) {
    let mut turned = [*b, b.map(|x| if x == 0 { 0 } else { S::P - x })];
    turned.iter_mut().for_each(|half| half.reverse());
    let turned = turned.as_flattened();
    for (j, x) in out.iter_mut().enumerate() {
        let sum: u64 = a
            .iter()
            .zip(&turned[N - 1 - j..2 * N - 1 - j])
            .map(|(&k, &met)| u64::from(k) * u64::from(met))
            .sum();
        *x = (sum % u64::from(S::P)) as u32;
    }
}

/// a·b + c.
pub fn multiply_add<const N: usize, S: Set<N>>(
    out: &mut [u32; N],
    a: &[u32; N],
    b: &[u32; N],
    c: &[u32; N],
) {
    multiply::<N, S>(out, a, b);
    for (x, &plus) in out.iter_mut().zip(c) {
        *x = reduce_once::<N, S>(*x + plus);
    }
}

/// The challenge for a commitment r, a digest and a counter.
pub fn challenge<const N: usize, S: Set<N>>(r: &[u32; N], digest: &[u8], counter: u16) -> [u32; N] {
    let mut sponge = Sponge::new();
    for x in r {
        sponge.absorb(&x.to_le_bytes());
    }
    sponge.absorb(digest);
    sponge.absorb(&counter.to_le_bytes());
    sponge.finish();
    let mut c = [0; N];
    let mut wanted = S::ALPHA;
    for _ in 0..512 {
        if wanted == 0 {
            break;
        }
        let word = sponge.next_u16();
        let place = usize::from(word) % N;
        if c[place] == 0 {
            c[place] = if word >= 0x8000 { S::P - 1 } else { 1 };
            wanted -= 1;
        }
    }
    c
}
