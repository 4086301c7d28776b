//! Values in M shares: words under exclusive or, and residues under addition.

use super::Set;
use super::ring::reduce_once;
use super::source::{Mark, Source};

pub type Shares<const M: usize> = [u32; M];

/// The inverse of a residue.
pub fn negated<const N: usize, S: Set<N>>(x: u32) -> u32 {
    if x == 0 { 0 } else { S::P - x }
}

/// A residue made of the next two words.
pub fn residue_mask<const N: usize, S: Set<N>, W: Source>(masks: &mut W) -> Result<u32, Mark> {
    let high = u64::from(masks.draw()?);
    let low = u64::from(masks.draw()?);
    Ok(((high << 32 | low) % u64::from(S::P)) as u32)
}

/// A mask to each pair of shares.
pub fn refresh_words<const M: usize, W: Source>(
    mut x: Shares<M>,
    masks: &mut W,
) -> Result<Shares<M>, Mark> {
    for i in 0..M {
        for j in i + 1..M {
            let mask = masks.draw()?;
            x[i] ^= mask;
            x[j] ^= mask;
        }
    }
    Ok(x)
}

/// The same with residues, in place: what is done when the masks end, stays.
pub fn refresh_residues<const M: usize, const N: usize, S: Set<N>, W: Source>(
    x: &mut Shares<M>,
    masks: &mut W,
) -> Result<(), Mark> {
    for i in 0..M {
        for j in i + 1..M {
            let mask = residue_mask::<N, S, W>(masks)?;
            x[i] = reduce_once::<N, S>(x[i] + mask);
            x[j] = reduce_once::<N, S>(x[j] + negated::<N, S>(mask));
        }
    }
    Ok(())
}

/// The unit, and then a residue mask for each other share.
pub fn draw_masks<const M: usize, const N: usize, S: Set<N>, W: Source>(
    masks: &mut W,
) -> Result<Shares<M>, Mark> {
    let mut x = [0; M];
    for share in &mut x[1..] {
        *share = residue_mask::<N, S, W>(masks)?;
    }
    Ok(x)
}

pub fn word_of<const M: usize>(x: &Shares<M>) -> u32 {
    x.iter().fold(0, |word, share| word ^ share)
}

pub fn residue_of<const M: usize, const N: usize, S: Set<N>>(x: &Shares<M>) -> u32 {
    x.iter()
        .fold(0, |sum, share| reduce_once::<N, S>(sum + share))
}

pub fn open_word<const M: usize, W: Source>(x: Shares<M>, masks: &mut W) -> Result<u32, Mark> {
    Ok(word_of(&refresh_words(x, masks)?))
}

pub fn open_residue<const M: usize, const N: usize, S: Set<N>, W: Source>(
    mut x: Shares<M>,
    masks: &mut W,
) -> Result<u32, Mark> {
    refresh_residues::<M, N, S, W>(&mut x, masks)?;
    Ok(residue_of::<M, N, S>(&x))
}

/// Shares of x & y.
pub fn sec_and<const M: usize, W: Source>(
    x: Shares<M>,
    y: Shares<M>,
    masks: &mut W,
) -> Result<Shares<M>, Mark> {
    let mut z: Shares<M> = std::array::from_fn(|i| x[i] & y[i]);
    for i in 0..M {
        for j in i + 1..M {
            let mask = masks.draw()?;
            z[i] ^= mask;
            z[j] ^= (mask ^ (x[i] & y[j])) ^ (x[j] & y[i]);
        }
    }
    Ok(z)
}
