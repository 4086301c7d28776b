//! Masked arithmetic on shared words and residues.

use super::Set;
use super::ring::reduce_once;
use super::shares::{Shares, draw_masks, negated, open_word, refresh_words, sec_and};
use super::source::{Mark, Source};

fn xor<const M: usize>(x: Shares<M>, y: Shares<M>) -> Shares<M> {
    std::array::from_fn(|i| x[i] ^ y[i])
}

/// A word that is no secret: itself and zeros.
pub fn public<const M: usize>(x: u32) -> Shares<M> {
    let mut shares = [0; M];
    shares[0] = x;
    shares
}

/// Shares of x + y, by a Kogge-Stone adder.
pub fn sec_add<const M: usize, W: Source>(
    x: Shares<M>,
    y: Shares<M>,
    masks: &mut W,
) -> Result<Shares<M>, Mark> {
    let sum = xor(x, y);
    let mut propagated = sum;
    let mut generated = sec_and(x, y, masks)?;
    for places in [1, 2, 4, 8] {
        let carried = sec_and(generated.map(|share| share << places), propagated, masks)?;
        let moved = refresh_words(propagated.map(|share| share << places), masks)?;
        propagated = sec_and(propagated, moved, masks)?;
        generated = xor(generated, carried);
    }
    let carried = sec_and(generated.map(|share| share << 16), propagated, masks)?;
    Ok(xor(sum, xor(generated, carried).map(|share| share << 1)))
}

/// Shares of the bit that tells whether x is below the limit.
pub fn sec_below<const M: usize, W: Source>(
    x: Shares<M>,
    limit: u32,
    masks: &mut W,
) -> Result<Shares<M>, Mark> {
    let minus = refresh_words(public(limit.wrapping_neg()), masks)?;
    Ok(sec_add(x, minus, masks)?.map(|share| share >> 31))
}

/// Shares of x + y modulo p, both below p.
pub fn sec_add_modp<const M: usize, const N: usize, S: Set<N>, W: Source>(
    x: Shares<M>,
    y: Shares<M>,
    masks: &mut W,
) -> Result<Shares<M>, Mark> {
    let sum = sec_add(x, y, masks)?;
    let less = sec_add(sum, public(S::P.wrapping_neg()), masks)?;
    let negative = less.map(|share| (share >> 31).wrapping_neg());
    let keep = refresh_words(negative, masks)?;
    let kept = sec_and(sum, keep, masks)?;
    let mut drop = refresh_words(negative, masks)?;
    drop[0] = !drop[0];
    let reduced = sec_and(less, drop, masks)?;
    Ok(xor(kept, reduced))
}

/// Word shares of a residue.
pub fn to_words<const M: usize, const N: usize, S: Set<N>, W: Source>(
    x: Shares<M>,
    masks: &mut W,
) -> Result<Shares<M>, Mark> {
    let mut sum = [0; M];
    for share in x {
        let part = refresh_words(public(share), masks)?;
        sum = sec_add_modp::<M, N, S, W>(sum, part, masks)?;
    }
    Ok(sum)
}

/// Residue shares of a word below p.
pub fn to_residues<const M: usize, const N: usize, S: Set<N>, W: Source>(
    x: Shares<M>,
    masks: &mut W,
) -> Result<Shares<M>, Mark> {
    let mut shares = draw_masks::<M, N, S, W>(masks)?;
    let less = to_words::<M, N, S, W>(shares.map(negated::<N, S>), masks)?;
    let rest = sec_add_modp::<M, N, S, W>(less, x, masks)?;
    shares[0] = open_word(rest, masks)?;
    Ok(shares)
}

/// A candidate in shares, made of nonce words: none where it is not below the limit.
pub fn judge<const M: usize, const N: usize, S: Set<N>, W: Source>(
    words: Shares<M>,
    masks: &mut W,
) -> Result<Option<Shares<M>>, Mark> {
    let low = (1 << S::BITS) - 1;
    let x = refresh_words(words.map(|word| word & low), masks)?;
    let below = sec_below(x, S::LIMIT, masks)?;
    Ok((open_word(below, masks)? == 1).then_some(x))
}

/// Shares of the pass bit, cleared unless z lies within reach of 0.
pub fn check_coefficient<const M: usize, const N: usize, S: Set<N>, W: Source>(
    mut z: Shares<M>,
    pass: Shares<M>,
    masks: &mut W,
) -> Result<Shares<M>, Mark> {
    z[0] = reduce_once::<N, S>(z[0] + S::REACH);
    let word = to_words::<M, N, S, W>(z, masks)?;
    let inside = sec_below(word, 2 * S::REACH + 1, masks)?;
    sec_and(inside, pass, masks)
}
