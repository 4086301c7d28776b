//! A card: its key in shares, and its counter.

use super::Set;
use super::gadgets::{check_coefficient, judge, public, to_residues};
use super::ring::{centred, challenge, multiply_add, reduce_once, residue};
use super::shares::{
    Shares, draw_masks, negated, open_residue, open_word, refresh_residues, residue_of,
};
use super::source::{Mark, Metered, Source};

/// What a signing took.
#[derive(Clone, Copy)]
pub struct Counts {
    pub attempts: u32,
    pub candidates: u64,
    pub nonces: u64,
    pub masks: u64,
}

/// A step of an attempt that draws words; the first two are of a coefficient of y1 and y2.
#[derive(Clone, Copy)]
pub enum Step {
    Candidate(usize, usize),
    Conversion(usize, usize),
    Commit,
    Check,
    Open,
}

/// Why a signing gave no record.
#[derive(Clone, Copy)]
pub enum Failure {
    NoncesEnded(Mark, Step),
    MasksEnded(Mark, Step),
    TriesFailed,
}

/// Why a call was refused.
#[derive(Clone, Copy)]
pub enum Refusal {
    AreaSize,
    NotResidue(&'static str, usize),
    Tries,
    CounterEnd,
    MasksEnded(Mark),
    Failed(Failure, Counts),
}

/// The areas that a signing is lent.
pub struct Areas<'a> {
    pub key: &'a [u32],
    pub public: &'a [u32],
    pub work: &'a mut [u32],
    pub record: &'a mut [u8],
}

/// A loaded card. Its share count is told at each call, by its type.
pub struct Card {
    pub counter: u16,
}

/// The shares of coefficient c, a row for each share.
fn column<const M: usize, const N: usize>(rows: &[[u32; N]], c: usize) -> Shares<M> {
    std::array::from_fn(|i| rows[i][c])
}

fn set_column<const M: usize, const N: usize>(rows: &mut [[u32; N]], c: usize, x: Shares<M>) {
    for (row, share) in rows.iter_mut().zip(x) {
        row[c] = share;
    }
}

/// The area in rows of N words.
fn rows<const N: usize>(area: &[u32]) -> &[[u32; N]] {
    area.as_chunks().0
}

fn rows_mut<const N: usize>(area: &mut [u32]) -> &mut [[u32; N]] {
    area.as_chunks_mut().0
}

fn check_residues<const N: usize, S: Set<N>>(
    area: &'static str,
    words: &[u32],
) -> Result<(), Refusal> {
    match words.iter().position(|&word| word >= S::P) {
        Some(index) => Err(Refusal::NotResidue(area, index)),
        None => Ok(()),
    }
}

/// Puts the secret into the key area, in shares, and t behind a; tells how many masks were drawn.
pub fn load<const M: usize, const N: usize, S: Set<N>, W: Source>(
    secret: &[i8],
    public: &mut [u32],
    key: &mut [u32],
    masks: &mut W,
) -> Result<(Card, u64), Refusal> {
    if secret.len() != 2 * N || public.len() != 2 * N || key.len() != 2 * M * N {
        return Err(Refusal::AreaSize);
    }
    check_residues::<N, S>("public", &public[..N])?;
    let mut values = [[0; N]; 2];
    for (value, &coefficient) in values.as_flattened_mut().iter_mut().zip(secret) {
        *value = residue::<N, S>(i32::from(coefficient));
    }
    let mut masks = Metered::new(masks);
    for (rows, values) in rows_mut::<N>(key).chunks_exact_mut(M).zip(&values) {
        for (c, &value) in values.iter().enumerate() {
            let mut shares = draw_masks::<M, N, S, _>(&mut masks).map_err(Refusal::MasksEnded)?;
            let sum = residue_of::<M, N, S>(&shares);
            shares[0] = reduce_once::<N, S>(value + negated::<N, S>(sum));
            set_column(rows, c, shares);
        }
    }
    let (a, t) = public.split_at_mut(N);
    multiply_add::<N, S>(&mut rows_mut(t)[0], &rows(a)[0], &values[0], &values[1]);
    Ok((Card { counter: 0 }, masks.count))
}

/// Residue shares of a coefficient from −k to k, from the first candidate that is accepted.
fn draw_coefficient<const M: usize, const N: usize, S: Set<N>, D: Source, W: Source>(
    polynomial: usize,
    c: usize,
    nonces: &mut D,
    masks: &mut W,
) -> Result<Shares<M>, Failure> {
    let step = Step::Candidate(polynomial, c);
    let accepted = loop {
        let mut words = [0; M];
        for word in &mut words {
            *word = nonces
                .draw()
                .map_err(|mark| Failure::NoncesEnded(mark, step))?;
        }
        let candidate = judge::<M, N, S, W>(words, masks);
        if let Some(x) = candidate.map_err(|mark| Failure::MasksEnded(mark, step))? {
            break x;
        }
    };
    let mut shares = to_residues::<M, N, S, W>(accepted, masks)
        .map_err(|mark| Failure::MasksEnded(mark, Step::Conversion(polynomial, c)))?;
    shares[0] = reduce_once::<N, S>(shares[0] + (S::P - S::K));
    Ok(shares)
}

/// The coefficients of y1 and y2, in shares.
fn draw_nonces<const M: usize, const N: usize, S: Set<N>, D: Source, W: Source>(
    y: &mut [[u32; N]],
    nonces: &mut D,
    masks: &mut W,
) -> Result<(), Failure> {
    for (polynomial, rows) in y.chunks_exact_mut(M).enumerate() {
        for c in 0..N {
            let shares = draw_coefficient::<M, N, S, D, W>(polynomial, c, nonces, masks)?;
            set_column(rows, c, shares);
        }
    }
    Ok(())
}

/// Opens a·y1 + y2, with room for its shares.
fn commit<const M: usize, const N: usize, S: Set<N>, W: Source>(
    opened: &mut [u32; N],
    room: &mut [[u32; N]],
    a: &[u32; N],
    y: &[[u32; N]],
    masks: &mut W,
) -> Result<(), Mark> {
    for (i, row) in room.iter_mut().enumerate() {
        multiply_add::<N, S>(row, a, &y[i], &y[M + i]);
    }
    for (c, value) in opened.iter_mut().enumerate() {
        *value = open_residue::<M, N, S, W>(column(room, c), masks)?;
    }
    Ok(())
}

/// Whether each coefficient lies within reach of 0.
fn check<const M: usize, const N: usize, S: Set<N>, W: Source>(
    z: &[[u32; N]],
    masks: &mut W,
) -> Result<bool, Mark> {
    let mut pass = public(1);
    for rows in z.chunks_exact(M) {
        for c in 0..N {
            pass = check_coefficient::<M, N, S, W>(column(rows, c), pass, masks)?;
        }
    }
    Ok(open_word(pass, masks)? == 1)
}

/// The record, with z opened into it.
fn open_response<const M: usize, const N: usize, S: Set<N>, W: Source>(
    bytes: &mut [u8],
    z: &[[u32; N]],
    masks: &mut W,
) -> Result<(), Mark> {
    for (rows, bytes) in z.chunks_exact(M).zip(bytes.chunks_exact_mut(2 * N)) {
        for (c, pair) in bytes.chunks_exact_mut(2).enumerate() {
            let value = open_residue::<M, N, S, W>(column(rows, c), masks)?;
            let integer = centred::<N, S>(value) as i16;
            pair.copy_from_slice(&integer.to_le_bytes());
        }
    }
    Ok(())
}

/// Length, kind, counter, digest, z and the challenge.
fn write_record<const N: usize, S: Set<N>>(
    record: &mut [u8],
    counter: u16,
    digest: &[u8; 32],
    z: &[u8],
    c: &[u32; N],
) {
    record[..4].copy_from_slice(&(S::SIZE as u32 - 4).to_le_bytes());
    record[4..6].copy_from_slice(&S::KIND.to_le_bytes());
    record[6..8].copy_from_slice(&counter.to_le_bytes());
    record[8..40].copy_from_slice(digest);
    let (z_bytes, c_bytes) = record[40..].split_at_mut(4 * N);
    z_bytes.copy_from_slice(z);
    let code = |x: u32| if x < 2 { x as u8 } else { 3 };
    for (byte, x) in c_bytes.iter_mut().zip(c.chunks_exact(4)) {
        *byte = code(x[0]) | code(x[1]) << 2 | code(x[2]) << 4 | code(x[3]) << 6;
    }
}

/// One attempt: whether it gave a record.
fn attempt<const M: usize, const N: usize, S: Set<N>, D: Source, W: Source>(
    areas: &mut Areas<'_>,
    digest: &[u8; 32],
    counter: u16,
    nonces: &mut D,
    masks: &mut W,
) -> Result<bool, Failure> {
    let ended = |step| move |mark| Failure::MasksEnded(mark, step);
    let key = rows::<N>(areas.key);
    let a = &rows::<N>(areas.public)[0];
    let (y, rest) = rows_mut::<N>(areas.work).split_at_mut(2 * M);
    let (z, rest) = rest.split_at_mut(2 * M);
    let (room, rest) = rest.split_at_mut(M);
    let opened = &mut rest[0];
    draw_nonces::<M, N, S, D, W>(y, nonces, masks)?;
    commit::<M, N, S, W>(opened, room, a, y, masks).map_err(ended(Step::Commit))?;
    let c = challenge::<N, S>(opened, digest, counter);
    for ((z, s), y) in z.iter_mut().zip(key).zip(&*y) {
        multiply_add::<N, S>(z, s, &c, y);
    }
    if !check::<M, N, S, W>(z, masks).map_err(ended(Step::Check))? {
        return Ok(false);
    }
    let mut room = [0; 4096];
    let bytes = &mut room[..4 * N];
    open_response::<M, N, S, W>(bytes, z, masks).map_err(ended(Step::Open))?;
    write_record::<N, S>(areas.record, counter, digest, bytes, &c);
    Ok(true)
}

/// Attempts until one passes, and how many were begun.
fn attempts<const M: usize, const N: usize, S: Set<N>, D: Source, W: Source>(
    areas: &mut Areas<'_>,
    digest: &[u8; 32],
    tries: u32,
    counter: u16,
    nonces: &mut D,
    masks: &mut W,
) -> (Result<(), Failure>, u32) {
    for number in 1..=tries {
        match attempt::<M, N, S, D, W>(areas, digest, counter, nonces, masks) {
            Ok(true) => return (Ok(()), number),
            Ok(false) => {}
            Err(failure) => return (Err(failure), number),
        }
    }
    (Err(Failure::TriesFailed), tries)
}

impl Card {
    /// Signs, and writes the record into the area lent for it.
    pub fn sign<const M: usize, const N: usize, S: Set<N>, D: Source, W: Source>(
        &mut self,
        digest: &[u8; 32],
        tries: u32,
        mut areas: Areas<'_>,
        nonces: &mut D,
        masks: &mut W,
    ) -> Result<Counts, Refusal> {
        if areas.public.len() != 2 * N
            || areas.key.len() != 2 * M * N
            || areas.work.len() != 6 * M * N
            || areas.record.len() != S::SIZE
        {
            return Err(Refusal::AreaSize);
        }
        check_residues::<N, S>("public", areas.public)?;
        check_residues::<N, S>("key", areas.key)?;
        if !(1..=255).contains(&tries) {
            return Err(Refusal::Tries);
        }
        let counter = self.counter.checked_add(1).ok_or(Refusal::CounterEnd)?;
        let mut nonces = Metered::new(nonces);
        let mut masks = Metered::new(masks);
        let (ending, attempts) =
            attempts::<M, N, S, _, _>(&mut areas, digest, tries, counter, &mut nonces, &mut masks);
        areas.work.fill(0);
        let counts = Counts {
            attempts,
            candidates: nonces.count / M as u64,
            nonces: nonces.count,
            masks: masks.count,
        };
        ending.map_err(|failure| Refusal::Failed(failure, counts))?;
        self.counter = counter;
        Ok(counts)
    }

    /// Puts the key into other shares, and tells how many masks were drawn.
    pub fn remask<const M: usize, const N: usize, S: Set<N>, W: Source>(
        &self,
        key: &mut [u32],
        masks: &mut W,
    ) -> Result<u64, Refusal> {
        if key.len() != 2 * M * N {
            return Err(Refusal::AreaSize);
        }
        check_residues::<N, S>("key", key)?;
        let mut masks = Metered::new(masks);
        for rows in rows_mut::<N>(key).chunks_exact_mut(M) {
            for c in 0..N {
                let mut shares = column(rows, c);
                let outcome = refresh_residues::<M, N, S, _>(&mut shares, &mut masks);
                set_column(rows, c, shares);
                outcome.map_err(Refusal::MasksEnded)?;
            }
        }
        Ok(masks.count)
    }
}
