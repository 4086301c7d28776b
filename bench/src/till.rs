//! The product, SHAKE256 and a till's check: what both sides answer, and how long they take.

use std::hint::black_box;
use std::time::Duration;

use crate::plain::keccak::shake256;
use crate::plain::scenario::bytes_of_hex;
use crate::plain::till::{self as plain, N, P, SIZE};
use crate::random::Random;
use crate::timing::{Times, in_turn};
use crate::{Failure, proved};

/// A card's public key, and records that it signed.
struct Card {
    key: Vec<u32>,
    records: Vec<Vec<u8>>,
}

fn read_card(path: &str) -> Result<Card, Failure> {
    let text = std::fs::read_to_string(path)?;
    let mut card = Card {
        key: Vec::new(),
        records: Vec::new(),
    };
    for line in text.lines() {
        match line.split_once(' ') {
            Some(("public", words)) => {
                card.key = words.split(' ').map(str::parse).collect::<Result<_, _>>()?;
            }
            Some(("record", hex)) => card.records.push(bytes_of_hex(hex)?),
            _ => return Err(format!("{path}: a line that is neither a key nor a record").into()),
        }
    }
    Ok(card)
}

fn polynomial(random: &mut Random) -> Vec<u32> {
    (0..N).map(|_| random.below(P as usize) as u32).collect()
}

fn same_product(len: usize, a: &[u32], b: &[u32]) -> u8 {
    let mut ours = vec![7; len];
    let mut theirs = vec![7; len];
    let status = proved::product(&mut ours, a, b);
    assert_eq!(
        status,
        plain::product(&mut theirs, a, b),
        "status of a product"
    );
    assert_eq!(ours, theirs, "a product");
    status
}

fn compare_products(random: &mut Random) -> usize {
    let mut refused = 0;
    for i in 0..200 {
        let (mut a, mut b) = (polynomial(random), polynomial(random));
        let mut len = N;
        match i % 10 {
            0 => a = vec![P - 1; N],
            1 => b = vec![P - 1; N],
            2 => a[random.below(N)] = P,
            3 => b[random.below(N)] = u32::MAX,
            4 => len = random.below(2 * N),
            5 => a.truncate(random.below(N)),
            6 => b.push(0),
            7 => b = (0..N).map(|_| [0, 1, P - 1][random.below(3)]).collect(),
            _ => {}
        }
        refused += usize::from(same_product(len, &a, &b));
    }
    refused
}

fn compare_hashes(random: &mut Random) {
    for len in 0..600 {
        let message = random.bytes(len);
        let out_len = random.below(400);
        let (mut ours, mut theirs) = (vec![0; out_len], vec![0; out_len]);
        proved::shake256(&message, &mut ours);
        shake256(&message, &mut theirs);
        assert_eq!(ours, theirs, "SHAKE256 of {len} bytes");
    }
}

fn same_check(key: &[u32], bytes: &[u8], last: Option<u16>) -> u8 {
    let answer = proved::check(key, bytes, last);
    assert_eq!(answer, plain::check(key, bytes, last), "check of a record");
    answer
}

/// Coefficients just within reach and just beyond it.
const EDGES: [i16; 5] = [16_352, 16_353, -16_352, -16_353, i16::MIN];

/// How often each number was answered.
fn compare_checks(random: &mut Random, card: &Card) -> [usize; 256] {
    let mut answers = [0; 256];
    let mut note = |answer: u8| answers[usize::from(answer)] += 1;
    for bytes in &card.records {
        let counter = u16::from_le_bytes([bytes[6], bytes[7]]);
        assert_eq!(same_check(&card.key, bytes, None), 0, "a card's record");
        for last in [None, Some(0), Some(counter - 1), Some(counter), Some(65535)] {
            note(same_check(&card.key, bytes, last));
        }
        for i in 0..300 {
            let mut damaged = bytes.clone();
            let mut key = card.key.clone();
            // each part of a record is damaged often enough
            let at = match i % 6 {
                0 => random.below(8),
                1 => 8 + random.below(32),
                2 => SIZE - 1 - random.below(N / 4),
                _ => random.below(SIZE),
            };
            damaged[at] ^= 1 << random.below(8);
            match i {
                0..3 => damaged.truncate(random.below(SIZE)),
                3..6 => damaged.extend(random.bytes(1 + i)),
                6..9 => key[random.below(2 * N)] = P,
                9..12 => key.truncate(random.below(2 * N)),
                12..15 => key[random.below(2 * N)] ^= 1,
                15..20 => {
                    damaged.copy_from_slice(bytes);
                    let at = 40 + 2 * random.below(2 * N);
                    damaged[at..at + 2].copy_from_slice(&EDGES[i - 15].to_le_bytes());
                }
                _ => {}
            }
            note(same_check(&key, &damaged, None));
        }
    }
    answers
}

fn show(subject: &str, unit: f64, times: &Times) {
    let micros = |seconds: f64| seconds * 1e6 / unit;
    println!(
        "{subject}: proved {:.2} / {:.2}, plain {:.2} / {:.2} (µs, best / median), ratio {:.2} / {:.2}",
        micros(times.ours.best),
        micros(times.ours.median),
        micros(times.plain.best),
        micros(times.plain.median),
        times.ratio(),
        times.median_ratio(),
    );
}

fn compare_times(subject: &str, unit: f64, ours: impl FnMut(), plain: impl FnMut()) {
    let times = in_turn(301, Duration::ZERO, ours, plain);
    show(subject, unit, &times);
}

pub fn compare(path: &str) -> Result<(), Failure> {
    let card = read_card(path)?;
    let random = &mut Random(0x9e37_79b9_7f4a_7c15);

    let refused = compare_products(random);
    println!("200 products alike, {refused} of them refused");
    compare_hashes(random);
    println!("600 hashes alike");
    let answers = compare_checks(random, &card);
    let counts: Vec<String> = answers
        .iter()
        .enumerate()
        .filter(|&(_, &count)| count > 0)
        .map(|(answer, count)| format!("{count} answer {answer}"))
        .collect();
    println!("checks alike: {}", counts.join(", "));

    let (a, b) = (polynomial(random), polynomial(random));
    let (mut x, mut y) = ([0u32; N], [0u32; N]);
    compare_times(
        "product, n = 512",
        1.0,
        || {
            black_box(proved::product(&mut x, black_box(&a), black_box(&b)));
        },
        || {
            black_box(plain::product(&mut y, black_box(&a), black_box(&b)));
        },
    );

    const KIB: usize = 64;
    let message = random.bytes(KIB * 1024);
    let (mut x, mut y) = ([0u8; 32], [0u8; 32]);
    compare_times(
        "SHAKE256, each KiB",
        KIB as f64,
        || proved::shake256(black_box(&message), black_box(&mut x)),
        || shake256(black_box(&message), black_box(&mut y)),
    );

    let bytes = &card.records[0];
    compare_times(
        "check of a record",
        1.0,
        || {
            black_box(proved::check(black_box(&card.key), black_box(bytes), None));
        },
        || {
            black_box(plain::check(black_box(&card.key), black_box(bytes), None));
        },
    );
    Ok(())
}
