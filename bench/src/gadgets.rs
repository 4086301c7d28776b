//! Each gadget on 512 columns: what both sides make of them, and how long they take for one.

use std::hint::black_box;
use std::time::Duration;

use crate::plain::columns::{Areas, COLUMNS, gauge_generator, gauge_tape};
use crate::proved;
use crate::random::Random;
use crate::timing::{Times, in_turn};

/// A gadget as both sides number it, and its mask words on a column of m shares with g pairs.
struct Gadget {
    number: u8,
    name: &'static str,
    /// Whether it is another one in the other set.
    of_set: bool,
    words: fn(m: usize, g: usize) -> usize,
}

const fn gadget(
    number: u8,
    name: &'static str,
    of_set: bool,
    words: fn(usize, usize) -> usize,
) -> Gadget {
    Gadget {
        number,
        name,
        of_set,
        words,
    }
}

const GADGETS: [Gadget; 10] = [
    gadget(0, "refresh, words", false, |_, g| g),
    gadget(1, "refresh, residues", true, |_, g| 2 * g),
    gadget(2, "sec_and", false, |_, g| g),
    gadget(3, "sec_add", false, |_, g| 14 * g),
    gadget(4, "sec_add_modp", true, |_, g| 32 * g),
    gadget(5, "to_words", true, |m, g| 33 * m * g),
    gadget(6, "to_residues", true, |m, g| {
        2 * (m - 1) + 33 * (m + 1) * g
    }),
    gadget(7, "open, residues", true, |_, g| 2 * g),
    gadget(8, "candidate", true, |_, g| 17 * g),
    gadget(9, "check_coefficient", true, |m, g| (33 * m + 16) * g),
];

/// Where the masks come from.
#[derive(Clone, Copy, PartialEq)]
enum Masks {
    Generator,
    Tape,
}

/// What both sides are called with.
struct Call<'a> {
    gadget: &'a Gadget,
    field: bool,
    shares: u8,
    x: Vec<u32>,
    y: Vec<u32>,
    /// As many words as the call takes.
    tape: Vec<u32>,
}

impl Call<'_> {
    fn new<'a>(random: &mut Random, gadget: &'a Gadget, field: bool, shares: u8) -> Call<'a> {
        let m = usize::from(shares);
        Call {
            gadget,
            field,
            shares,
            x: random.words(COLUMNS * m),
            y: random.words(COLUMNS * m),
            tape: random.words(COLUMNS * (gadget.words)(m, m * (m - 1) / 2)),
        }
    }

    fn room(&self) -> Vec<u32> {
        vec![0; self.y.len()]
    }

    /// Ours, with so many masks.
    fn run_ours(&self, out: &mut [u32], masks: Masks, count: usize) -> u8 {
        let Call {
            gadget: Gadget { number, .. },
            field,
            shares,
            x,
            y,
            tape,
        } = self;
        match masks {
            Masks::Generator => {
                proved::gauge_generator(*number, *field, *shares, out, x, y, count as u64)
            }
            Masks::Tape => proved::gauge_tape(*number, *field, *shares, out, x, y, &tape[..count]),
        }
    }

    fn run_plain(&self, out: &mut [u32], masks: Masks, count: usize) -> u8 {
        let Call {
            gadget: Gadget { number, .. },
            field,
            shares,
            x,
            y,
            tape,
        } = self;
        let areas = Areas { out, x, y };
        match masks {
            Masks::Generator => gauge_generator(*number, *field, *shares, areas, count as u64),
            Masks::Tape => gauge_tape(*number, *field, *shares, areas, &tape[..count]),
        }
    }

    /// Both sides answer so, and leave the same shares.
    fn compare(&self, masks: Masks, count: usize, answer: u8) {
        let name = self.gadget.name;
        let (mut ours, mut plain) = (self.room(), self.room());
        assert_eq!(
            self.run_ours(&mut ours, masks, count),
            answer,
            "proved {name}"
        );
        assert_eq!(
            self.run_plain(&mut plain, masks, count),
            answer,
            "plain {name}"
        );
        assert_eq!(ours, plain, "shares of {name}");
    }

    /// With all masks, with one too few and with half of them.
    fn compare_all(&self) {
        let count = self.tape.len();
        for masks in [Masks::Generator, Masks::Tape] {
            self.compare(masks, count, 0);
            if count > 0 {
                self.compare(masks, count - 1, 22);
                self.compare(masks, count / 2, 22);
            }
        }
    }

    fn time(&self, masks: Masks) -> Times {
        let count = self.tape.len();
        let (mut ours, mut plain) = (self.room(), self.room());
        in_turn(
            3,
            Duration::from_millis(60),
            || assert_eq!(self.run_ours(black_box(&mut ours), masks, count), 0),
            || assert_eq!(self.run_plain(black_box(&mut plain), masks, count), 0),
        )
    }
}

/// What neither side takes.
fn compare_refusals(random: &mut Random) {
    let mut call = Call::new(random, &GADGETS[2], true, 2);
    call.shares = 0;
    call.compare(Masks::Tape, 1, 1);
    call.shares = 9;
    call.compare(Masks::Generator, 1, 1);
    call.shares = 3;
    call.compare(Masks::Tape, 1, 2);
    call.shares = 2;
    call.x.pop();
    call.compare(Masks::Tape, 1, 2);
}

/// Nanoseconds for one column, ours and plain, and the ratio of the best.
fn cell(times: &Times) -> String {
    let nanos = |seconds: f64| seconds * 1e9 / COLUMNS as f64;
    format!(
        "{:.0}/{:.0} {:.2}",
        nanos(times.ours.best),
        nanos(times.plain.best),
        times.ratio()
    )
}

fn row(random: &mut Random, gadget: &Gadget, field: bool, masks: Masks) -> Vec<f64> {
    let set = match (gadget.of_set, field) {
        (false, _) => "",
        (true, true) => ", set I",
        (true, false) => ", set S",
    };
    let source = match masks {
        Masks::Generator => "generator",
        Masks::Tape => "tape",
    };
    let mut cells = Vec::new();
    let mut ratios = Vec::new();
    for shares in 1..=8 {
        let call = Call::new(random, gadget, field, shares);
        if masks == Masks::Generator {
            call.compare_all();
        }
        let times = call.time(masks);
        cells.push(cell(&times));
        ratios.push(times.ratio());
    }
    println!("{}{set}, {source} | {}", gadget.name, cells.join(" | "));
    ratios
}

/// Compares and times each gadget at each share count; the answer is the largest ratio.
pub fn compare() {
    let random = &mut Random(0x2545_f491_4f6c_dd1d);
    compare_refusals(random);
    println!("gadgets, ns for one, proved/plain and ratio, at 1 to 8 shares:");
    let mut ratios = Vec::new();
    for gadget in &GADGETS {
        let sets: &[bool] = if gadget.of_set {
            &[true, false]
        } else {
            &[true]
        };
        for &field in sets {
            for masks in [Masks::Generator, Masks::Tape] {
                ratios.extend(row(random, gadget, field, masks));
            }
        }
    }
    ratios.sort_by(f64::total_cmp);
    let above = ratios.iter().filter(|&&ratio| ratio > 1.1).count();
    println!(
        "{} ratios: the middle one {:.2}, the largest {:.2}, {above} above 1.1",
        ratios.len(),
        ratios[ratios.len() / 2],
        ratios[ratios.len() - 1],
    );
}

/// The proved time of one candidate in set I, with masks from a generator.
pub fn candidate_seconds(shares: usize) -> f64 {
    let random = &mut Random(0x2545_f491_4f6c_dd1d);
    let call = Call::new(random, &GADGETS[8], true, shares as u8);
    call.time(Masks::Generator).ours.best / COLUMNS as f64
}
