//! A card's load, sign and remask, by both programs that read scenarios: what they print, and how long they take.

use crate::plain::card::{Areas, load};
use crate::plain::source::{Feed, Generator, Source, Tape};
use crate::plain::{Set, SetI, SetS};
use crate::programs::Programs;
use crate::random::Random;
use crate::timing::{Side, Times};
use crate::{Failure, gadgets};

/// The numbers of a set that lines and counts need.
#[derive(Clone, Copy)]
struct Ring {
    name: &'static str,
    n: usize,
    p: u32,
    /// Of so many candidates one is accepted.
    candidates: f64,
}

const fn ring<const N: usize, S: Set<N>>(name: &'static str) -> Ring {
    Ring {
        name,
        n: N,
        p: S::P,
        candidates: (1 << S::BITS) as f64 / S::LIMIT as f64,
    }
}

const RING_I: Ring = ring::<512, SetI>("I");
const RING_S: Ring = ring::<4, SetS>("S");

/// A card before it is loaded.
struct Setup {
    ring: Ring,
    shares: usize,
    a: Vec<u32>,
    secret: Vec<i8>,
}

fn joined<T: ToString>(words: impl IntoIterator<Item = T>) -> String {
    let words: Vec<String> = words.into_iter().map(|word| word.to_string()).collect();
    words.join(" ")
}

/// 32 bytes that are all the same, in hexadecimal.
fn bytes(byte: u8) -> String {
    format!("{byte:02x}").repeat(32)
}

fn generator(byte: u8, count: usize) -> String {
    format!("generator {} {count}", bytes(byte))
}

const PLENTY: usize = 1 << 40;
const DIGEST: u8 = 0x5a;

/// A signing of one try.
fn one_try() -> String {
    format!("sign {} 1", bytes(DIGEST))
}

impl Setup {
    fn new(ring: Ring, shares: usize) -> Setup {
        let mut random = Random(0x1234_5678_9abc_def1);
        Setup {
            ring,
            shares,
            a: (0..ring.n)
                .map(|_| random.below(ring.p as usize) as u32)
                .collect(),
            secret: (0..2 * ring.n).map(|_| random.below(3) as i8 - 1).collect(),
        }
    }

    /// The lines that set it up, with sources that do not end.
    fn head(&self, masks: &str) -> String {
        format!(
            "set {}\nshares {}\na {}\nsecret {}\nnonces {}\nmasks {masks}\n",
            self.ring.name,
            self.shares,
            joined(&self.a),
            joined(&self.secret),
            generator(1, PLENTY),
        )
    }

    fn pairs(&self) -> usize {
        self.shares * (self.shares - 1) / 2
    }

    /// The mask words that an attempt has taken after its steps 2, 3, 5 and 6, where it tries so many candidates.
    fn words_after(&self, candidates: usize) -> [usize; 4] {
        let (n, m, g) = (self.ring.n, self.shares, self.pairs());
        let drawn = candidates * 17 * g + 2 * n * (2 * (m - 1) + 33 * (m + 1) * g);
        let committed = drawn + 2 * g * n;
        let checked = committed + 2 * n * (33 * m + 16) * g + g;
        [drawn, committed, checked, checked + 4 * g * n]
    }

    /// Whether the first attempt passes with the nonces of a generator. One share tells it too: it has the same nonces where its words are the
    /// exclusive or of these.
    fn passes(&self, seed: u8) -> bool {
        let mut generator = Generator::new(&[seed; 32], PLENTY as u64);
        let mut nonce =
            || (0..self.shares).fold(0, |word, _| word ^ generator.draw().unwrap_or_default());
        let words: Vec<u32> = (0..8 * RING_I.n).map(|_| nonce()).collect();
        let mut nonces = Feed::Tape(Tape::new(words));
        let mut masks = Feed::Tape(Tape::new(Vec::new()));
        let mut public = [self.a.clone(), vec![0; RING_I.n]].concat();
        let mut key = vec![0; 2 * RING_I.n];
        let Ok((mut card, _)) =
            load::<1, 512, SetI, Feed>(&self.secret, &mut public, &mut key, &mut masks)
        else {
            return false;
        };
        let areas = Areas {
            key: &key,
            public: &public,
            work: &mut vec![0; 6 * RING_I.n],
            record: &mut vec![0; SetI::SIZE],
        };
        let digest = [DIGEST; 32];
        card.sign::<1, 512, SetI, Feed, Feed>(&digest, 1, areas, &mut nonces, &mut masks)
            .is_ok()
    }

    fn passing_seed(&self) -> Result<u8, Failure> {
        let seed = (0..=255).find(|&seed| self.passes(seed));
        Ok(seed.ok_or("no seed whose first attempt passes")?)
    }

    /// Lines that try all that a card does, and each way in which its sources can end.
    fn comparison(&self) -> Result<String, Failure> {
        let mut lines = self.head(&generator(2, PLENTY));
        let mut add = |line: &str| lines.extend([line, "\n"]);
        for line in ["load", "show public", "show key", "remask", "show key"] {
            add(line);
        }
        let tries = if self.ring.n == RING_I.n {
            add(&format!(
                "nonces {}",
                generator(self.passing_seed()?, PLENTY)
            ));
            1
        } else {
            255
        };
        for digest in [DIGEST, 0, 0xff] {
            add(&format!("sign {} {tries}", bytes(digest)));
        }
        for count in [0, 1, 5, 100, 1000, 10_000] {
            let few = generator(3, count);
            let plenty = generator(4, PLENTY);
            for call in [&format!("sign {} 2", bytes(7)), "remask", "load"] {
                add(&format!("masks {few}\n{call}"));
            }
            add(&format!("masks {plenty}\nload"));
            add(&format!("nonces {few}\nsign {} 2", bytes(8)));
            add(&format!("nonces {plenty}"));
        }
        add(&format!("masks tape {}", joined(1..2000)));
        add("load\nremask");
        add(&one_try());
        add("masks tape 5 5 5 5 5 5 5\nmasks health 4\nremask");
        add(&format!("masks {}\nload", generator(5, PLENTY)));
        add("repeat 3 remask");
        add(&format!("repeat 2 {}", one_try()));
        add("report\nshow key");
        Ok(lines)
    }
}

/// Both programs print the same for each set and share count.
fn compare_all(programs: &Programs) -> Result<(), Failure> {
    let (mut records, mut refused) = (0, 0);
    for ring in [RING_S, RING_I] {
        for shares in 1..=8 {
            let lines = Setup::new(ring, shares).comparison()?;
            let printed = programs.compare("scenario", &lines)?;
            records += printed.matches("sign ok").count();
            refused += printed.matches(" refused ").count();
        }
    }
    println!("16 scenarios alike, with {records} records and {refused} refusals");
    Ok(())
}

#[derive(Clone, Copy)]
enum Call {
    Load,
    Sign,
    Remask,
}

#[derive(Clone, Copy, PartialEq)]
enum Masks {
    Generator,
    Tape,
}

impl Call {
    fn name(self) -> &'static str {
        match self {
            Call::Load => "load",
            Call::Sign => "sign, one try",
            Call::Remask => "remask",
        }
    }

    fn line(self) -> String {
        match self {
            Call::Load => "load".to_string(),
            Call::Sign => one_try(),
            Call::Remask => "remask".to_string(),
        }
    }

    /// About how many mask words it takes.
    fn words(self, setup: &Setup) -> usize {
        let (n, m) = (setup.ring.n, setup.shares);
        match self {
            Call::Load => 4 * n * (m - 1),
            Call::Sign => {
                let candidates = 2.0 * n as f64 * setup.ring.candidates;
                setup.words_after(candidates as usize)[3]
            }
            Call::Remask => 4 * setup.pairs() * n,
        }
    }

    /// About how long it takes, in seconds.
    fn seconds(self, setup: &Setup, masks: Masks) -> f64 {
        let (n, m) = (setup.ring.n as f64, setup.shares as f64);
        let products = match self {
            Call::Load => 1.0,
            Call::Sign => 3.0 * m,
            Call::Remask => 0.0,
        };
        let word = match masks {
            Masks::Generator => 20e-9,
            Masks::Tape => 2e-9,
        };
        1e-7 + 2e-9 * m * n + products * n * n * 0.6e-9 + self.words(setup) as f64 * word
    }
}

/// How often a line is repeated for one measurement of so many seconds.
fn repetitions(lasting: f64, seconds: f64) -> usize {
    (lasting / seconds).ceil().max(1.0) as usize
}

/// The time of what the first scenario has more than the second, for each of so many repetitions.
fn difference(
    programs: &Programs,
    [full, base]: [&str; 2],
    count: usize,
    rounds: usize,
) -> Result<Times, Failure> {
    programs.compare("full", full)?;
    programs.keep("base", base)?;
    let mut times: [Vec<f64>; 4] = Default::default();
    for _ in 0..rounds {
        times[0].push(programs.run_proved("full")?.seconds);
        times[1].push(programs.run_plain("full")?.seconds);
        times[2].push(programs.run_proved("base")?.seconds);
        times[3].push(programs.run_plain("base")?.seconds);
    }
    let [ours, plain, ours_base, plain_base] = times.map(Side::of);
    let less = |full: Side, base: Side| Side {
        best: (full.best - base.best) / count as f64,
        median: (full.median - base.median) / count as f64,
    };
    Ok(Times {
        ours: less(ours, ours_base),
        plain: less(plain, plain_base),
    })
}

/// So many calls, less as many reports: the start, the sources and what a line itself costs are in both.
fn time_call(
    programs: &Programs,
    call: Call,
    setup: &Setup,
    masks: Masks,
) -> Result<Times, Failure> {
    let (lasting, rounds) = match masks {
        Masks::Generator => (0.06, 5),
        // Most of it is the reading of the tape, which is in both scenarios.
        Masks::Tape => (0.008, 5),
    };
    let count = repetitions(lasting, call.seconds(setup, masks));
    let source = match masks {
        Masks::Generator => generator(2, PLENTY),
        Masks::Tape => {
            let words = count * (call.words(setup) * 9 / 8 + 100);
            format!("tape {}", joined((0..words).map(|word| word % 10)))
        }
    };
    // The first load is not timed, and has masks of its own.
    let head = setup.head(&generator(6, PLENTY));
    let lines = |line: &str| {
        let calls = match call {
            Call::Load => format!("{line}\n").repeat(count),
            Call::Sign | Call::Remask => format!("repeat {count} {line}\n"),
        };
        format!("{head}load\nmasks {source}\n{calls}")
    };
    let [full, base] = [call.line().as_str(), "report"].map(lines);
    difference(programs, [&full, &base], count, rounds)
}

fn micros(seconds: f64) -> String {
    let micros = seconds * 1e6;
    if micros < 100.0 {
        format!("{micros:.2}")
    } else {
        format!("{micros:.0}")
    }
}

/// Times a call at each share count, and tells how it grows.
fn row(programs: &Programs, call: Call, ring: Ring, masks: Masks) -> Result<Vec<Times>, Failure> {
    // With more shares a tape for a signing in set I would be a line of many millions of words.
    let most = match (call, masks) {
        (Call::Sign, Masks::Tape) if ring.n == RING_I.n => 4,
        _ => 8,
    };
    let mut row = Vec::new();
    for shares in 1..=most {
        let setup = Setup::new(ring, shares);
        row.push(time_call(programs, call, &setup, masks)?);
    }
    let source = match masks {
        Masks::Generator => "generator",
        Masks::Tape => "tape",
    };
    let cells: Vec<String> = row
        .iter()
        .map(|times| {
            // What is told of less is the clock's.
            if times.plain.best < 1e-7 {
                return "-".to_string();
            }
            format!(
                "{}/{} {:.2}",
                micros(times.ours.best),
                micros(times.plain.best),
                times.ratio()
            )
        })
        .collect();
    println!(
        "{}, set {}, {source} | {}",
        call.name(),
        ring.name,
        cells.join(" | ")
    );
    Ok(row)
}

/// How many times as long each share count takes as two shares.
fn show_growth(ring: Ring, row: &[Times]) {
    let growth: Vec<String> = row
        .iter()
        .map(|times| format!("{:.2}", times.ours.best / row[1].ours.best))
        .collect();
    println!(
        "an attempt in set {}, by that of 2 shares | {}",
        ring.name,
        growth.join(" | ")
    );
}

/// The number behind a word in what a signing printed.
fn number_behind(printed: &str, word: &str) -> Result<usize, Failure> {
    let signed = printed.lines().find(|line| line.starts_with("sign"));
    let mut words = signed.ok_or("no signing")?.split(' ');
    words.find(|&found| found == word);
    Ok(words.next().ok_or("a number is missing")?.parse()?)
}

/// An attempt that passes, cut off behind a number of nonces or masks, and what it then prints.
struct Cut {
    nonces: usize,
    masks: usize,
    printed: &'static str,
}

/// So many attempts, each of a card that is loaded anew, or as many reports.
fn cut_lines(setup: &Setup, seed: u8, cut: &Cut, line: &str, count: usize) -> String {
    let attempt = format!(
        "masks {}\nload\nmasks {}\nnonces {}\n{line}\n",
        generator(6, PLENTY),
        generator(7, cut.masks),
        generator(seed, cut.nonces),
    );
    setup.head(&generator(6, PLENTY)) + &attempt.repeat(count)
}

/// The times of an attempt up to where it is cut off, by the proved program: the cuts in turn, the best of each.
fn cut_seconds(
    programs: &Programs,
    setup: &Setup,
    seed: u8,
    cuts: &[Cut],
) -> Result<Vec<f64>, Failure> {
    let count = repetitions(0.1, Call::Sign.seconds(setup, Masks::Generator));
    let name = |i: usize| format!("cut{i}");
    for (i, cut) in cuts.iter().enumerate() {
        programs.keep(&name(i), &cut_lines(setup, seed, cut, &one_try(), count))?;
    }
    programs.keep("base", &cut_lines(setup, seed, &cuts[0], "report", count))?;
    let mut ends = vec![Vec::new(); cuts.len()];
    let mut starts = Vec::new();
    for _ in 0..5 {
        starts.push(programs.run_proved("base")?.seconds);
        for (i, cut) in cuts.iter().enumerate() {
            let run = programs.run_proved(&name(i))?;
            assert_eq!(
                run.printed.matches(cut.printed).count(),
                count,
                "{}",
                cut.printed
            );
            ends[i].push(run.seconds);
        }
    }
    let start = Side::of(starts).best;
    let less = |end: Vec<f64>| (Side::of(end).best - start) / count as f64;
    Ok(ends.into_iter().map(less).collect())
}

/// Tells which steps an attempt in set I spends its time in. One share takes no masks, so that only its nonces can cut it off.
fn show_steps(programs: &Programs, shares: usize) -> Result<(), Failure> {
    let setup = Setup::new(RING_I, shares);
    let seed = setup.passing_seed()?;
    let whole = Cut {
        nonces: PLENTY,
        masks: PLENTY,
        printed: "sign ok",
    };
    programs.keep("whole", &cut_lines(&setup, seed, &whole, &one_try(), 1))?;
    let printed = programs.run_proved("whole")?.printed;
    let candidates = number_behind(&printed, "candidates")?;
    let nonces = number_behind(&printed, "nonces")?;
    let candidate_seconds = gadgets::candidate_seconds(shares) * candidates as f64;
    let masks = |masks, printed| Cut {
        nonces: PLENTY,
        masks,
        printed,
    };
    let [drawn, committed, checked, _] = setup.words_after(candidates);
    let mut cuts = if shares == 1 {
        vec![Cut {
            nonces: nonces - 1,
            masks: PLENTY,
            printed: "refused 21",
        }]
    } else {
        vec![
            masks(drawn - 1, "step 2"),
            masks(drawn, "step 3"),
            masks(committed - 1, "step 3"),
            masks(committed, "step 5"),
            masks(checked - 1, "step 5"),
        ]
    };
    cuts.push(whole);
    let mut ends = vec![candidate_seconds];
    ends.extend(cut_seconds(programs, &setup, seed, &cuts)?);
    let all = ends[ends.len() - 1];
    let mut before = 0.0;
    let parts: Vec<String> = ends
        .into_iter()
        .map(|end| {
            let part = 100.0 * (end - before) / all;
            before = end;
            format!("{part:.1}")
        })
        .collect();
    println!("{shares} | {}", parts.join(" | "));
    Ok(())
}

/// Compares and times both programs.
pub fn compare(proved: &str) -> Result<(), Failure> {
    let programs = Programs::new(proved, "out/scenarios")?;
    compare_all(&programs)?;
    println!("calls, µs, proved/plain and ratio, at 1 to 8 shares:");
    // A load in the small set is mostly its line.
    row(&programs, Call::Load, RING_I, Masks::Generator)?;
    for ring in [RING_I, RING_S] {
        let signs = row(&programs, Call::Sign, ring, Masks::Generator)?;
        show_growth(ring, &signs);
        row(&programs, Call::Remask, ring, Masks::Generator)?;
        row(&programs, Call::Sign, ring, Masks::Tape)?;
        row(&programs, Call::Remask, ring, Masks::Tape)?;
    }
    println!("an attempt in set I by its steps, proved, generator, in % of its time:");
    println!(
        "shares | candidates | conversions | product of the commitment | its opening | challenge and products of the response | check | opening and record"
    );
    for shares in [1, 2, 4, 8] {
        show_steps(&programs, shares)?;
    }
    Ok(())
}
