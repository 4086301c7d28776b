//! Reads the lines of docs/SCENARIO.md that a card's calls need, and prints what the proved program prints. A line that it cannot read ends it.

use std::io::{self, Write};

use super::card::{Areas, Card, Counts, Failure, Refusal, Step, load};
use super::source::{Feed, Generator, Tape, Watch};
use super::{Set, SetI, SetS};

type Problem = Box<dyn std::error::Error>;

/// What the lines have set so far.
struct World {
    field: bool,
    shares: u8,
    public: Vec<u32>,
    secret: Vec<i8>,
    key: Vec<u32>,
    nonces: Feed,
    masks: Feed,
    card: Option<Card>,
    made: Vec<u8>,
}

/// A method at the world's set and share count.
macro_rules! in_set {
    ($world:ident.$call:ident($($argument:expr),*)) => {
        if $world.field {
            at_shares!($world.$call::<512, SetI>($($argument),*))
        } else {
            at_shares!($world.$call::<4, SetS>($($argument),*))
        }
    };
}

macro_rules! at_shares {
    ($world:ident.$call:ident::<$n:literal, $set:ty>($($argument:expr),*)) => {
        match $world.shares {
            1 => $world.$call::<1, $n, $set>($($argument),*),
            2 => $world.$call::<2, $n, $set>($($argument),*),
            3 => $world.$call::<3, $n, $set>($($argument),*),
            4 => $world.$call::<4, $n, $set>($($argument),*),
            5 => $world.$call::<5, $n, $set>($($argument),*),
            6 => $world.$call::<6, $n, $set>($($argument),*),
            7 => $world.$call::<7, $n, $set>($($argument),*),
            8 => $world.$call::<8, $n, $set>($($argument),*),
            _ => panic!("a share count that no card has"),
        }
    };
}

pub fn bytes_of_hex(text: &str) -> Result<Vec<u8>, Problem> {
    let digits: Option<Vec<u8>> = text
        .chars()
        .map(|digit| digit.to_digit(16).map(|value| value as u8))
        .collect();
    let digits = digits.ok_or("not hexadecimal")?;
    Ok(digits
        .chunks(2)
        .map(|pair| pair[0] << 4 | pair[1])
        .collect())
}

fn hex_of_bytes(bytes: &[u8]) -> String {
    bytes.iter().map(|byte| format!("{byte:02x}")).collect()
}

fn seed_of_hex(text: &str) -> Result<[u8; 32], Problem> {
    let bytes = bytes_of_hex(text)?;
    Ok(bytes.as_slice().try_into()?)
}

fn numbers<T: std::str::FromStr>(text: &str) -> Result<Vec<T>, T::Err> {
    text.split_ascii_whitespace().map(str::parse).collect()
}

fn empty() -> Feed {
    Feed::Tape(Tape::new(Vec::new()))
}

fn feed(line: &str) -> Result<Feed, Problem> {
    let (kind, rest) = line.split_once(' ').unwrap_or((line, ""));
    match kind {
        "tape" => Ok(Feed::Tape(Tape::new(numbers(rest)?))),
        "generator" => {
            let (seed, count) = rest.split_once(' ').ok_or("no count")?;
            let seed = seed_of_hex(seed)?;
            Ok(Feed::Generator(Generator::new(&seed, count.parse()?)))
        }
        _ => Err("another source".into()),
    }
}

fn counts_text(counts: Counts) -> String {
    let Counts {
        attempts,
        candidates,
        nonces,
        masks,
    } = counts;
    format!("attempts {attempts} candidates {candidates} nonces {nonces} masks {masks}")
}

fn step_text(step: Step) -> String {
    let (number, place) = match step {
        Step::Candidate(polynomial, c) => (1, Some((polynomial, c))),
        Step::Conversion(polynomial, c) => (2, Some((polynomial, c))),
        Step::Commit => (3, None),
        Step::Check => (5, None),
        Step::Open => (6, None),
    };
    let place =
        place.map(|(polynomial, c)| format!(" polynomial {} coefficient {c}", polynomial + 1));
    format!("step {number}{}", place.unwrap_or_default())
}

fn failure_text(failure: Failure, counts: Counts) -> String {
    let (number, mark, step) = match failure {
        Failure::NoncesEnded(mark, step) => (21, mark, step),
        Failure::MasksEnded(mark, step) => (22, mark, step),
        Failure::TriesFailed => return format!("23 {}", counts_text(counts)),
    };
    format!(
        "{number} mark {} attempt {} {} {}",
        mark as u8,
        counts.attempts,
        step_text(step),
        counts_text(counts)
    )
}

fn refusal_text(refusal: Refusal) -> String {
    match refusal {
        Refusal::AreaSize => "2".to_string(),
        Refusal::NotResidue(area, index) => format!("3 area {area} index {index}"),
        Refusal::Tries => "5".to_string(),
        Refusal::CounterEnd => "20".to_string(),
        Refusal::MasksEnded(mark) => format!("22 mark {}", mark as u8),
        Refusal::Failed(failure, counts) => failure_text(failure, counts),
    }
}

fn words_text(name: &str, words: &[u32]) -> String {
    words
        .iter()
        .fold(name.to_string(), |text, word| format!("{text} {word}"))
}

/// A line that can be repeated.
#[derive(Clone, Copy)]
enum Call {
    Sign([u8; 32], u32),
    Remask,
    Report,
}

impl Call {
    fn read(line: &str) -> Result<Call, Problem> {
        match *line.split(' ').collect::<Vec<_>>() {
            ["sign", digest, tries] => Ok(Call::Sign(seed_of_hex(digest)?, tries.parse()?)),
            ["remask"] => Ok(Call::Remask),
            ["report"] => Ok(Call::Report),
            _ => Err("another line".into()),
        }
    }
}

/// What a call answers; its text is made only where it is printed.
#[derive(Clone, Copy)]
enum Answer {
    Signed(Result<Counts, Refusal>),
    Remasked(Result<u64, Refusal>),
    Reported,
    NoCard(Call),
}

impl Answer {
    fn is_done(self) -> bool {
        match self {
            Answer::Signed(outcome) => outcome.is_ok(),
            Answer::Remasked(outcome) => outcome.is_ok(),
            Answer::Reported => true,
            Answer::NoCard(_) => false,
        }
    }

    fn text(self, world: &World) -> String {
        let counter = world.card.as_ref().map_or(0, |card| card.counter);
        match self {
            Answer::Signed(Ok(counts)) => format!(
                "sign ok counter {counter} {} record {}",
                counts_text(counts),
                hex_of_bytes(&world.made)
            ),
            Answer::Remasked(Ok(masks)) => format!("remask ok masks {masks}"),
            Answer::Signed(Err(refusal)) => format!("sign refused {}", refusal_text(refusal)),
            Answer::Remasked(Err(refusal)) => format!("remask refused {}", refusal_text(refusal)),
            Answer::Reported => format!("report counter {counter} shares {}", world.shares),
            Answer::NoCard(Call::Sign(..)) => "sign no card".to_string(),
            Answer::NoCard(Call::Remask) => "remask no card".to_string(),
            Answer::NoCard(Call::Report) => "report no card".to_string(),
        }
    }
}

impl World {
    fn new(field: bool) -> World {
        let n = if field { 512 } else { 4 };
        World {
            field,
            shares: 1,
            public: vec![0; 2 * n],
            secret: Vec::new(),
            key: vec![0; 2 * n],
            nonces: empty(),
            masks: empty(),
            card: None,
            made: Vec::new(),
        }
    }

    fn degree(&self) -> usize {
        self.public.len() / 2
    }

    fn load_in<const M: usize, const N: usize, S: Set<N>>(&mut self) -> Result<u64, Refusal> {
        let (card, masks) = load::<M, N, S, Feed>(
            &self.secret,
            &mut self.public,
            &mut self.key,
            &mut self.masks,
        )?;
        self.card = Some(card);
        Ok(masks)
    }

    fn load(&mut self) -> String {
        let outcome: Result<u64, Refusal> = in_set!(self.load_in());
        if let Err(Refusal::MasksEnded(_)) = outcome {
            self.card = None;
            self.key.fill(0);
        }
        match outcome {
            Ok(masks) => format!("load ok masks {masks}"),
            Err(refusal) => format!("load refused {}", refusal_text(refusal)),
        }
    }

    /// Lends a signing a work area and a record area, as the proved program does for each.
    fn sign_in<const M: usize, const N: usize, S: Set<N>>(
        &mut self,
        digest: &[u8; 32],
        tries: u32,
    ) -> Result<Counts, Refusal> {
        let card = self.card.as_mut().expect("a card that is loaded");
        let mut work = vec![0; 6 * M * N];
        let mut record = vec![0; S::SIZE];
        let areas = Areas {
            key: &self.key,
            public: &self.public,
            work: &mut work,
            record: &mut record,
        };
        let counts = card.sign::<M, N, S, Feed, Feed>(
            digest,
            tries,
            areas,
            &mut self.nonces,
            &mut self.masks,
        )?;
        self.made = record;
        Ok(counts)
    }

    fn remask_in<const M: usize, const N: usize, S: Set<N>>(&mut self) -> Result<u64, Refusal> {
        let card = self.card.as_ref().expect("a card that is loaded");
        card.remask::<M, N, S, Feed>(&mut self.key, &mut self.masks)
    }

    fn call(&mut self, call: Call) -> Answer {
        if self.card.is_none() {
            return Answer::NoCard(call);
        }
        match call {
            Call::Sign(digest, tries) => Answer::Signed(in_set!(self.sign_in(&digest, tries))),
            Call::Remask => Answer::Remasked(in_set!(self.remask_in())),
            Call::Report => Answer::Reported,
        }
    }

    fn repeat(&mut self, line: &str) -> Result<String, Problem> {
        let (times, call) = line.split_once(' ').ok_or("nothing to repeat")?;
        let (times, call) = (times.parse::<u32>()?, Call::read(call)?);
        let mut done = 0;
        let mut last = None;
        for _ in 0..times {
            let answer = self.call(call);
            done += u32::from(answer.is_done());
            last = Some(answer);
        }
        let last = last.map(|answer| answer.text(self)).unwrap_or_default();
        Ok(format!("repeated {times} ok {done}\n{last}"))
    }

    /// Another source, or a health check over the one that is there.
    fn fill(name: &str, source: &mut Feed, line: &str) -> Result<String, Problem> {
        *source = match line.split_once(' ') {
            Some(("health", cutoff)) => {
                let below = std::mem::replace(source, empty());
                Feed::Checked(Watch::new(cutoff.parse()?), Box::new(below))
            }
            _ => feed(line)?,
        };
        Ok(format!("{name} ok"))
    }

    /// Carries a line out, and tells what it prints, if anything.
    fn act(&mut self, line: &str) -> Result<Option<String>, Problem> {
        let n = self.degree();
        let (word, rest) = line.split_once(' ').unwrap_or((line, ""));
        match word {
            "a" => self.public[..n].copy_from_slice(&numbers(rest)?),
            "t" => self.public[n..].copy_from_slice(&numbers(rest)?),
            "secret" => self.secret = numbers(rest)?,
            "shares" => {
                self.shares = rest.parse()?;
                self.key = vec![0; 2 * usize::from(self.shares) * n];
                self.card = None;
            }
            "nonces" => return World::fill("nonces", &mut self.nonces, rest).map(Some),
            "masks" => return World::fill("masks", &mut self.masks, rest).map(Some),
            "load" => return Ok(Some(self.load())),
            "show" if rest == "key" => return Ok(Some(words_text("key", &self.key))),
            "show" if rest == "public" => return Ok(Some(words_text("public", &self.public))),
            "repeat" => return self.repeat(rest).map(Some),
            _ => {
                let answer = self.call(Call::read(line)?);
                return Ok(Some(answer.text(self)));
            }
        }
        Ok(None)
    }
}

/// A scenario from standard input.
pub fn run() -> Result<(), Problem> {
    let mut out = io::BufWriter::new(io::stdout().lock());
    let mut world = None;
    for line in io::stdin().lines() {
        let line = line?;
        match line.as_str() {
            "set S" => world = Some(World::new(false)),
            "set I" => world = Some(World::new(true)),
            line => {
                let world = world.as_mut().ok_or("no set yet")?;
                if let Some(text) = world.act(line)? {
                    writeln!(out, "{text}")?;
                }
            }
        }
    }
    Ok(())
}
