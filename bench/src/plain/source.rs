//! Word sources: a finite list of words, and a mark behind it.

use super::keccak::Sponge;

/// Why a source has no more words.
#[derive(Clone, Copy)]
pub enum Mark {
    Spent = 1,
    Unhealthy = 2,
}

pub trait Source {
    fn draw(&mut self) -> Result<u32, Mark>;
}

/// A list of words.
pub struct Tape<W: AsRef<[u32]>> {
    words: W,
    at: usize,
}

impl<W: AsRef<[u32]>> Tape<W> {
    pub fn new(words: W) -> Tape<W> {
        Tape { words, at: 0 }
    }
}

impl<W: AsRef<[u32]>> Source for Tape<W> {
    fn draw(&mut self) -> Result<u32, Mark> {
        let word = *self.words.as_ref().get(self.at).ok_or(Mark::Spent)?;
        self.at += 1;
        Ok(word)
    }
}

/// The first words of SHAKE256 of a seed.
pub struct Generator {
    sponge: Sponge,
    left: u64,
}

impl Generator {
    pub fn new(seed: &[u8; 32], count: u64) -> Generator {
        let mut sponge = Sponge::new();
        sponge.absorb(seed);
        sponge.finish();
        Generator {
            sponge,
            left: count,
        }
    }
}

impl Source for Generator {
    fn draw(&mut self) -> Result<u32, Mark> {
        self.left = self.left.checked_sub(1).ok_or(Mark::Spent)?;
        Ok(self.sponge.next_u32())
    }
}

/// What a health check has seen of the words that it let through.
pub struct Watch {
    cutoff: u32,
    last: u32,
    run: u32,
    failed: bool,
}

impl Watch {
    pub fn new(cutoff: u32) -> Watch {
        Watch {
            cutoff,
            last: 0,
            run: 0,
            failed: false,
        }
    }

    /// Lets a word through, unless it makes a run as long as the cutoff.
    fn admit(&mut self, word: u32) -> Result<u32, Mark> {
        let run = if word == self.last { self.run + 1 } else { 1 };
        if run >= self.cutoff {
            self.failed = true;
            return Err(Mark::Unhealthy);
        }
        self.last = word;
        self.run = run;
        Ok(word)
    }
}

/// A source whose kind is known only when the program runs.
pub enum Feed {
    Tape(Tape<Vec<u32>>),
    Generator(Generator),
    Checked(Watch, Box<Feed>),
}

impl Source for Feed {
    fn draw(&mut self) -> Result<u32, Mark> {
        match self {
            Feed::Tape(tape) => tape.draw(),
            Feed::Generator(generator) => generator.draw(),
            Feed::Checked(watch, _) if watch.failed => Err(Mark::Unhealthy),
            Feed::Checked(watch, below) => {
                let word = below.draw()?;
                watch.admit(word)
            }
        }
    }
}

/// A lent source, and how many words were drawn from it.
pub struct Metered<'a, W> {
    pub source: &'a mut W,
    pub count: u64,
}

impl<'a, W> Metered<'a, W> {
    pub fn new(source: &'a mut W) -> Metered<'a, W> {
        Metered { source, count: 0 }
    }
}

impl<W: Source> Source for Metered<'_, W> {
    fn draw(&mut self) -> Result<u32, Mark> {
        let word = self.source.draw()?;
        self.count += 1;
        Ok(word)
    }
}
