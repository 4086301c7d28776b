//! SHAKE256.

#[rustfmt::skip]
const ROUND_CONSTANTS: [u64; 24] = [
    0x0000000000000001, 0x0000000000008082, 0x800000000000808a, 0x8000000080008000,
    0x000000000000808b, 0x0000000080000001, 0x8000000080008081, 0x8000000000008009,
    0x000000000000008a, 0x0000000000000088, 0x0000000080008009, 0x000000008000000a,
    0x000000008000808b, 0x800000000000008b, 0x8000000000008089, 0x8000000000008003,
    0x8000000000008002, 0x8000000000000080, 0x000000000000800a, 0x800000008000000a,
    0x8000000080008081, 0x8000000000008080, 0x0000000080000001, 0x8000000080008008,
];

/// A round with every step written out.
#[rustfmt::skip]
#[inline(always)]
fn round(a: &[u64; 25], constant: u64) -> [u64; 25] {
    let c: [u64; 5] = [
        a[0] ^ a[5] ^ a[10] ^ a[15] ^ a[20],
        a[1] ^ a[6] ^ a[11] ^ a[16] ^ a[21],
        a[2] ^ a[7] ^ a[12] ^ a[17] ^ a[22],
        a[3] ^ a[8] ^ a[13] ^ a[18] ^ a[23],
        a[4] ^ a[9] ^ a[14] ^ a[19] ^ a[24],
    ];
    let d: [u64; 5] = [
        c[4] ^ c[1].rotate_left(1),
        c[0] ^ c[2].rotate_left(1),
        c[1] ^ c[3].rotate_left(1),
        c[2] ^ c[4].rotate_left(1),
        c[3] ^ c[0].rotate_left(1),
    ];
    let b: [u64; 25] = [
        a[0] ^ d[0],
        (a[6] ^ d[1]).rotate_left(44), (a[12] ^ d[2]).rotate_left(43),
        (a[18] ^ d[3]).rotate_left(21), (a[24] ^ d[4]).rotate_left(14),
        (a[3] ^ d[3]).rotate_left(28), (a[9] ^ d[4]).rotate_left(20),
        (a[10] ^ d[0]).rotate_left(3), (a[16] ^ d[1]).rotate_left(45),
        (a[22] ^ d[2]).rotate_left(61), (a[1] ^ d[1]).rotate_left(1),
        (a[7] ^ d[2]).rotate_left(6), (a[13] ^ d[3]).rotate_left(25),
        (a[19] ^ d[4]).rotate_left(8), (a[20] ^ d[0]).rotate_left(18),
        (a[4] ^ d[4]).rotate_left(27), (a[5] ^ d[0]).rotate_left(36),
        (a[11] ^ d[1]).rotate_left(10), (a[17] ^ d[2]).rotate_left(15),
        (a[23] ^ d[3]).rotate_left(56), (a[2] ^ d[2]).rotate_left(62),
        (a[8] ^ d[3]).rotate_left(55), (a[14] ^ d[4]).rotate_left(39),
        (a[15] ^ d[0]).rotate_left(41), (a[21] ^ d[1]).rotate_left(2),
    ];
    [
        b[0] ^ (!b[1] & b[2]) ^ constant, b[1] ^ (!b[2] & b[3]), b[2] ^ (!b[3] & b[4]), b[3] ^ (!b[4] & b[0]), b[4] ^ (!b[0] & b[1]),
        b[5] ^ (!b[6] & b[7]), b[6] ^ (!b[7] & b[8]), b[7] ^ (!b[8] & b[9]), b[8] ^ (!b[9] & b[5]), b[9] ^ (!b[5] & b[6]),
        b[10] ^ (!b[11] & b[12]), b[11] ^ (!b[12] & b[13]), b[12] ^ (!b[13] & b[14]), b[13] ^ (!b[14] & b[10]), b[14] ^ (!b[10] & b[11]),
        b[15] ^ (!b[16] & b[17]), b[16] ^ (!b[17] & b[18]), b[17] ^ (!b[18] & b[19]), b[18] ^ (!b[19] & b[15]), b[19] ^ (!b[15] & b[16]),
        b[20] ^ (!b[21] & b[22]), b[21] ^ (!b[22] & b[23]), b[22] ^ (!b[23] & b[24]), b[23] ^ (!b[24] & b[20]), b[24] ^ (!b[20] & b[21]),
    ]
}

fn permute(state: &mut [u64; 25]) {
    for constant in ROUND_CONSTANTS {
        *state = round(state, constant);
    }
}

const RATE: usize = 136;

pub struct Sponge {
    state: [u64; 25],
    pos: usize,
}

impl Sponge {
    pub fn new() -> Sponge {
        Sponge {
            state: [0; 25],
            pos: 0,
        }
    }

    fn advance(&mut self, count: usize) {
        self.pos += count;
        if self.pos == RATE {
            permute(&mut self.state);
            self.pos = 0;
        }
    }

    /// Whole lanes where the place allows it, else byte by byte.
    pub fn absorb(&mut self, mut bytes: &[u8]) {
        while !bytes.is_empty() {
            if self.pos % 8 == 0
                && let Some((lane, rest)) = bytes.split_first_chunk::<8>()
            {
                self.state[self.pos / 8] ^= u64::from_le_bytes(*lane);
                self.advance(8);
                bytes = rest;
            } else {
                self.state[self.pos / 8] ^= u64::from(bytes[0]) << (8 * (self.pos % 8));
                self.advance(1);
                bytes = &bytes[1..];
            }
        }
    }

    /// Ends the message; `next_byte`, `next_u16` and `next_u32` then give the output.
    pub fn finish(&mut self) {
        self.state[self.pos / 8] ^= 0x1f << (8 * (self.pos % 8));
        self.state[RATE / 8 - 1] ^= 0x80 << 56;
        permute(&mut self.state);
        self.pos = 0;
    }

    fn next_byte(&mut self) -> u8 {
        let byte = (self.state[self.pos / 8] >> (8 * (self.pos % 8))) as u8;
        self.advance(1);
        byte
    }

    /// Two bytes at an even place.
    pub fn next_u16(&mut self) -> u16 {
        let word = (self.state[self.pos / 8] >> (8 * (self.pos % 8))) as u16;
        self.advance(2);
        word
    }

    /// Four bytes at a place that four divides.
    pub fn next_u32(&mut self) -> u32 {
        let word = (self.state[self.pos / 8] >> (8 * (self.pos % 8))) as u32;
        self.advance(4);
        word
    }
}

pub fn shake256(message: &[u8], out: &mut [u8]) {
    let mut sponge = Sponge::new();
    sponge.absorb(message);
    sponge.finish();
    for byte in out {
        *byte = sponge.next_byte();
    }
}
