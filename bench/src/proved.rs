//! The proved functions, each behind a safe one. They ask nothing of a caller but what a Rust slice is.

unsafe extern "C" {
    fn cavrudez_product(
        out: *mut u32,
        out_len: usize,
        a: *const u32,
        a_len: usize,
        b: *const u32,
        b_len: usize,
    ) -> u8;
    fn cavrudez_check(
        key: *const u32,
        key_len: usize,
        bytes: *const u8,
        bytes_len: usize,
        last: u32,
    ) -> u8;
    fn cavrudez_shake256(message: *const u8, message_len: usize, out: *mut u8, out_len: usize);
    fn cavrudez_gauge_tape(
        number: u8,
        field: bool,
        shares: u8,
        out: *mut u32,
        out_len: usize,
        x: *const u32,
        x_len: usize,
        y: *const u32,
        y_len: usize,
        words: *const u32,
        words_len: usize,
    ) -> u8;
    fn cavrudez_gauge_generator(
        number: u8,
        field: bool,
        shares: u8,
        out: *mut u32,
        out_len: usize,
        x: *const u32,
        x_len: usize,
        y: *const u32,
        y_len: usize,
        count: u64,
    ) -> u8;
}

pub fn product(out: &mut [u32], a: &[u32], b: &[u32]) -> u8 {
    unsafe {
        cavrudez_product(
            out.as_mut_ptr(),
            out.len(),
            a.as_ptr(),
            a.len(),
            b.as_ptr(),
            b.len(),
        )
    }
}

pub fn check(key: &[u32], bytes: &[u8], last: Option<u16>) -> u8 {
    let last = last.map_or(65536, u32::from);
    unsafe { cavrudez_check(key.as_ptr(), key.len(), bytes.as_ptr(), bytes.len(), last) }
}

pub fn shake256(message: &[u8], out: &mut [u8]) {
    unsafe { cavrudez_shake256(message.as_ptr(), message.len(), out.as_mut_ptr(), out.len()) }
}

/// A gadget by its number on each column, with masks from a tape.
pub fn gauge_tape(
    number: u8,
    field: bool,
    shares: u8,
    out: &mut [u32],
    x: &[u32],
    y: &[u32],
    words: &[u32],
) -> u8 {
    unsafe {
        cavrudez_gauge_tape(
            number,
            field,
            shares,
            out.as_mut_ptr(),
            out.len(),
            x.as_ptr(),
            x.len(),
            y.as_ptr(),
            y.len(),
            words.as_ptr(),
            words.len(),
        )
    }
}

/// The same with so many masks from the generator of a seed of zeros.
pub fn gauge_generator(
    number: u8,
    field: bool,
    shares: u8,
    out: &mut [u32],
    x: &[u32],
    y: &[u32],
    count: u64,
) -> u8 {
    unsafe {
        cavrudez_gauge_generator(
            number,
            field,
            shares,
            out.as_mut_ptr(),
            out.len(),
            x.as_ptr(),
            x.len(),
            y.as_ptr(),
            y.len(),
            count,
        )
    }
}
