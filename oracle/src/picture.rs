//! The pixels that a pattern and a seed stand for, what lent buffers hold before a call, and checksums.
//! libwebp.c, ours.c and the program `replay` make the same bytes, `replay` those of the patterns below `PATTERNS`.

/// The patterns that are drawn at random; the one after them has one pixel everywhere.
pub const PATTERNS: u32 = 10;
pub const ONE_PIXEL: u32 = PATTERNS;

/// A step of the generator of Numerical Recipes: s × 1664525 + 1013904223 modulo 2^32.
pub fn step(s: u32) -> u32 {
    s.wrapping_mul(1664525).wrapping_add(1013904223)
}

/// The byte of pixel i that the state s stands for, in an alpha place or in a colour's.
pub fn value(pattern: u32, alpha: bool, i: u32, s: u32) -> u8 {
    let b = (s >> 24) as u8;
    let black_white = if b < 128 { 0 } else { 255 };
    match (pattern, alpha) {
        (1 | 4 | 9, true) => 255,
        (2, true) => black_white,
        (3, true) => [0, 1, 2, 128, 254, 255][(b % 6) as usize],
        (4, false) | (5, _) => black_white,
        (6, _) => 255,
        (7, true) => (i % 256) as u8,
        (8, true) => (i / 256 % 256) as u8,
        (8, false) => (i % 256) as u8,
        (9, false) => b % 4,
        _ => b,
    }
}

pub fn alpha_place(layout: u32) -> usize {
    if layout == 1 { 0 } else { 3 }
}

/// The first `len` bytes of a picture without end.
pub fn bytes(layout: u32, pattern: u32, seed: u32, len: usize) -> Vec<u8> {
    if pattern == ONE_PIXEL {
        return seed.to_le_bytes().into_iter().cycle().take(len).collect();
    }
    let place = alpha_place(layout);
    let mut s = seed;
    (0..len)
        .map(|j| {
            s = step(s);
            value(pattern, j % 4 == place, (j / 4) as u32, s)
        })
        .collect()
}

/// An alpha plane: the pattern's alpha values, from the seed's successor.
pub fn plane(pattern: u32, seed: u32, len: usize) -> Vec<u8> {
    let mut s = seed.wrapping_add(1);
    (0..len)
        .map(|i| {
            s = step(s);
            value(pattern, true, i as u32, s)
        })
        .collect()
}

/// What an output buffer holds before the call.
pub fn fill_bytes(len: usize) -> Vec<u8> {
    (0..len).map(|i| 0xa5 ^ i as u8).collect()
}

/// What work values, and the output of unpack, hold before the call.
pub fn fill_words(len: usize) -> Vec<u32> {
    (0..len).map(|i| (i as u32).wrapping_add(1).wrapping_mul(2654435769)).collect()
}

/// FNV-1a of 32 bits over bytes: the fixed list's checksum.
pub fn fnv32(h: u32, data: &[u8]) -> u32 {
    data.iter().fold(h, |h, &b| (h ^ u32::from(b)).wrapping_mul(16777619))
}
pub const FNV32: u32 = 2166136261;

/// FNV-1a of 64 bits taken over whole words: the checksum of work values in an answer.
pub fn fnv_words(data: &[u32]) -> u64 {
    data.iter().fold(0xcbf29ce484222325, |h: u64, &w| (h ^ u64::from(w)).wrapping_mul(0x100000001b3))
}

pub fn hex(out: &mut String, data: &[u8]) {
    if data.is_empty() {
        out.push('-');
        return;
    }
    const DIGITS: &[u8; 16] = b"0123456789abcdef";
    out.reserve(2 * data.len());
    for &b in data {
        out.push(DIGITS[(b >> 4) as usize] as char);
        out.push(DIGITS[(b & 15) as usize] as char);
    }
}
