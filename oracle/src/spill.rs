//! The corner that request 7 changed: rows in which a scaled colour stands above its alpha. Restored under an alpha of 1 to 254 it passes 255: the original's runs
//! into the next lane there and libwebp's wraps in its own; ours stops at 255. This judges the port's bytes in their place: request 7's restore, lane by lane, of the
//! lanes that the original's Rescaler makes.

/// The rows handed out in the corner, whose bytes and flags are not the original's, and in how many of them its restore gives others.
#[derive(Clone, Copy, Debug, Default)]
pub struct Spill {
    pub rows: u64,
    pub others: u64,
}

impl Spill {
    pub fn add(&mut self, other: Spill) {
        self.rows += other.rows;
        self.others += other.others;
    }
}

/// Whether a colour is above its alpha, of the lanes B, G, R, A. By the request's words that holds for alpha 0 too, where the pixel is 0 in any case.
pub fn above(&[b, g, r, a]: &[u8; 4]) -> bool {
    b.max(g).max(r) > a
}

/// A pixel of lanes B, G, R, A restored: each colour in its own lane, at most 255.
pub fn restored([b, g, r, a]: [u8; 4]) -> [u8; 4] {
    let colour = |c: u8| match a {
        0 => 0,
        255 => c,
        _ => ((u64::from(c) * ((255 << 24) / u64::from(a)) + (1 << 23)) >> 24).min(255) as u8,
    };
    [colour(b), colour(g), colour(r), a]
}
