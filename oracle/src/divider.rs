//! The corner that request 4 changed: the height grows and span is 1, so that the crop is one pixel wide and the target one or two. The factor FRAC(1,1) is
//! 0, and the original and libwebp give 0 there; now it counts as exactly one, and the byte is j. This judges the port's bytes in their place: document 01's
//! arithmetic over the crop's own rows, all at once, with neither a schedule nor work values.
use crate::job::Sizes;

/// The rows handed out in the corner, whose bytes and flags are not the original's, and the worst distance of a byte to the exact mean, as a fraction.
#[derive(Clone, Copy, Debug)]
pub struct Corner {
    pub rows: u64,
    pub worst: (u64, u64),
}

impl Corner {
    pub const NONE: Corner = Corner { rows: 0, worst: (0, 1) };

    /// A distance of so many parts of so many.
    fn far(&mut self, (part, of): (u64, u64)) {
        if part * self.worst.1 > self.worst.0 * of {
            self.worst = (part, of);
        }
    }
    pub fn add(&mut self, other: Corner) {
        self.rows += other.rows;
        self.far(other.worst);
    }
}

/// The output's lanes, of the crop's matted lanes. Both columns of a target two wide have the one pixel's value.
pub fn scaled(s: &Sizes, crop: &[u8], corner: &mut Corner) -> Vec<u8> {
    let (h, g, lanes) = (u64::from(s.ch), u64::from(s.th), s.lanes as usize);
    let value = |row: u64, lane: usize| u64::from(crop[row as usize * lanes + lane]);
    let mut out = Vec::new();
    for y in 0..g {
        // The first crop row that reaches y × (h − 1), rows being g − 1 apart.
        let newer = (y * (h - 1)).div_ceil(g - 1);
        let d = newer * (g - 1) - y * (h - 1);
        let b = (d << 32) / (g - 1);
        let byte = |lane: usize| {
            if d == 0 {
                return value(newer, lane) as u8;
            }
            let (new, old) = (value(newer, lane), value(newer - 1, lane));
            let j = (((1 << 32) - b) * new + b * old + (1 << 31)) >> 32;
            corner.far(((j * (g - 1)).abs_diff((g - 1 - d) * new + d * old), g - 1));
            j.min(255) as u8
        };
        let pixel: Vec<u8> = (0..lanes).map(byte).collect();
        (0..s.tw).for_each(|_| out.extend_from_slice(&pixel));
    }
    out
}
