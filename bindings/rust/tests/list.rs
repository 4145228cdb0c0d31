//! The original's answers, replayed: the fixed list that the oracle keeps (`crates/replay/stdin`). Without it the test says so and does nothing.
//!
//! A line is KIND LAYOUT W H X Y CW CH TW TH PATTERN SEED NUMBER FLAG CHECK. Kind 0 is crop then resize, 1 scaled (FLAG and CHECK are the size), 2 crop, 3
//! `apply_alpha_plane`; CHECK is FNV-1a of 32 bits over the answer's bytes; a call turned away has 0 and 0.
#![cfg(feature = "std")]

use jonquilsaw::{Dimensions, Image, PixelLayout, Preview, Rect, Result};
use std::path::Path;

const LAYOUTS: [PixelLayout; 3] = [PixelLayout::Rgba8, PixelLayout::Argb8, PixelLayout::Bgra8];

/// NUMBER, FLAG and CHECK.
type Answer = [u32; 3];

/// The entry's numbers up to the answer.
struct Entry {
    layout: PixelLayout,
    size: (u32, u32),
    crop: Rect,
    target: (u32, u32),
    pattern: u32,
    seed: u32,
}

fn step(s: u32) -> u32 {
    s.wrapping_mul(1_664_525).wrapping_add(1_013_904_223)
}

/// The byte of pixel i that the state s stands for, in an alpha place or in a colour's.
fn value(pattern: u32, alpha: bool, i: usize, s: u32) -> u8 {
    let b = (s >> 24) as u8;
    let black_white = if b < 128 { 0 } else { 255 };
    match (pattern, alpha) {
        (1 | 4 | 9, true) | (6, _) => 255,
        (2, true) | (4, false) | (5, _) => black_white,
        (3, true) => [0, 1, 2, 128, 254, 255][(b % 6) as usize],
        (7, true) | (8, false) => i.to_le_bytes()[0],
        (8, true) => i.to_le_bytes()[1],
        (9, false) => b % 4,
        _ => b,
    }
}

impl Entry {
    fn source(&self, dims: Dimensions) -> Vec<u8> {
        let mut s = self.seed;
        let byte = |j: usize| {
            s = step(s);
            value(self.pattern, j % 4 == self.layout.alpha_byte_offset(), j / 4, s)
        };
        (0..dims.byte_len()).map(byte).collect()
    }

    fn plane(&self, dims: Dimensions) -> Vec<u8> {
        let mut s = self.seed.wrapping_add(1);
        let byte = |i: usize| {
            s = step(s);
            value(self.pattern, true, i, s)
        };
        (0..dims.byte_len() / 4).map(byte).collect()
    }

    fn image(&self) -> Result<Image> {
        let dims = Dimensions::new(self.size.0, self.size.1)?;
        Image::new(dims, self.layout, self.source(dims))
    }

    fn ask(&self, kind: u32) -> Result<(u32, u32)> {
        let flag_and_check = |flag: bool, bytes: &[u8]| (u32::from(flag), fnv(bytes));
        let of_image = |image: &Image| flag_and_check(image.has_alpha(), image.as_bytes());
        match kind {
            0 => {
                // In the order of the numbers: 1 for any size or an empty crop, then 2.
                let (source, target) = (Dimensions::new(self.size.0, self.size.1)?, Dimensions::try_from(self.target)?);
                let mut preview = Preview::new(source, self.layout, self.crop, target)?;
                let image = self.image()?;
                let mut rows = Vec::with_capacity(target.byte_len());
                for piece in image.as_bytes().chunks(self.seed as usize * 7 + 1) {
                    preview.feed(piece, |row| rows.extend_from_slice(row)).unwrap();
                }
                assert!(rows == image.crop(self.crop)?.resize(target).as_bytes(), "a preview in pieces and the whole picture differ");
                Ok(flag_and_check(preview.finish().unwrap(), &rows))
            }
            1 => Dimensions::new(self.size.0, self.size.1)?.scaled(self.target.0, self.target.1).map(|d| (d.width(), d.height())),
            2 => self.image()?.crop(self.crop).map(|image| of_image(&image)),
            3 => {
                let mut image = self.image()?;
                image.apply_alpha_plane(&self.plane(image.dimensions()))?;
                Ok(of_image(&image))
            }
            _ => panic!("a list with an entry of kind {kind}"),
        }
    }
}

fn fnv(bytes: &[u8]) -> u32 {
    bytes.iter().fold(2_166_136_261, |h, &b| (h ^ u32::from(b)).wrapping_mul(16_777_619))
}

#[test]
fn the_original_answers() {
    let Ok(list) = std::fs::read_to_string(Path::new(env!("CARGO_MANIFEST_DIR")).join("../../crates/replay/stdin")) else {
        println!("left out: crates/replay/stdin is not at hand");
        return;
    };
    let mut lines = list.lines();
    let count: usize = lines.next().unwrap().trim().parse().unwrap();
    let mut replayed = 0;
    for line in lines {
        let numbers: Vec<u32> = line.split_whitespace().map(|word| word.parse().unwrap()).collect();
        let [kind, layout, w, h, x, y, cw, ch, tw, th, pattern, seed, number, flag, check] = numbers[..] else {
            panic!("not fifteen numbers: {line}")
        };
        let entry = Entry { layout: LAYOUTS[layout as usize], size: (w, h), crop: Rect::new(x, y, cw, ch), target: (tw, th), pattern, seed };
        let got: Answer = entry.ask(kind).map_or_else(|why| [why.number(), 0, 0], |(flag, check)| [0, flag, check]);
        assert_eq!(got, [number, flag, check], "{line}");
        replayed += 1;
    }
    assert_eq!(replayed, count);
    println!("{replayed} of the original's answers");
}
