//! The fixed list: a few hundred of the original's answers, replayed by the program `replay` with no Rust at hand.
//!
//! The first line is the number of entries. An entry is a line of fifteen numbers:
//!   kind layout width height x y crop_width crop_height target_width target_height pattern seed number flag check
//! Kind 0: crop then resize, by rows. Kind 1: scaled (flag and check are the answer's width and height). Kind 2: crop.
//! Kind 3: apply_alpha_plane. `number` is SCOPE's; a refused call has flag and check 0. `check` is FNV-1a of 32 bits over
//! the answer's bytes. Every answer is the original's. None is of a height that grows with span 1, where the original gives 0 and the port
//! does not (divider.rs): what would be one is 3 wide. None has a scaled colour above its alpha, where the original spills and the port does not (spill.rs):
//! `oracle list` stops at such an entry.
use crate::image::{Dimensions, Image};
use crate::job::{Pixels, Sizes};
use crate::jobs::Random;
use crate::original::{cropped, layout, some_above};
use crate::picture::{FNV32, PATTERNS, bytes, fnv32, plane};
use crate::table;
use std::fmt::Write;

/// number, flag, check
type Answer = (u32, u32, u32);

fn of_image(image: &Image) -> Answer {
    (0, u32::from(image.has_alpha()), fnv32(FNV32, image.as_bytes()))
}

/// The source's bytes; none where its sides are beyond the limit, so that no picture can exist.
fn source(s: &Sizes, px: Pixels) -> Vec<u8> {
    let pixels = Dimensions::new(s.w, s.h).map_or(0, Dimensions::pixel_count);
    bytes(s.layout, px.pattern, px.seed, 4 * pixels as usize)
}

fn ask(kind: u32, s: &Sizes, px: Pixels) -> Answer {
    match kind {
        1 => match Dimensions::new(s.w, s.h).and_then(|d| d.scaled(s.tw, s.th)) {
            Ok(d) => (0, d.width(), d.height()),
            Err(e) => (e as u32, 0, 0),
        },
        3 => {
            let asked = Dimensions::new(s.w, s.h).and_then(|d| Image::new(d, layout(s.layout), source(s, px))).and_then(|mut image| {
                image.apply_alpha_plane(&plane(px.pattern, px.seed, (s.w * s.h) as usize))?;
                Ok(image)
            });
            asked.map_or_else(|e| (e as u32, 0, 0), |image| of_image(&image))
        }
        _ => cropped(s, source(s, px), kind == 0).map_or_else(|n| (n, 0, 0), |image| of_image(&image)),
    }
}

#[derive(Default)]
struct List {
    text: String,
    entries: u32,
    seeds: u32,
}

impl List {
    fn add(&mut self, kind: u32, s: Sizes, pattern: u32) {
        let s = if kind == 0 && s.divider() && table::sizes(&s, true) == 0 { Sizes { tw: 3, ..s } } else { s };
        self.seeds += 1;
        let px = Pixels { pattern, seed: self.seeds };
        let (number, flag, check) = ask(kind, &s, px);
        assert!(kind != 0 || number != 0 || !some_above(&s, &source(&s, px)), "a scaled colour is above its alpha: {s:?} {px:?}");
        self.entries += 1;
        write!(self.text, "{kind} {} {} {} {} {} {} {} {} {}", s.layout, s.w, s.h, s.x, s.y, s.cw, s.ch, s.tw, s.th).unwrap();
        writeln!(self.text, " {pattern} {} {number} {flag} {check}", self.seeds).unwrap();
    }
    fn scale(&mut self, layout: u32, (w, h): (u32, u32), (tw, th): (u32, u32), pattern: u32) {
        self.add(0, Sizes { layout, w, h, cw: w, ch: h, tw, th, ..Sizes::PICTURE }, pattern);
    }
}

pub fn make() -> String {
    let mut l = List::default();
    let mut r = Random(20);
    // Small sides, every kind of growth on both axes, every layout and pattern.
    for i in 0..120 {
        let mut any = || r.within(1, 8);
        let (from, to) = ((any(), any()), (any(), any()));
        l.scale(i % 3, from, to, i % PATTERNS);
    }
    // Crops at each edge.
    for i in 0..60 {
        let (w, h) = (r.within(1, 64), r.within(1, 64));
        let (cw, ch) = (r.within(1, w), r.within(1, h));
        let inside = (r.within(0, w - cw), r.within(0, h - ch));
        let (x, y) = (r.of(&[0, w - cw, inside.0]), r.of(&[0, h - ch, inside.1]));
        let s = Sizes { layout: i % 3, w, h, x, y, cw, ch, tw: r.within(1, 64), th: r.within(1, 64), ..Sizes::PICTURE };
        l.add(0, s, r.below(PATTERNS));
        l.add(2, Sizes { tw: 0, th: 0, ..s }, r.below(PATTERNS));
    }
    // Boundaries: one column, one row, equal sizes, the largest sides.
    for (from, to) in [
        ((1, 1), (1, 1)),
        ((1, 1), (3, 2)),
        ((1, 1), (2, 1)),
        ((2, 1), (2, 2)),
        ((1, 6), (1, 5)),
        ((1, 256), (1, 255)),
        ((2, 3), (1, 5)),
        ((2, 1), (1, 1)),
        ((2, 2), (2, 2)),
        ((3, 58), (2, 52)),
        ((64, 64), (64, 64)),
        ((256, 3), (255, 3)),
        ((255, 2), (256, 4)),
        ((257, 2), (256, 1)),
        ((16384, 1), (1, 1)),
        ((16384, 3), (7, 2)),
        ((16383, 3), (16384, 2)),
        ((16384, 3), (16384, 3)),
        ((16384, 2), (16383, 3)),
        ((1, 16384), (1, 1)),
        ((1, 16384), (1, 3)),
        ((1, 16383), (3, 16384)),
        ((2, 3), (16384, 1)),
        ((2, 2), (1, 16384)),
    ] {
        for pattern in [0, 1, 7] {
            l.scale((from.0 + to.0 + pattern) % 3, from, to, pattern);
        }
    }
    // Every alpha with every colour.
    l.scale(0, (256, 256), (256, 256), 8);
    l.scale(1, (256, 256), (128, 256), 8);
    // Sums on both sides of wrapping.
    for (from, to, pattern) in [
        ((1, 1028), (16384, 1), 6),
        ((1, 1029), (16384, 1), 6),
        ((1, 1031), (16384, 1), 6),
        ((2, 2060), (16384, 2), 0),
        ((3, 1500), (12000, 1), 6),
        ((16384, 257), (1, 1), 6),
        ((16384, 1028), (1, 1), 6),
        ((16384, 1029), (1, 1), 6),
    ] {
        l.scale(from.0 % 3, from, to, pattern);
    }
    // Refusals 1 and 2.
    let good = Sizes { w: 5, h: 4, x: 1, y: 1, cw: 3, ch: 2, tw: 2, th: 3, ..Sizes::PICTURE };
    let max = u32::MAX;
    for s in [
        Sizes { w: 0, ..good },
        Sizes { h: 0, ..good },
        Sizes { w: 16385, ..good },
        Sizes { h: max, ..good },
        Sizes { tw: 0, ..good },
        Sizes { th: 0, ..good },
        Sizes { tw: 16385, ..good },
        Sizes { th: 16385, ..good },
        Sizes { cw: 0, ..good },
        Sizes { ch: 0, ..good },
        Sizes { cw: 5, ..good },
        Sizes { ch: 4, ..good },
        Sizes { x: 3, ..good },
        Sizes { y: 3, ..good },
        Sizes { x: max, ..good },
        Sizes { y: max, cw: 1, ..good },
        Sizes { cw: max, ..good },
        Sizes { ch: max, ..good },
        Sizes { cw: 0, x: 9, ..good },
        Sizes { cw: 16385, ..good },
    ] {
        l.add(0, s, 0);
        l.add(2, Sizes { tw: 0, th: 0, ..s }, 0);
    }
    // Sizes from one side.
    for (w, h, tw, th) in [
        (3, 2, 0, 1),
        (3, 2, 1, 0),
        (3, 2, 0, 0),
        (3, 2, 5, 7),
        (1, 16384, 2, 0),
        (1, 16384, 1, 0),
        (16384, 1, 0, 1),
        (16384, 1, 0, 2),
        (16384, 16384, 0, 16384),
        (16384, 16383, 0, 16384),
        (100, 75, 0, 33),
        (100, 75, 33, 0),
        (7, 7, 16385, 0),
        (7, 7, 16385, 1),
        (7, 7, 0, max),
        (0, 7, 1, 1),
        (7, 16385, 1, 1),
    ] {
        l.add(1, Sizes { w, h, tw, th, ..Sizes::PICTURE }, 0);
    }
    // Alpha planes.
    for i in 0..12 {
        l.add(3, Sizes { layout: i % 3, w: r.within(1, 20), h: r.within(1, 20), ..Sizes::PICTURE }, i % PATTERNS);
    }
    format!("{}\n{}", l.entries, l.text)
}
