//! Restored pixels: a colour stops at 255 in its own lane, so that a pixel's alpha is the scaled one, and the flag that of the scaled alphas.
#![cfg(feature = "std")]

use jonquilsaw::{Dimensions, GroupPreview, Image, Job, PixelLayout, Plan, Preview, Rect};

const LAYOUTS: [PixelLayout; 3] = [PixelLayout::Rgba8, PixelLayout::Argb8, PixelLayout::Bgra8];

fn size(width: u32, height: u32) -> Dimensions {
    Dimensions::new(width, height).unwrap()
}

/// The pixel 0xAARRGGBB in a layout's order.
fn packed(layout: PixelLayout, argb: u32) -> [u8; 4] {
    let [a, r, g, b] = argb.to_be_bytes();
    match layout {
        PixelLayout::Rgba8 => [r, g, b, a],
        PixelLayout::Argb8 => [a, r, g, b],
        PixelLayout::Bgra8 => [b, g, r, a],
        _ => unreachable!(),
    }
}

/// The rows and the flag of a picture whose rows are offered singly.
fn by_rows(source: Dimensions, layout: PixelLayout, target: Dimensions, picture: &[u8]) -> (Vec<u8>, bool) {
    let mut work = vec![7; target.work_len()];
    let mut job = Job::start(source, layout, Rect::of(source), target, &mut work).unwrap();
    let (mut rows, mut row) = (Vec::new(), vec![0; job.out_len()]);
    for offered in picture.chunks(job.row_len()) {
        assert_eq!(job.offer(offered, &mut work), Ok(1));
        while job.take(&mut row, &mut work).is_ok() {
            rows.extend_from_slice(&row);
        }
    }
    assert!(job.is_done());
    (rows, job.has_alpha())
}

/// Opaque blue 2, one column made the widest row. The sum of alpha wraps from 1,029 rows on; up to 1,030 the rest makes 0, and of 1,031 it makes 1: the fewest
/// rows with a scaled colour above an alpha that is not 0.
#[test]
fn the_fewest_rows_with_a_colour_above_its_alpha() {
    let target = size(16384, 1);
    for (height, made, flag) in [(1028, 0xff00_0002, false), (1030, 0, true), (1031, 0x0100_00ff, true)] {
        let source = size(1, height);
        for layout in LAYOUTS {
            let picture = packed(layout, 0xff00_0002).repeat(height as usize);
            let expected = packed(layout, made).repeat(16384);
            let whole = Image::new(source, layout, picture.clone()).unwrap().resize(target);
            assert!(whole.as_bytes() == expected && whole.has_alpha() == flag, "{height} rows, {layout:?}, whole");
            assert!(by_rows(source, layout, target, &picture) == (expected.clone(), flag), "{height} rows, {layout:?}, by rows");

            let mut preview = Preview::new(source, layout, Rect::of(source), target).unwrap();
            let mut rows = Vec::new();
            for piece in picture.chunks(7) {
                preview.feed(piece, |row| rows.extend_from_slice(row)).unwrap();
            }
            assert!(rows == expected && preview.finish() == Ok(flag), "{height} rows, {layout:?}, in pieces");

            // Beside a preview of one pixel, whose sums are far from wrapping.
            let plans = [size(1, 1), target].map(|target| Plan::picture(source, layout, Rect::of(source), target));
            let mut previews = GroupPreview::new(&plans).unwrap();
            let mut rows = [const { Vec::new() }; 2];
            previews.feed(&picture, |job, row| rows[job].extend_from_slice(row)).unwrap();
            assert!(rows == [packed(layout, 0xff00_0002).to_vec(), expected], "{height} rows, {layout:?}, in a group");
            assert_eq!(previews.finish(), Ok(vec![false, flag]));
        }
    }
}

/// A job of one pixel whose row is ready. Its first four work values are the scaled lanes, blue, green, red and alpha, and the others play no part: a take with
/// values of the test's own restores the pixel that they are.
fn one_pixel(layout: PixelLayout) -> Job {
    let (one, mut work) = (size(1, 1), [0; 8]);
    let mut job = Job::start(one, layout, Rect::of(one), one, &mut work).unwrap();
    assert_eq!(job.offer(&packed(layout, 0xff12_3456), &mut work), Ok(1));
    assert_eq!(work[..4], [0x56, 0x34, 0x12, 0xff]);
    job
}

/// The pixel and the flag that the job makes of a scaled pixel 0xAARRGGBB.
fn restored(ready: &Job, argb: u32) -> ([u8; 4], bool) {
    let (mut job, mut out) = (ready.clone(), [0; 4]);
    let [blue, green, red, alpha] = argb.to_le_bytes().map(u32::from);
    job.take(&mut out, &mut [blue, green, red, alpha, 0, 0, 0, 0]).unwrap();
    (out, job.has_alpha())
}

/// The rule of docs/SCOPE.md for a colour under an alpha of 1 to 254.
fn rule(colour: u32, alpha: u32) -> u32 {
    let k = (255 << 24) / u64::from(alpha);
    u32::try_from((u64::from(colour) * k + (1 << 23)) >> 24).unwrap().min(255)
}

/// The three colours differ, so that a lane that took a bit of another, or its byte, would show.
#[test]
fn every_colour_under_every_alpha_in_each_lane() {
    for layout in LAYOUTS {
        let job = one_pixel(layout);
        for (alpha, colour) in (1..=254).flat_map(|alpha| (0..=255).map(move |colour| (alpha, colour))) {
            for [red, green, blue] in [[colour, 0, 255 - colour], [255 - colour, colour, 0], [0, 255 - colour, colour]] {
                let scaled = alpha << 24 | red << 16 | green << 8 | blue;
                let expected = alpha << 24 | rule(red, alpha) << 16 | rule(green, alpha) << 8 | rule(blue, alpha);
                assert_eq!(restored(&job, scaled), (packed(layout, expected), true), "{scaled:08X} {layout:?}");
            }
        }
    }
}

/// Red above its alpha does not make a pixel opaque, as 255 under 1 would if its high byte ran into the alpha; under the alphas 0 and 255 nothing is restored.
#[test]
fn the_flag_is_that_of_the_scaled_alpha() {
    for layout in LAYOUTS {
        let job = one_pixel(layout);
        for (scaled, expected, flag) in [
            (0x0100_0002, 0x0100_00ff, true),
            (0x01ff_0000, 0x01ff_0000, true),
            (0x01ff_ffff, 0x01ff_ffff, true),
            (0x00ff_ffff, 0, true),
            (0xffff_0002, 0xffff_0002, false),
        ] {
            assert_eq!(restored(&job, scaled), (packed(layout, expected), flag), "{scaled:08X} {layout:?}");
        }
    }
}
