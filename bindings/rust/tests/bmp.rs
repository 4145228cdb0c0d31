//! The example of BMP files: the same picture in each form is the preview of the same pixels fed from the top, and a file that is wrong anywhere is told.
#![cfg(feature = "std")]

#[allow(dead_code)]
#[path = "../examples/bmp.rs"]
mod bmp;

use jonquilsaw::{Dimensions, ImageRef, PixelLayout, Preview, Rect, pam};
use std::io::{self, Cursor};

/// Red, green and blue of a pixel, no two alike.
fn colours(x: u32, y: u32) -> [u8; 3] {
    [7 * x + 3 * y, 90 + 11 * y, 40 + 5 * x * y].map(|value| value.to_le_bytes()[0])
}

/// A file, with a header of so many bytes and `gap` bytes behind it. What no reader may look at is 0xee.
fn file((width, height): (u32, u32), bits: u8, top_down: bool, header: u32, gap: u32) -> Vec<u8> {
    let mut file =
        [&b"BM\xee\xee\xee\xee\xee\xee\xee\xee"[..], &(14 + header + gap).to_le_bytes(), &header.to_le_bytes(), &width.to_le_bytes()].concat();
    let signed = i32::try_from(height).unwrap();
    file.extend(if top_down { -signed } else { signed }.to_le_bytes());
    file.extend([1, 0, bits, 0, 0, 0, 0, 0]);
    file.resize((14 + header + gap) as usize, 0xee);
    for y in 0..height {
        for [r, g, b] in (0..width).map(|x| colours(x, if top_down { y } else { height - 1 - y })) {
            file.extend_from_slice(&[b, g, r, 0xee][..usize::from(bits / 8)]);
        }
        let place = file.len() - (14 + header + gap) as usize;
        file.resize(file.len() + (4 - place % 4) % 4, 0xee);
    }
    file
}

/// The same pixels, opaque, fed from the top.
fn fed((width, height): (u32, u32), target: (u32, u32)) -> Vec<u8> {
    let source = Dimensions::new(width, height).unwrap();
    let target = source.scaled(target.0, target.1).unwrap();
    let pixels: Vec<_> = (0..height).flat_map(|y| (0..width).map(move |x| colours(x, y))).flat_map(|[r, g, b]| [r, g, b, 255]).collect();
    let mut out = pam::write_header(target, &mut [0; pam::MAX_HEADER_LEN]).to_vec();
    let mut preview = Preview::new(source, PixelLayout::Rgba8, Rect::of(source), target).unwrap();
    preview.feed(&pixels, |row| out.extend_from_slice(row)).unwrap();
    out
}

fn made(file: &[u8], target: (u32, u32)) -> io::Result<Vec<u8>> {
    let mut out = Vec::new();
    bmp::preview(Cursor::new(file), &mut out, target.0, target.1).map(|_| out)
}

#[test]
fn every_form_is_the_picture_fed_from_the_top() {
    for size in [(1, 1), (2, 7), (3, 5), (4, 4), (5, 16), (9, 1), (31, 23)] {
        for target in [(1, 0), (0, 1), (3, 2), (0, size.1), (7, 5), (40, 3), (2, 30)] {
            let wanted = fed(size, target);
            for (bits, top_down) in [(24, false), (32, false), (24, true), (32, true)] {
                for (header, gap) in [(40, 0), (108, 0), (124, 5)] {
                    let file = file(size, bits, top_down, header, gap);
                    assert!(made(&file, target).unwrap() == wanted, "{size:?} to {target:?}, {bits} bits, header {header}");
                    // What follows the rows says nothing.
                    assert!(made(&[&file[..], &[1, 2, 3]].concat(), target).unwrap() == wanted);
                }
            }
        }
    }
}

#[test]
fn what_is_wrong_is_told() {
    let right = file((5, 4), 24, false, 40, 0);
    let told = |file: &[u8]| made(file, (2, 0)).unwrap_err().to_string();
    for length in 0..right.len() {
        let said = if length < 34 { "the file ends inside its header" } else { "the file ends before its last row" };
        assert_eq!(told(&right[..length]), said, "{length} bytes");
    }
    let with = |at: usize, bytes: &[u8]| {
        let mut file = right.clone();
        file[at..at + bytes.len()].copy_from_slice(bytes);
        told(&file)
    };
    let (no_bmp, kind) = ("this is no BMP file with a BITMAPINFOHEADER", "only 24 or 32 bits a pixel without compression are read");
    for (at, bytes, said) in [
        (0, &b"BA"[..], no_bmp),
        (14, &[12, 0, 0, 0], no_bmp),
        (14, &[39, 0, 0, 0], no_bmp),
        (14, &[41, 0, 0, 0], "the rows begin inside the header"),
        (14, &[255, 255, 255, 255], "the rows begin inside the header"),
        (10, &[53, 0, 0, 0], "the rows begin inside the header"),
        (10, &[55, 0, 0, 0], "the file ends before its last row"),
        (10, &[255, 255, 255, 255], "the file ends before its last row"),
        (26, &[0, 0], kind),
        (26, &[2, 0], kind),
        (28, &[8, 0], kind),
        (28, &[24, 1], kind),
        (28, &[16, 0], kind),
        (30, &[1, 0, 0, 0], kind),
        (30, &[0, 0, 0, 3], kind),
        (28, &[32, 0], "the file ends before its last row"),
        (18, &[0, 0, 0, 0], "the width is 0: a side is 1 to 16384"),
        (18, &[255, 255, 255, 255], "the width is 4294967295: a side is 1 to 16384"),
        (22, &[0, 0, 0, 0], "the height is 0: a side is 1 to 16384"),
        (22, &[0, 0, 0, 128], "the height is 2147483648: a side is 1 to 16384"),
        (22, &[1, 64, 0, 0], "the height is 16385: a side is 1 to 16384"),
        // As large as can be: nothing is made ready for rows that the file lacks.
        (18, &[0, 64, 0, 0, 0, 64, 0, 0], "the file ends before its last row"),
        (18, &[0, 64, 0, 0, 0, 192, 255, 255], "the file ends before its last row"),
    ] {
        assert_eq!(with(at, bytes), said, "{bytes:?} at {at}");
    }
    assert_eq!(made(&right, (0, 0)).unwrap_err().to_string(), "the width is 0: a side is 1 to 16384");
    assert_eq!(made(&right, (16385, 1)).unwrap_err().to_string(), "the width is 16385: a side is 1 to 16384");
}

/// Any two bytes of the header with any of some values: a preview or an error, and no preview of a size that was not asked for.
#[test]
fn headers_with_any_bytes() {
    let right = file((3, 5), 32, false, 40, 0);
    let values = [0, 1, 2, 3, 24, 32, 40, 54, 127, 128, 255];
    let mut accepted = 0;
    for (first, second) in (0..34).flat_map(|first| (0..=first).map(move |second| (first, second))) {
        for (a, b) in values.into_iter().flat_map(|a| values.map(|b| (a, b))) {
            let mut file = right.clone();
            file[first] = a;
            file[second] = b;
            if let Ok(out) = made(&file, (2, 2)) {
                accepted += 1;
                assert_eq!(pam::read(&out).map(ImageRef::dimensions), Dimensions::new(2, 2));
            }
        }
    }
    assert!(accepted > 0);
}
