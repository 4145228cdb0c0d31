//! Pictures that the tests cut up.

use jonquilsaw::{Dimensions, Image, PixelLayout, Rect};

pub fn size(width: u32, height: u32) -> Dimensions {
    Dimensions::new(width, height).unwrap()
}

/// Bytes that differ from place to place, alpha among them.
pub fn bytes(len: usize) -> Vec<u8> {
    (0..len as u64).map(|i| (i.wrapping_mul(2_654_435_769) >> 23).to_le_bytes()[0]).collect()
}

/// Growing, shrinking and equal sides on both axes; crops that leave rows above and below.
pub fn cases() -> Vec<(Dimensions, PixelLayout, Rect, Dimensions)> {
    let mut cases = Vec::new();
    for (source, crop, target) in [
        (size(2, 3), Rect::new(0, 0, 2, 3), size(1, 2)),
        (size(2, 3), Rect::new(0, 0, 2, 3), size(3, 5)),
        (size(3, 2), Rect::new(0, 0, 3, 2), size(3, 2)),
        (size(3, 4), Rect::new(1, 1, 2, 2), size(2, 1)),
        (size(2, 4), Rect::new(1, 1, 1, 2), size(2, 5)),
        (size(1, 3), Rect::new(0, 0, 1, 1), size(1, 4)),
    ] {
        for layout in [PixelLayout::Rgba8, PixelLayout::Argb8, PixelLayout::Bgra8] {
            cases.push((source, layout, crop, target));
        }
    }
    cases
}

pub fn whole(source: Dimensions, layout: PixelLayout, crop: Rect, target: Dimensions, picture: &[u8]) -> Image {
    Image::new(source, layout, picture.to_vec()).unwrap().crop(crop).unwrap().resize(target)
}
