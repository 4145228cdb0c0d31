//! Previews of pictures whose bytes come in pieces, against the same picture scaled whole.

#![cfg(feature = "std")]

mod pictures;

use jonquilsaw::{Dimensions, Error, PixelLayout, Preview, PreviewError, Rect};
use pictures::{bytes, cases, size, whole};

/// Pushes the pieces one after another and gathers the rows.
fn gather<'a>(preview: &mut Preview, pieces: impl IntoIterator<Item = &'a [u8]>) -> Vec<u8> {
    let mut rows = Vec::new();
    for mut piece in pieces {
        while !piece.is_empty() {
            let taken = preview.push(piece).unwrap();
            assert!(taken > 0);
            piece = &piece[taken..];
            while let Some(row) = preview.next_row() {
                rows.extend_from_slice(row);
            }
        }
    }
    rows
}

#[test]
fn cut_at_every_two_places() {
    for (source, layout, crop, target) in cases() {
        let picture = bytes(source.byte_len());
        let expected = whole(source, layout, crop, target, &picture);
        for first in 0..=picture.len() {
            for second in first..=picture.len() {
                let mut preview = Preview::new(source, layout, crop, target).unwrap();
                let rows = gather(&mut preview, [&picture[..first], &picture[first..second], &picture[second..]]);
                assert_eq!(rows, expected.as_bytes(), "{source:?} {layout:?} {crop:?} {target:?} cut at {first} and {second}");
                assert!(preview.is_done());
                assert_eq!(preview.finish(), Ok(expected.has_alpha()));
            }
        }
    }
}

#[test]
fn pieces_of_every_length() {
    for (source, layout, crop, target) in cases() {
        let picture = bytes(source.byte_len());
        let expected = whole(source, layout, crop, target, &picture);
        for length in 1..=picture.len() {
            let mut preview = Preview::new(source, layout, crop, target).unwrap();
            assert_eq!(gather(&mut preview, picture.chunks(length)), expected.as_bytes());
            let mut preview = Preview::new(source, layout, crop, target).unwrap();
            let mut rows = Vec::new();
            for piece in picture.chunks(length) {
                preview.feed(piece, |row| rows.extend_from_slice(row)).unwrap();
            }
            assert_eq!(rows, expected.as_bytes());
        }
    }
}

#[test]
fn larger_picture_in_uneven_pieces() {
    let (source, crop, target) = (size(301, 207), Rect::new(17, 20, 250, 180), size(64, 47));
    let picture = bytes(source.byte_len());
    let expected = whole(source, PixelLayout::Bgra8, crop, target, &picture);
    let mut preview = Preview::new(source, PixelLayout::Bgra8, crop, target).unwrap();
    let mut rest = &picture[..];
    let mut rows = Vec::new();
    for step in 1.. {
        if rest.is_empty() {
            break;
        }
        let (piece, after) = rest.split_at(rest.len().min(step * 7919 % 5003));
        preview.feed(piece, |row| rows.extend_from_slice(row)).unwrap();
        rest = after;
    }
    assert!(rows == expected.as_bytes());
}

#[test]
fn rows_are_handed_out_as_early_as_the_job_has_them() {
    // One preview row for two source rows of 4 bytes.
    let source = size(1, 6);
    let mut preview = Preview::new(source, PixelLayout::Rgba8, Rect::of(source), size(1, 3)).unwrap();
    for at in 1..=24 {
        assert_eq!(preview.push(&[255]), Ok(1));
        assert_eq!(preview.next_row().is_some(), at % 8 == 0, "byte {at}");
        assert_eq!(preview.next_row(), None);
        assert_eq!(preview.missing(), 24 - at);
        assert_eq!(preview.is_done(), at == 24);
    }
}

#[test]
fn done_before_the_bytes_below_the_crop() {
    let mut preview = Preview::new(size(1, 3), PixelLayout::Rgba8, Rect::new(0, 0, 1, 1), size(1, 1)).unwrap();
    let mut rows = 0;
    preview.feed(&[255; 5], |_| rows += 1).unwrap();
    assert!(rows == 1 && preview.is_done());
    assert_eq!(preview.finish(), Err(PreviewError::EndsEarly { missing: 7 }));
    preview.feed(&[255; 7], |_| rows += 1).unwrap();
    assert_eq!((rows, preview.finish()), (1, Ok(false)));
}

#[test]
fn bad_sizes() {
    for (crop, number) in [(Rect::new(0, 0, 1, 0), 1), (Rect::new(1, 0, 2, 1), 2), (Rect::new(0, u32::MAX, 1, 1), 2)] {
        let why = Preview::new(size(2, 2), PixelLayout::Rgba8, crop, size(1, 1)).unwrap_err();
        assert_eq!((why.number(), Err(why)), (number, crop.fits(size(2, 2))));
    }
}

#[test]
fn a_row_that_is_not_taken_holds_the_bytes_back() {
    let source = size(1, 2);
    let picture = bytes(8);
    let mut preview = Preview::new(source, PixelLayout::Rgba8, Rect::of(source), source).unwrap();
    assert_eq!(preview.push(&[]), Ok(0));
    assert_eq!(preview.push(&picture), Ok(4));
    for _ in 0..2 {
        assert_eq!(preview.push(&picture[4..]), Err(PreviewError::RowReady));
        assert_eq!(preview.push(&[]), Ok(0));
        assert!(!preview.is_done());
    }
    let mut rows = preview.next_row().unwrap().to_vec();
    assert_eq!(preview.push(&picture[4..]), Ok(4));
    // The last row is ready: one byte more makes the preview look, and it is not done by that.
    assert_eq!(preview.push(&[0]), Err(PreviewError::RowReady));
    assert!(!preview.is_done());
    assert_eq!(preview.finish(), Err(PreviewError::RowReady));
    rows.extend_from_slice(preview.next_row().unwrap());
    assert_eq!(rows, whole(source, PixelLayout::Rgba8, Rect::of(source), source, &picture).into_pixels());
    assert_eq!(preview.finish(), Ok(true));
}

#[test]
fn too_many_bytes_lose_nothing() {
    for (source, layout, crop, target) in cases() {
        let picture = bytes(source.byte_len() + 2 * source.row_len() + 1);
        let expected = whole(source, layout, crop, target, &picture[..source.byte_len()]);
        let mut preview = Preview::new(source, layout, crop, target).unwrap();
        let mut rows = Vec::new();
        assert_eq!(preview.feed(&picture, |row| rows.extend_from_slice(row)), Err(PreviewError::TooManyBytes));
        assert_eq!(rows, expected.as_bytes());
        assert_eq!(preview.push(&[0]), Err(PreviewError::TooManyBytes));
        assert_eq!(preview.finish(), Ok(expected.has_alpha()));
    }
}

#[test]
fn one_kind_of_error_serves_for_both() {
    fn scaled(width: u32, picture: &[u8]) -> Result<Vec<u8>, PreviewError> {
        let source = Dimensions::new(width, 1)?;
        let mut preview = Preview::new(source, PixelLayout::Rgba8, Rect::of(source), Dimensions::new(1, 1)?)?;
        let mut rows = Vec::new();
        preview.feed(picture, |row| rows.extend_from_slice(row))?;
        preview.finish()?;
        Ok(rows)
    }
    assert_eq!(scaled(1, &[1, 2, 3, 255]), Ok(vec![1, 2, 3, 255]));
    assert_eq!(scaled(1, &[1, 2, 3]), Err(PreviewError::EndsEarly { missing: 1 }));
    assert_eq!(scaled(1, &[1, 2, 3, 4, 5]), Err(PreviewError::TooManyBytes));
    let refused = Dimensions::new(0, 1).unwrap_err();
    assert_eq!(scaled(0, &[]), Err(PreviewError::Refused(refused)));
    assert_eq!(scaled(0, &[]).unwrap_err().to_string(), "the width is 0: a side is 1 to 16384");
    for why in [Error::RowReady, Error::AllAccepted, Error::NoneReady, refused] {
        assert_eq!(Error::try_from(PreviewError::from(why)), Ok(why));
    }
    let early = PreviewError::EndsEarly { missing: 1 };
    assert_eq!(Error::try_from(early), Err(early));
}
