//! A badge on an opaque background, without the feature `std` too: against a model of document 01's matte, each refusal in its order, and that a refused call
//! leaves the background as it was.

use jonquilsaw::{Dimensions, Error, ImageRef, PixelLayout, Side, lay_badge};

const LAYOUTS: [PixelLayout; 3] = [PixelLayout::Rgba8, PixelLayout::Argb8, PixelLayout::Bgra8];

/// Document 01's `mult_argb` for one colour: (c × k + 2^23) / 2^24 with k = 65793 × alpha, where alpha 255 changes nothing and 0 gives 0.
fn matte(colour: u8, alpha: u8) -> u32 {
    match alpha {
        0 => 0,
        255 => u32::from(colour),
        _ => u32::try_from((u64::from(colour) * 65793 * u64::from(alpha) + (1 << 23)) / (1 << 24)).unwrap(),
    }
}

/// Document 02's request 8, for one colour; its sum is never above 255.
fn laid(alpha: u8, colour: u8, under: u8) -> u8 {
    match alpha {
        0 => under,
        255 => colour,
        _ => u8::try_from(matte(colour, alpha) + matte(under, 255 - alpha)).unwrap(),
    }
}

/// Red, green, blue and alpha in the order of a layout.
fn packed(layout: PixelLayout, [r, g, b, a]: [u8; 4]) -> [u8; 4] {
    match layout {
        PixelLayout::Argb8 => [a, r, g, b],
        PixelLayout::Bgra8 => [b, g, r, a],
        _ => [r, g, b, a],
    }
}

/// A picture of red, green, blue and alpha for each pixel, in the order of a layout.
fn picture(layout: PixelLayout, pixels: &[[u8; 4]]) -> Vec<u8> {
    pixels.iter().flat_map(|&pixel| packed(layout, pixel)).collect()
}

/// What the badge's pixel makes of the background's.
fn over([r, g, b, a]: [u8; 4], under: [u8; 4]) -> [u8; 4] {
    [laid(a, r, under[0]), laid(a, g, under[1]), laid(a, b, under[2]), 255]
}

#[test]
fn values_by_hand() -> Result<(), Error> {
    let size = Dimensions::new(5, 1)?;
    // A matted colour is c × k / 2^24 rounded, and k / 2^24 is a little below alpha / 255. By alpha 128, and the background by 127: 200 on 100 is 100.4 and
    // 49.8, 255 on 0 is 127.99 and 0, 1 on 255 is 0.502 and 126.99. By alpha 1, on black: 127, 128 and 255 are 0.498, 0.502 and 0.99. By alpha 254, and the
    // background by 1: 127 on 127 is 126.502 and 0.498, 128 on 128 is 127.498 and 0.502, 1 on 255 is 0.996 and 0.99.
    let badge = [[200, 100, 50, 0], [200, 100, 50, 255], [200, 255, 1, 128], [127, 128, 255, 1], [127, 128, 1, 254]];
    let under = [[1, 2, 3, 255], [1, 2, 3, 255], [100, 0, 255, 255], [0, 0, 0, 255], [127, 128, 255, 255]];
    let wanted = [[1, 2, 3, 255], [200, 100, 50, 255], [150, 128, 128, 255], [0, 1, 1, 255], [127, 128, 2, 255]];
    let mut pixels = picture(PixelLayout::Rgba8, &under);
    lay_badge(size, PixelLayout::Rgba8, &mut pixels, ImageRef::new(size, PixelLayout::Rgba8, badge.as_flattened())?)?;
    assert_eq!(pixels, wanted.as_flattened());
    // The model is of one mind with the hand.
    for (i, wanted) in wanted.into_iter().enumerate() {
        assert_eq!(over(badge[i], under[i]), wanted);
    }
    Ok(())
}

/// Colours that differ from lane to lane, so that one in another's place would show; alpha 0, 255 and all between those. What stands beside the slices stays.
#[test]
fn every_pair_of_layouts() -> Result<(), Error> {
    let size = Dimensions::new(32, 16)?;
    let shade = |i: usize, k: usize| ((i * (2 * k + 3) * 89 + 53 * k) % 256).to_le_bytes()[0];
    let badge: Vec<_> = (0..512).map(|i| [shade(i, 0), shade(i, 1), shade(i, 2), (i % 256).to_le_bytes()[0]]).collect();
    let under: Vec<_> = (0..512).map(|i| [shade(i, 3), shade(i, 4), shade(i, 5), 255]).collect();
    let wanted: Vec<_> = badge.iter().zip(&under).map(|(&badge, &under)| over(badge, under)).collect();
    for layout in LAYOUTS {
        for from in LAYOUTS {
            let lent = picture(from, &badge);
            let mut room = [vec![7; 3], picture(layout, &under), vec![9; 5]].concat();
            let pixels = &mut room[3..][..size.byte_len()];
            lay_badge(size, layout, pixels, ImageRef::new(size, from, &lent)?)?;
            assert_eq!(ImageRef::new(size, layout, pixels).map(ImageRef::has_alpha), Ok(false));
            assert_eq!(room, [vec![7; 3], picture(layout, &wanted), vec![9; 5]].concat(), "{from:?} on {layout:?}");
            assert_eq!(lent, picture(from, &badge));
        }
    }
    Ok(())
}

/// A row for each of the badge's colours, with three of the background's in each pixel.
#[test]
fn every_colour_on_every_colour_under_every_alpha() -> Result<(), Error> {
    let size = Dimensions::new(86, 256)?;
    let row: Vec<_> = (0..86_u8).flat_map(|x| [3 * x, (3 * x).saturating_add(1), (3 * x).saturating_add(2), 255]).collect();
    let background = row.repeat(256);
    for alpha in 0..=255 {
        let badge: Vec<_> = (0..=255).flat_map(|c| [c, c, c, alpha].repeat(86)).collect();
        let mut pixels = background.clone();
        lay_badge(size, PixelLayout::Rgba8, &mut pixels, ImageRef::new(size, PixelLayout::Rgba8, &badge)?)?;
        for (c, made) in (0..=255).zip(pixels.chunks_exact(size.row_len())) {
            let wanted = row.iter().zip(0..).map(|(&under, i)| if i % 4 == 3 { 255 } else { laid(alpha, c, under) });
            assert!(wanted.eq(made.iter().copied()), "{c} with alpha {alpha}");
        }
    }
    Ok(())
}

#[test]
fn the_longest_sides() -> Result<(), Error> {
    for (width, height) in [(16384, 1), (1, 16384)] {
        let size = Dimensions::new(width, height)?;
        let (mut pixels, badge) = ([1, 2, 3, 255].repeat(16384), [128, 4, 5, 6].repeat(16384));
        lay_badge(size, PixelLayout::Bgra8, &mut pixels, ImageRef::new(size, PixelLayout::Argb8, &badge)?)?;
        assert_eq!(pixels, packed(PixelLayout::Bgra8, over([4, 5, 6, 128], [3, 2, 1, 255])).repeat(16384));
    }
    Ok(())
}

/// 1 where a size is made, 3 where the badge is borrowed; then by the call 3, 15 and 16, in this order.
#[test]
fn refusals_in_their_order() -> Result<(), Error> {
    assert_eq!(Dimensions::new(2, 0), Err(Error::InvalidDimensions { side: Side::Height, value: 0 }));
    let size = Dimensions::new(2, 3)?;
    for found in [0, 20, 23, 25] {
        assert_eq!(ImageRef::new(size, PixelLayout::Bgra8, &vec![255; found]).err(), Some(Error::PixelBufferMismatch { expected: 24, found }));
    }
    // 3 by 2 has as many bytes as 2 by 3.
    let others = [(3, 2), (2, 2), (1, 3), (16384, 1)].map(|(width, height)| Dimensions::new(width, height).unwrap());
    for layout in LAYOUTS {
        let alpha = layout.alpha_byte_offset();
        let opaque = picture(layout, &[[10, 20, 30, 255]; 6]);
        let mut clear = opaque.clone();
        clear[20 + alpha] = 254;
        for badge_size in [size].into_iter().chain(others) {
            let badge = vec![128; badge_size.byte_len()];
            let badge = ImageRef::new(badge_size, PixelLayout::Argb8, &badge)?;
            for kept in [&opaque, &clear] {
                // Too few and too many bytes, ahead of the others.
                for found in [0, 4, 23, 25, 28] {
                    let lent: Vec<_> = kept.iter().copied().cycle().take(found).collect();
                    let mut pixels = lent.clone();
                    assert_eq!(lay_badge(size, layout, &mut pixels, badge), Err(Error::PixelBufferMismatch { expected: 24, found }));
                    assert_eq!(pixels, lent);
                }
                let mut pixels = kept.clone();
                let answer = match (badge_size == size, kept == &opaque) {
                    (false, _) => Err(Error::UnequalSizes { background: size, badge: badge_size }),
                    (true, false) => Err(Error::BackgroundNotOpaque),
                    (true, true) => Ok(()),
                };
                assert_eq!(lay_badge(size, layout, &mut pixels, badge), answer);
                assert_eq!(pixels == *kept, answer.is_err());
            }
        }
        // One alpha byte in any pixel, under a badge that would hide it, leave it or blend it.
        for (place, value, over) in
            (0..6).flat_map(|place| [0, 1, 254].into_iter().flat_map(move |value| [0, 128, 255].map(move |over| (place, value, over))))
        {
            let mut kept = opaque.clone();
            kept[4 * place + alpha] = value;
            let mut pixels = kept.clone();
            assert_eq!(lay_badge(size, layout, &mut pixels, ImageRef::new(size, layout, &[over; 24])?), Err(Error::BackgroundNotOpaque));
            assert_eq!(pixels, kept);
        }
        // A colour is no alpha: one of 0 is taken, and so is a badge of any alpha.
        let mut black = picture(layout, &[[0, 0, 0, 255]; 6]);
        assert_eq!(lay_badge(size, layout, &mut black, ImageRef::new(size, layout, &[0; 24])?), Ok(()));
        assert_eq!(black, picture(layout, &[[0, 0, 0, 255]; 6]));
    }
    Ok(())
}

#[cfg(feature = "std")]
#[test]
fn pictures_that_own_their_pixels() -> Result<(), Error> {
    use jonquilsaw::{Image, pam};
    let (size, other) = (Dimensions::new(2, 1)?, Dimensions::new(1, 2)?);
    let mut background = Image::new(size, PixelLayout::Bgra8, vec![255, 0, 100, 255, 9, 8, 7, 255])?;
    let badge = Image::new(size, PixelLayout::Rgba8, vec![200, 255, 0, 128, 4, 5, 6, 0])?;
    let turned = Image::new(other, PixelLayout::Rgba8, badge.as_bytes().to_vec())?;
    let kept = background.clone();
    assert_eq!(background.lay_badge(&turned), Err(Error::UnequalSizes { background: size, badge: other }));
    assert_eq!(background, kept);
    let mut clear = badge.clone();
    assert_eq!(clear.lay_badge(&turned), Err(Error::UnequalSizes { background: size, badge: other }));
    assert_eq!(clear.lay_badge(&background), Err(Error::BackgroundNotOpaque));
    assert_eq!((&clear, clear.has_alpha()), (&badge, true));

    let laid = Image::new(size, PixelLayout::Bgra8, vec![127, 128, 150, 255, 9, 8, 7, 255])?;
    background.lay_badge(&badge)?;
    assert_eq!((&background, background.has_alpha()), (&laid, false));

    // A badge borrowed from a PAM picture, on another copy: nothing of it is copied.
    let mut file = vec![0; pam::file_len(size)];
    pam::write(size, badge.as_bytes(), &mut file)?;
    let mut again = kept;
    again.lay_badge(pam::read(&file)?)?;
    assert_eq!(again, laid);

    // A trial of docs/SCOPE.md: white comes out with an alpha of 254, and takes a badge once it is opaque.
    let mut white = Image::new(Dimensions::new(1, 6)?, PixelLayout::Rgba8, vec![255; 24])?.resize(Dimensions::new(1, 5)?);
    let clear = Image::new(white.dimensions(), PixelLayout::Rgba8, vec![0; 20])?;
    assert_eq!(white.lay_badge(&clear), Err(Error::BackgroundNotOpaque));
    white.apply_alpha_plane(&[255; 5])?;
    white.lay_badge(&clear)?;
    assert_eq!(white.as_bytes(), [255; 20]);
    Ok(())
}
