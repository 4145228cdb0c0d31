//! Sizes, byte orders and whole pictures.

use crate::boundary;
use crate::error::{Error, Given, Result, Side};
use crate::geometry::Rect;

/// The largest side of a picture or a plane.
pub const MAX_DIMENSION: u32 = 1 << 14;

/// The most lanes that a plane has.
pub const MAX_LANES: u32 = 4;

/// Bytes of a picture's pixel.
const PIXEL: usize = 4;

/// The size of a picture or a plane: both sides lie in `1..=16384`.
#[derive(Clone, Copy, PartialEq, Eq, Hash, Debug)]
pub struct Dimensions {
    width: u32,
    height: u32,
}

impl TryFrom<(u32, u32)> for Dimensions {
    type Error = Error;

    fn try_from((width, height): (u32, u32)) -> Result<Self> {
        Self::new(width, height)
    }
}

impl Dimensions {
    /// A size, with both sides tested.
    ///
    /// # Errors
    ///
    /// [`Error::InvalidDimensions`] if a side is 0 or above 16,384.
    pub const fn new(width: u32, height: u32) -> Result<Self> {
        if width == 0 || width > MAX_DIMENSION {
            return Err(Error::InvalidDimensions { side: Side::Width, value: width as u64 });
        }
        if height == 0 || height > MAX_DIMENSION {
            return Err(Error::InvalidDimensions { side: Side::Height, value: height as u64 });
        }
        Ok(Self { width, height })
    }

    /// The width in pixels.
    #[must_use]
    pub const fn width(self) -> u32 {
        self.width
    }

    /// The height in pixels.
    #[must_use]
    pub const fn height(self) -> u32 {
        self.height
    }

    /// How many pixels there are.
    #[must_use]
    pub const fn pixel_count(self) -> u64 {
        self.width as u64 * self.height as u64
    }

    /// The bytes of a picture's row: 4 × width.
    #[must_use]
    pub const fn row_len(self) -> usize {
        PIXEL * self.width as usize
    }

    /// The bytes of a picture: 4 × width × height, at most 2^30.
    #[must_use]
    pub const fn byte_len(self) -> usize {
        self.row_len() * self.height as usize
    }

    /// The work values of a picture's job whose target has this size: 8 × width.
    #[must_use]
    pub const fn work_len(self) -> usize {
        2 * PIXEL * self.width as usize
    }

    /// The bytes of a plane's row: lanes × width.
    #[must_use]
    pub const fn plane_row_len(self, lanes: u32) -> usize {
        lanes as usize * self.width as usize
    }

    /// The bytes of a plane: lanes × width × height.
    #[must_use]
    pub const fn plane_byte_len(self, lanes: u32) -> usize {
        self.plane_row_len(lanes) * self.height as usize
    }

    /// The work values of a plane's job whose target has this size: 2 × lanes × width.
    #[must_use]
    pub const fn plane_work_len(self, lanes: u32) -> usize {
        2 * self.plane_row_len(lanes)
    }

    /// The size of the chroma planes beside a luma plane of this size: half of each side, rounded up.
    ///
    /// ```
    /// use jonquilsaw::{Dimensions, Error};
    ///
    /// assert_eq!(Dimensions::new(641, 480)?.chroma(), Dimensions::new(321, 240)?);
    /// assert_eq!(Dimensions::new(1, 1)?.chroma(), Dimensions::new(1, 1)?);
    /// # Ok::<(), Error>(())
    /// ```
    #[must_use]
    pub const fn chroma(self) -> Self {
        Self { width: self.width.div_ceil(2), height: self.height.div_ceil(2) }
    }

    /// The size to scale to where a side of 0 is derived from the other, so that the ratio is kept; a derived side is rounded up.
    ///
    /// # Errors
    ///
    /// [`Error::InvalidDimensions`] if both sides are 0 or a side comes out above 16,384.
    ///
    /// ```
    /// use jonquilsaw::{Dimensions, Error};
    ///
    /// let size = Dimensions::new(3, 2)?;
    /// assert_eq!(size.scaled(0, 1), Dimensions::new(2, 1));
    /// assert!(matches!(size.scaled(0, 0), Err(Error::InvalidDimensions { .. })));
    /// # Ok::<(), Error>(())
    /// ```
    pub fn scaled(self, width: u32, height: u32) -> Result<Self> {
        match boundary::scaled(self.words(), [width, height]) {
            Ok(words) => Ok(Self::of_words(words)),
            Err(_) => Err(self.no_size(width, height)),
        }
    }

    /// Which side the size that was asked for does not have. Both are worked out, without a limit.
    fn no_size(self, width: u32, height: u32) -> Error {
        let derived = |side: u32, other: u64, of: u32| (u64::from(side) * other).div_ceil(u64::from(of));
        let wide = if width == 0 { derived(self.width, height.into(), self.height) } else { width.into() };
        let high = if height == 0 { derived(self.height, wide, self.width) } else { height.into() };
        let bad = |value: u64| value == 0 || value > u64::from(MAX_DIMENSION);
        if bad(wide) {
            Error::InvalidDimensions { side: Side::Width, value: wide }
        } else {
            Error::InvalidDimensions { side: Side::Height, value: high }
        }
    }

    pub(crate) const fn words(self) -> [u32; 2] {
        [self.width, self.height]
    }

    /// The size that the library told by two words: both are in range.
    pub(crate) const fn of_words([width, height]: [u32; 2]) -> Self {
        Self { width, height }
    }
}

/// The order of the bytes of a picture's pixel.
#[derive(Clone, Copy, PartialEq, Eq, Hash, Debug, Default)]
#[non_exhaustive]
pub enum PixelLayout {
    /// `R, G, B, A` (the default).
    #[default]
    Rgba8,
    /// `A, R, G, B`.
    Argb8,
    /// `B, G, R, A`.
    Bgra8,
}

impl PixelLayout {
    /// Where the alpha byte stands in a pixel: 3, but 0 for `Argb8`.
    #[must_use]
    pub const fn alpha_byte_offset(self) -> usize {
        match self {
            Self::Rgba8 | Self::Bgra8 => 3,
            Self::Argb8 => 0,
        }
    }

    /// The library's word for it.
    pub(crate) const fn word(self) -> u32 {
        match self {
            Self::Rgba8 => 0,
            Self::Argb8 => 1,
            Self::Bgra8 => 2,
        }
    }

    pub(crate) const fn of_word(word: u32) -> Option<Self> {
        match word {
            0 => Some(Self::Rgba8),
            1 => Some(Self::Argb8),
            2 => Some(Self::Bgra8),
            _ => None,
        }
    }
}

/// A picture that owns its pixels, with its alpha flag.
///
/// ```
/// use jonquilsaw::{Dimensions, Image, PixelLayout, Rect};
///
/// // 3 by 1, opaque grey.
/// let pixels = vec![10, 10, 10, 255, 21, 21, 21, 255, 30, 30, 30, 255];
/// let image = Image::new(Dimensions::new(3, 1)?, PixelLayout::Rgba8, pixels)?;
/// assert!(!image.has_alpha());
/// assert_eq!(image.resize(Dimensions::new(2, 1)?).as_bytes(), [14, 14, 14, 255, 27, 27, 27, 255]);
/// assert_eq!(image.crop(Rect::new(1, 0, 1, 1))?.as_bytes(), [21, 21, 21, 255]);
/// # Ok::<(), jonquilsaw::Error>(())
/// ```
#[cfg(feature = "std")]
#[derive(Clone, PartialEq, Eq, Hash, Debug)]
pub struct Image {
    dims: Dimensions,
    layout: PixelLayout,
    pixels: Vec<u8>,
    has_alpha: bool,
}

#[cfg(feature = "std")]
impl Image {
    /// A picture from its bytes; the alpha flag is found by looking at every alpha byte.
    ///
    /// # Errors
    ///
    /// [`Error::PixelBufferMismatch`] if `pixels` isn't 4 × width × height bytes.
    pub fn new(dims: Dimensions, layout: PixelLayout, pixels: Vec<u8>) -> Result<Self> {
        let has_alpha = ImageRef::new(dims, layout, &pixels)?.has_alpha();
        Ok(Self { dims, layout, pixels, has_alpha })
    }

    /// The size.
    #[must_use]
    pub const fn dimensions(&self) -> Dimensions {
        self.dims
    }

    /// The width in pixels.
    #[must_use]
    pub const fn width(&self) -> u32 {
        self.dims.width()
    }

    /// The height in pixels.
    #[must_use]
    pub const fn height(&self) -> u32 {
        self.dims.height()
    }

    /// The byte order of [`Self::as_bytes`].
    #[must_use]
    pub const fn layout(&self) -> PixelLayout {
        self.layout
    }

    /// The pixels, 4 × width × height bytes.
    #[must_use]
    pub fn as_bytes(&self) -> &[u8] {
        &self.pixels
    }

    /// The pixels alone.
    #[must_use]
    pub fn into_pixels(self) -> Vec<u8> {
        self.pixels
    }

    /// Whether any alpha byte isn't 255.
    #[must_use]
    pub const fn has_alpha(&self) -> bool {
        self.has_alpha
    }

    /// The picture, borrowed.
    #[must_use]
    pub fn as_image_ref(&self) -> ImageRef<'_> {
        ImageRef { dims: self.dims, layout: self.layout, pixels: &self.pixels }
    }

    /// Writes a plane of width × height bytes to the alpha bytes, and finds the flag anew.
    ///
    /// # Errors
    ///
    /// [`Error::PixelBufferMismatch`] if `alpha` isn't width × height bytes; the picture stays as it was.
    pub fn apply_alpha_plane(&mut self, alpha: &[u8]) -> Result<()> {
        let given = Given { pixels: (self.pixels.len() / PIXEL, alpha.len()), ..Given::default() };
        self.has_alpha =
            boundary::apply_alpha_plane(self.dims.words(), self.layout.word(), &mut self.pixels, alpha).map_err(|number| Error::of(number, given))?;
        Ok(())
    }

    /// Lays a badge of the same size on this picture, which has to be opaque and stays so: [`lay_badge`] says how. The badge may have another layout; this
    /// picture keeps its own.
    ///
    /// # Errors
    ///
    /// [`Error::UnequalSizes`], then [`Error::BackgroundNotOpaque`]; the picture stays as it was. An opaque picture can come out of [`resize`](Self::resize) with
    /// an alpha of 254 here and there: [`apply_alpha_plane`](Self::apply_alpha_plane) with 255 for each pixel makes it opaque.
    ///
    /// ```
    /// use jonquilsaw::{Dimensions, Error, Image, PixelLayout};
    ///
    /// let size = Dimensions::new(2, 1)?;
    /// let mut picture = Image::new(size, PixelLayout::Bgra8, vec![30, 20, 10, 255, 60, 50, 40, 255])?;
    /// let badge = Image::new(size, PixelLayout::Argb8, vec![255, 1, 2, 3, 0, 7, 8, 9])?;
    /// picture.lay_badge(&badge)?;
    /// assert_eq!(picture.as_bytes(), [3, 2, 1, 255, 60, 50, 40, 255]); // the badge, then the picture, where the badge's alpha is 0
    /// assert!(!picture.has_alpha());
    ///
    /// let mut other_way = badge;
    /// assert_eq!(other_way.lay_badge(&picture), Err(Error::BackgroundNotOpaque));
    /// # Ok::<(), Error>(())
    /// ```
    pub fn lay_badge<'a>(&mut self, badge: impl Into<ImageRef<'a>>) -> Result<()> {
        // Laid on or refused, the flag is what it was: a picture that takes a badge is opaque before and after.
        lay_badge(self.dims, self.layout, &mut self.pixels, badge)
    }

    /// A copy of the window `rect`, with its alpha flag found anew.
    ///
    /// # Errors
    ///
    /// [`Error::InvalidDimensions`] if `rect` is empty, [`Error::CropOutOfBounds`] if it does not lie inside the picture.
    pub fn crop(&self, rect: Rect) -> Result<Self> {
        rect.fits(self.dims)?;
        let dims = Dimensions::new(rect.width(), rect.height())?;
        let mut pixels = vec![0; dims.byte_len()];
        let has_alpha = self.as_image_ref().crop_into(rect, &mut pixels)?;
        Ok(Self { dims, layout: self.layout, pixels, has_alpha })
    }

    /// The picture scaled to `target`: byte for byte what webpkit makes of it, but for two cases. A column one pixel wide that becomes one or two wide and
    /// taller is 0 there; here a divider keeps its pixels, and what stands between two of them is blended:
    ///
    /// ```
    /// use jonquilsaw::{Dimensions, Image, PixelLayout};
    ///
    /// let divider = Image::new(Dimensions::new(1, 2)?, PixelLayout::Rgba8, vec![10, 10, 10, 255, 21, 21, 21, 255])?;
    /// let taller = divider.resize(Dimensions::new(1, 3)?);
    /// assert_eq!(taller.as_bytes(), [10, 10, 10, 255, 16, 16, 16, 255, 21, 21, 21, 255]);
    /// # Ok::<(), jonquilsaw::Error>(())
    /// ```
    ///
    /// Where sums wrap at extreme sizes, the picture is wrong, and a scaled colour can stand above its alpha. Restored, it runs into the next lane there, red
    /// into alpha; here it stops at 255 in its own, and alpha is the scaled one. It takes span × height above 4,194,304 × target height, where span is the width,
    /// or the target's less one if that is wider:
    ///
    /// ```
    /// use jonquilsaw::{Dimensions, Image, PixelLayout};
    ///
    /// let column = Image::new(Dimensions::new(1, 1031)?, PixelLayout::Rgba8, [0, 0, 2, 255].repeat(1031))?;
    /// let wide = column.resize(Dimensions::new(16384, 1)?);
    /// assert!(wide.as_bytes().chunks(4).all(|pixel| pixel == [0, 0, 255, 1])); // blue 2 under alpha 1, restored
    /// # Ok::<(), jonquilsaw::Error>(())
    /// ```
    ///
    /// # Panics
    ///
    /// Never: the library refuses only sizes and lengths, and these fit.
    #[must_use]
    pub fn resize(&self, target: Dimensions) -> Self {
        let mut pixels = vec![0; target.byte_len()];
        let mut work = vec![0; target.work_len()];
        let has_alpha =
            self.as_image_ref().resize_into(target, &mut pixels, &mut work).expect("sizes are in range and every buffer has the library's length");
        Self { dims: target, layout: self.layout, pixels, has_alpha }
    }
}

/// Writes a plane of width × height bytes to the alpha bytes of a lent picture, and returns the alpha flag that it has then.
///
/// # Errors
///
/// [`Error::PixelBufferMismatch`] if `pixels` isn't 4 × width × height bytes or `alpha` isn't width × height; the picture stays as it was.
///
/// ```
/// use jonquilsaw::{Dimensions, PixelLayout, apply_alpha_plane};
///
/// let mut pixels = [10, 20, 30, 40];
/// assert_eq!(apply_alpha_plane(Dimensions::new(1, 1)?, PixelLayout::Argb8, &mut pixels, &[128]), Ok(true));
/// assert_eq!(pixels, [128, 20, 30, 40]);
/// # Ok::<(), jonquilsaw::Error>(())
/// ```
pub fn apply_alpha_plane(dims: Dimensions, layout: PixelLayout, pixels: &mut [u8], alpha: &[u8]) -> Result<bool> {
    let whole = dims.byte_len();
    let given = if pixels.len() == whole { (whole / PIXEL, alpha.len()) } else { (whole, pixels.len()) };
    boundary::apply_alpha_plane(dims.words(), layout.word(), pixels, alpha)
        .map_err(|number| Error::of(number, Given { pixels: given, ..Given::default() }))
}

/// Lays a badge on a lent picture of the same size, the background, which has to be opaque and stays so. Where the badge's alpha is 0 the background stays, where
/// it is 255 the badge replaces it, and between those each colour is the badge's matted by its alpha plus the background's matted by 255 less that alpha. The
/// badge may have another layout; the background keeps its own.
///
/// # Errors
///
/// [`Error::PixelBufferMismatch`] if `pixels` isn't 4 × width × height bytes, [`Error::UnequalSizes`], [`Error::BackgroundNotOpaque`], in this order; the
/// background stays as it was.
///
/// ```
/// use jonquilsaw::{Dimensions, ImageRef, PixelLayout, lay_badge};
///
/// let size = Dimensions::new(3, 1)?;
/// let mut pixels = [100, 0, 255, 255, 100, 0, 255, 255, 100, 0, 255, 255];
/// let badge = [200, 255, 0, 0, 200, 255, 0, 128, 200, 255, 0, 255];
/// lay_badge(size, PixelLayout::Rgba8, &mut pixels, ImageRef::new(size, PixelLayout::Rgba8, &badge)?)?;
/// assert_eq!(pixels, [100, 0, 255, 255, 150, 128, 127, 255, 200, 255, 0, 255]);
/// # Ok::<(), jonquilsaw::Error>(())
/// ```
pub fn lay_badge<'a>(dims: Dimensions, layout: PixelLayout, pixels: &mut [u8], badge: impl Into<ImageRef<'a>>) -> Result<()> {
    let badge = badge.into();
    let given = Given { pixels: (dims.byte_len(), pixels.len()), sizes: Some((dims, badge.dims)), ..Given::default() };
    boundary::badge_lay(dims.words(), layout.word(), pixels, badge.dims.words(), badge.layout.word(), badge.pixels)
        .map_err(|number| Error::of(number, given))
}

/// A borrowed picture: size, layout and pixels. Its results go to buffers that the caller lends, so nothing is allocated.
#[derive(Clone, Copy, Debug)]
pub struct ImageRef<'a> {
    dims: Dimensions,
    layout: PixelLayout,
    pixels: &'a [u8],
}

#[cfg(feature = "std")]
impl<'a> From<&'a Image> for ImageRef<'a> {
    fn from(image: &'a Image) -> Self {
        image.as_image_ref()
    }
}

impl<'a> ImageRef<'a> {
    /// Borrows `pixels` as a picture of size `dims`.
    ///
    /// # Errors
    ///
    /// [`Error::PixelBufferMismatch`] if `pixels` isn't 4 × width × height bytes.
    pub const fn new(dims: Dimensions, layout: PixelLayout, pixels: &'a [u8]) -> Result<Self> {
        if pixels.len() != dims.byte_len() {
            return Err(Error::PixelBufferMismatch { expected: dims.byte_len(), found: pixels.len() });
        }
        Ok(Self { dims, layout, pixels })
    }

    /// The size.
    #[must_use]
    pub const fn dimensions(self) -> Dimensions {
        self.dims
    }

    /// The byte order of [`Self::as_bytes`].
    #[must_use]
    pub const fn layout(self) -> PixelLayout {
        self.layout
    }

    /// The borrowed pixels.
    #[must_use]
    pub const fn as_bytes(self) -> &'a [u8] {
        self.pixels
    }

    /// Whether any alpha byte isn't 255.
    ///
    /// # Panics
    ///
    /// Never: the library refuses only sizes and lengths, and these fit.
    #[must_use]
    pub fn has_alpha(self) -> bool {
        boundary::has_alpha(self.dims.words(), self.layout.word(), self.pixels).expect("the size is in range and the pixels fit it")
    }

    /// Copies the window `rect` to `out` and returns its alpha flag.
    ///
    /// # Errors
    ///
    /// [`Error::InvalidDimensions`], [`Error::CropOutOfBounds`], or [`Error::OutputLength`] if `out` isn't 4 × width × height bytes of the window.
    pub fn crop_into(self, rect: Rect, out: &mut [u8]) -> Result<bool> {
        let expected = (PIXEL * rect.width() as usize).saturating_mul(rect.height() as usize);
        let given = Given { window: Some((rect, self.dims)), out: (expected, out.len()), ..Given::default() };
        boundary::crop(self.dims.words(), self.layout.word(), rect.words(), self.pixels, out).map_err(|number| Error::of(number, given))
    }

    /// Scales the picture to `out` and returns the result's alpha flag.
    ///
    /// # Errors
    ///
    /// [`Error::OutputLength`] if `out` isn't [`target.byte_len()`](Dimensions::byte_len) bytes, [`Error::WorkLength`] if `work` has fewer than
    /// [`target.work_len()`](Dimensions::work_len) values.
    ///
    /// ```
    /// use jonquilsaw::{Dimensions, ImageRef, PixelLayout};
    ///
    /// let pixels = [10, 10, 10, 255, 20, 20, 20, 255];
    /// let image = ImageRef::new(Dimensions::new(2, 1)?, PixelLayout::Rgba8, &pixels)?;
    /// let (mut out, mut work) = ([0; 4], [0; 8]);
    /// let has_alpha = image.resize_into(Dimensions::new(1, 1)?, &mut out, &mut work)?;
    /// assert_eq!((out, has_alpha), ([15, 15, 15, 255], false));
    /// # Ok::<(), jonquilsaw::Error>(())
    /// ```
    pub fn resize_into(self, target: Dimensions, out: &mut [u8], work: &mut [u32]) -> Result<bool> {
        let given = Given { out: (target.byte_len(), out.len()), work: (target.work_len(), work.len()), ..Given::default() };
        boundary::resize(self.dims.words(), self.layout.word(), target.words(), self.pixels, out, work).map_err(|number| Error::of(number, given))
    }
}

#[cfg(all(test, feature = "std"))]
mod tests {
    use super::*;

    fn size(width: u32, height: u32) -> Dimensions {
        Dimensions::new(width, height).unwrap()
    }

    fn grey(dims: Dimensions, greys: &[u8]) -> Image {
        Image::new(dims, PixelLayout::Rgba8, greys.iter().flat_map(|&g| [g, g, g, 255]).collect()).unwrap()
    }

    #[test]
    fn sides() {
        for side in [0, 16385, u32::MAX] {
            assert_eq!(Dimensions::new(side, 1), Err(Error::InvalidDimensions { side: Side::Width, value: side.into() }));
            assert_eq!(Dimensions::try_from((1, side)), Err(Error::InvalidDimensions { side: Side::Height, value: side.into() }));
        }
        let largest = size(16384, 16384);
        assert_eq!((largest.pixel_count(), largest.byte_len(), largest.row_len(), largest.work_len()), (1 << 28, 1 << 30, 1 << 16, 1 << 17));
        assert_eq!((largest.plane_byte_len(1), largest.plane_row_len(1), largest.plane_work_len(1)), (1 << 28, 1 << 14, 1 << 15));
        assert_eq!((largest.plane_byte_len(4), largest.plane_row_len(4), largest.plane_work_len(4)), (1 << 30, 1 << 16, 1 << 17));
        assert_eq!((largest.chroma(), size(16383, 1).chroma(), size(2, 3).chroma()), (size(8192, 8192), size(8192, 1), size(1, 2)));
    }

    #[test]
    fn derived_sides() {
        assert_eq!(size(3, 2).scaled(0, 1), Ok(size(2, 1)));
        assert_eq!(size(3, 2).scaled(5, 7), Ok(size(5, 7)));
        assert_eq!(size(1, 16384).scaled(2, 0), Err(Error::InvalidDimensions { side: Side::Height, value: 32768 }));
        assert_eq!(size(3, 2).scaled(0, 0), Err(Error::InvalidDimensions { side: Side::Width, value: 0 }));
        assert_eq!(size(1, 2).scaled(0, 32769), Err(Error::InvalidDimensions { side: Side::Width, value: 16385 }));
    }

    // The trials of docs/SCOPE.md.
    #[test]
    fn trials() {
        let greys = |image: &Image| image.as_bytes().chunks(4).map(|p| p[0]).collect::<Vec<_>>();
        assert_eq!(greys(&grey(size(2, 1), &[10, 20]).resize(size(1, 1))), [15]);
        assert_eq!(greys(&grey(size(2, 1), &[10, 21]).resize(size(1, 1))), [16]);
        assert_eq!(greys(&grey(size(2, 1), &[10, 21]).resize(size(3, 1))), [10, 16, 21]);
        assert_eq!(greys(&grey(size(3, 1), &[10, 21, 30]).resize(size(2, 1))), [14, 27]);
        assert_eq!(grey(size(1, 1), &[9]).resize(size(1, 2)).as_bytes(), [9, 9, 9, 255, 9, 9, 9, 255]);
        assert_eq!(grey(size(1, 1), &[9]).resize(size(2, 1)).as_bytes(), [9, 9, 9, 255, 9, 9, 9, 255]);
        let white = grey(size(1, 6), &[255; 6]).resize(size(1, 5));
        assert_eq!(white.as_bytes()[..16], [255; 16]);
        assert_eq!(white.as_bytes()[16..], [255, 255, 255, 254]);
        assert!(white.has_alpha());
    }

    #[test]
    fn layouts() {
        for (layout, pixel) in [(PixelLayout::Rgba8, [1, 2, 3, 255]), (PixelLayout::Argb8, [255, 1, 2, 3]), (PixelLayout::Bgra8, [3, 2, 1, 255])] {
            assert_eq!(PixelLayout::of_word(layout.word()), Some(layout));
            assert_eq!(pixel[layout.alpha_byte_offset()], 255);
            let image = Image::new(size(1, 1), layout, pixel.to_vec()).unwrap();
            assert!(!image.has_alpha());
            assert_eq!(image.resize(size(2, 1)).as_bytes(), [pixel, pixel].concat());
            let mut clear = pixel;
            clear[layout.alpha_byte_offset()] = 254;
            assert!(ImageRef::new(size(1, 1), layout, &clear).unwrap().has_alpha());
        }
        assert_eq!(PixelLayout::of_word(3), None);
    }

    #[test]
    fn windows() {
        let image = Image::new(size(3, 2), PixelLayout::Argb8, (0..24).collect()).unwrap();
        let window = image.crop(Rect::new(1, 1, 2, 1)).unwrap();
        assert_eq!((window.dimensions(), window.as_bytes()), (size(2, 1), &[16, 17, 18, 19, 20, 21, 22, 23][..]));
        assert_eq!(image.crop(Rect::of(size(3, 2))).as_ref(), Ok(&image));
        for (rect, number) in [
            (Rect::new(0, 0, 0, 1), 1),
            (Rect::new(9, 0, 1, 0), 1),
            (Rect::new(2, 0, 2, 1), 2),
            (Rect::new(0, 1, 1, 2), 2),
            (Rect::new(u32::MAX, 0, 1, 1), 2),
            (Rect::new(0, 0, 16385, 1), 2),
            (Rect::new(0, 0, 16384, 16384), 2),
        ] {
            assert_eq!(image.crop(rect).map_err(Error::number), Err(number), "{rect:?}");
            // The library's own test gives the same answer as `fits`.
            let whole = image.as_image_ref();
            assert_eq!(whole.crop_into(rect, &mut []), rect.fits(whole.dimensions()).map(|()| false), "{rect:?}");
        }
    }

    #[test]
    fn planes() {
        let mut image = Image::new(size(2, 1), PixelLayout::Bgra8, vec![7; 8]).unwrap();
        assert!(image.has_alpha());
        assert_eq!(image.apply_alpha_plane(&[1]), Err(Error::PixelBufferMismatch { expected: 2, found: 1 }));
        assert_eq!(image.as_bytes(), [7; 8]);
        image.apply_alpha_plane(&[255, 255]).unwrap();
        assert_eq!((image.as_bytes(), image.has_alpha()), (&[7, 7, 7, 255, 7, 7, 7, 255][..], false));
        image.apply_alpha_plane(&[255, 0]).unwrap();
        assert!(image.has_alpha());
    }

    #[test]
    fn wrong_lengths() {
        assert_eq!(Image::new(size(2, 1), PixelLayout::Rgba8, vec![0; 7]), Err(Error::PixelBufferMismatch { expected: 8, found: 7 }));
        assert_eq!(ImageRef::new(size(2, 1), PixelLayout::Rgba8, &[0; 9]).err(), Some(Error::PixelBufferMismatch { expected: 8, found: 9 }));
        let image = ImageRef::new(size(2, 1), PixelLayout::Rgba8, &[255; 8]).unwrap();
        let target = size(1, 1);
        let (mut out, mut work) = ([7; 5], [9; 8]);
        assert_eq!(image.resize_into(target, &mut out, &mut work), Err(Error::OutputLength { expected: 4, found: 5 }));
        assert_eq!(image.resize_into(target, &mut out[..4], &mut work[..7]), Err(Error::WorkLength { expected: 8, found: 7 }));
        assert_eq!(image.crop_into(Rect::new(0, 0, 1, 1), &mut out), Err(Error::OutputLength { expected: 4, found: 5 }));
        assert_eq!((out, work), ([7; 5], [9; 8]));
        assert_eq!(image.resize_into(target, &mut out[..4], &mut work), Ok(false));
        assert_eq!(out, [255, 255, 255, 255, 7]);
    }
}
