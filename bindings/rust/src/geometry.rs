//! The crop's window.

use crate::error::{Error, Result, Side};
use crate::image::Dimensions;

/// A crop rectangle in source-pixel coordinates: the `width x height` window whose top-left corner sits at `(x, y)`.
///
/// It is held against the source only where it is used, as in [`Job::start`](crate::Job::start).
#[derive(Clone, Copy, PartialEq, Eq, Hash, Debug)]
pub struct Rect {
    x: u32,
    y: u32,
    width: u32,
    height: u32,
}

impl Rect {
    /// A window of `width x height` pixels with its top-left corner at `(x, y)`.
    #[must_use]
    pub const fn new(x: u32, y: u32, width: u32, height: u32) -> Self {
        Self { x, y, width, height }
    }

    /// The window that is all of a picture or a plane of this size.
    #[must_use]
    pub const fn of(size: Dimensions) -> Self {
        Self::new(0, 0, size.width(), size.height())
    }

    /// The left edge, in pixels from the source's left.
    #[must_use]
    pub const fn x(self) -> u32 {
        self.x
    }

    /// The top edge, in pixels from the source's top.
    #[must_use]
    pub const fn y(self) -> u32 {
        self.y
    }

    /// The width in pixels.
    #[must_use]
    pub const fn width(self) -> u32 {
        self.width
    }

    /// The height in pixels.
    #[must_use]
    pub const fn height(self) -> u32 {
        self.height
    }

    /// Whether the window lies inside a source of this size, and why not.
    ///
    /// # Errors
    ///
    /// [`Error::InvalidDimensions`] if it is empty, else [`Error::CropOutOfBounds`] if an edge lies beyond the source.
    pub fn fits(self, size: Dimensions) -> Result<()> {
        for (side, length) in [(Side::CropWidth, self.width), (Side::CropHeight, self.height)] {
            if length == 0 {
                return Err(Error::InvalidDimensions { side, value: 0 });
            }
        }
        for (side, from, length, limit) in
            [(Side::CropWidth, self.x, self.width, size.width()), (Side::CropHeight, self.y, self.height, size.height())]
        {
            let edge = u64::from(from) + u64::from(length);
            if edge > u64::from(limit) {
                return Err(Error::CropOutOfBounds { side, edge, limit });
            }
        }
        Ok(())
    }

    pub(crate) const fn words(self) -> [u32; 4] {
        [self.x, self.y, self.width, self.height]
    }
}
