//! Stands in for webpkit's `crate::error`: the three cases that the two files name, with SCOPE's numbers.

#[derive(Clone, Copy, PartialEq, Eq, Debug)]
pub enum Error {
    InvalidDimensions = 1,
    CropOutOfBounds = 2,
    PixelBufferMismatch = 3,
}

pub type Result<T> = core::result::Result<T, Error>;
