//! Why a call was turned away.

use crate::geometry::Rect;
use crate::group::GROUP_LIMIT;
use crate::image::{Dimensions, MAX_DIMENSION, MAX_LANES};
use core::fmt;

/// A side of a picture, a plane or a crop.
#[derive(Clone, Copy, PartialEq, Eq, Hash, Debug)]
#[non_exhaustive]
pub enum Side {
    /// The width of a picture, a plane or a preview.
    Width,
    /// The height of a picture, a plane or a preview.
    Height,
    /// The width of a crop.
    CropWidth,
    /// The height of a crop.
    CropHeight,
}

impl fmt::Display for Side {
    fn fmt(&self, f: &mut fmt::Formatter<'_>) -> fmt::Result {
        f.write_str(match self {
            Self::Width => "the width",
            Self::Height => "the height",
            Self::CropWidth => "the crop's width",
            Self::CropHeight => "the crop's height",
        })
    }
}

/// Why the library turned a call away; [`number`](Self::number) is its number. A call turned away leaves every buffer and the job as they were.
///
/// The first three are webpkit's; the others belong to buffers that are lent and to jobs that go row by row.
///
/// ```
/// use jonquilsaw::{Dimensions, Error};
///
/// let why = Dimensions::new(640, 20_000).unwrap_err();
/// assert!(matches!(why, Error::InvalidDimensions { value: 20_000, .. }));
/// assert_eq!(why.number(), 1);
/// assert_eq!(why.to_string(), "the height is 20000: a side is 1 to 16384");
/// ```
#[derive(Clone, Copy, PartialEq, Eq, Hash, Debug)]
#[non_exhaustive]
pub enum Error {
    /// A side of a picture, a plane or a preview is 0 or above 16,384, or one of a crop is 0.
    InvalidDimensions {
        /// The side.
        side: Side,
        /// How long it is.
        value: u64,
    },
    /// The crop's right or bottom edge lies beyond the source.
    CropOutOfBounds {
        /// The crop's side that reaches too far.
        side: Side,
        /// Where it ends, in pixels from the source's left or top.
        edge: u64,
        /// Where the source ends.
        limit: u32,
    },
    /// Pixels that are not 4 × width × height bytes, those after a PAM header among them; an alpha plane that is not width × height; or offered bytes that are
    /// empty or no whole number of source rows.
    PixelBufferMismatch {
        /// The bytes that fit; of an offer, those of one row.
        expected: usize,
        /// The bytes there were.
        found: usize,
    },
    /// An output buffer that is not of the exact length.
    OutputLength {
        /// The bytes that fit.
        expected: usize,
        /// The bytes there were.
        found: usize,
    },
    /// Fewer work values than 2 × lanes × target width ([`Dimensions::work_len`] for a picture, which has 4 lanes, and [`Dimensions::plane_work_len`]), or than
    /// all jobs of a group need together.
    WorkLength {
        /// The fewest that do.
        expected: usize,
        /// Those there were.
        found: usize,
    },
    /// A record that no job or no group can have.
    InvalidRecord,
    /// Source rows offered while a preview row is ready: take it first.
    RowReady,
    /// Source rows offered after the last one was accepted.
    AllAccepted,
    /// A preview row asked for with none ready.
    NoneReady,
    /// A plane of no lanes, or of more than 4.
    InvalidLanes {
        /// How many there are.
        value: u32,
    },
    /// A PAM header outside the form: another first line or word, a word missing or too many, a number with a byte that is no digit, no line for width, height,
    /// depth or maximum or two of them, or no end.
    PamMalformed,
    /// A PAM header inside the form with a depth other than 4, a maximum other than 255, or not exactly one tuple type, `RGB_ALPHA`.
    PamUnsupported,
    /// A group without jobs, or of jobs whose source sizes, layouts, kinds or lanes differ; or a row asked of a job that the group lacks.
    InvalidGroup,
    /// A group of more than six jobs ([`GROUP_LIMIT`]).
    GroupTooLarge {
        /// How many there are.
        jobs: usize,
    },
    /// A badge that is not of its background's size.
    UnequalSizes {
        /// The size of the background.
        background: Dimensions,
        /// The size of the badge.
        badge: Dimensions,
    },
    /// A background for a badge with an alpha byte other than 255.
    BackgroundNotOpaque,
    /// Bytes that aren't exactly the rows of the next band, or where there is none. To a preview's `push_stretch` a row that comes singly is a band of one.
    InvalidBand {
        /// The bytes of the next band; 0 where there is none.
        expected: usize,
        /// The bytes there were.
        found: usize,
    },
}

/// What a call was given, as far as an error names it: the length that fits and the one there was. A call that takes no such thing leaves it out.
#[derive(Clone, Copy, Default)]
pub(crate) struct Given {
    pub window: Option<(Rect, Dimensions)>,
    /// The sizes of a background and of a badge.
    pub sizes: Option<(Dimensions, Dimensions)>,
    pub lanes: u32,
    pub jobs: usize,
    pub pixels: (usize, usize),
    pub band: (usize, usize),
    pub out: (usize, usize),
    pub work: (usize, usize),
}

impl Error {
    /// The library's number, 1 to 17.
    #[must_use]
    pub const fn number(self) -> u32 {
        match self {
            Self::InvalidDimensions { .. } => 1,
            Self::CropOutOfBounds { .. } => 2,
            Self::PixelBufferMismatch { .. } => 3,
            Self::OutputLength { .. } => 4,
            Self::WorkLength { .. } => 5,
            Self::InvalidRecord => 6,
            Self::RowReady => 7,
            Self::AllAccepted => 8,
            Self::NoneReady => 9,
            Self::InvalidLanes { .. } => 10,
            Self::PamMalformed => 11,
            Self::PamUnsupported => 12,
            Self::InvalidGroup => 13,
            Self::GroupTooLarge { .. } => 14,
            Self::UnequalSizes { .. } => 15,
            Self::BackgroundNotOpaque => 16,
            Self::InvalidBand { .. } => 17,
        }
    }

    /// The error that the library's number stands for, of a call that was given these.
    pub(crate) fn of(number: u32, given: Given) -> Self {
        match number {
            // Sizes are tested where they are made, so what is wrong is the window.
            1 | 2 => match given.window.map(|(window, size)| window.fits(size)) {
                Some(Err(why)) if why.number() == number => why,
                _ => unreachable!("the library answered with number {number} for a window that fits"),
            },
            3 => Self::PixelBufferMismatch { expected: given.pixels.0, found: given.pixels.1 },
            4 => Self::OutputLength { expected: given.out.0, found: given.out.1 },
            5 => Self::WorkLength { expected: given.work.0, found: given.work.1 },
            6 => Self::InvalidRecord,
            7 => Self::RowReady,
            8 => Self::AllAccepted,
            9 => Self::NoneReady,
            10 => Self::InvalidLanes { value: given.lanes },
            11 => Self::PamMalformed,
            12 => Self::PamUnsupported,
            13 => Self::InvalidGroup,
            14 => Self::GroupTooLarge { jobs: given.jobs },
            15 => match given.sizes {
                Some((background, badge)) if background != badge => Self::UnequalSizes { background, badge },
                _ => unreachable!("the library answered with number {number} for sizes that are equal"),
            },
            16 => Self::BackgroundNotOpaque,
            17 => Self::InvalidBand { expected: given.band.0, found: given.band.1 },
            // 100: a layout that is none or too short an answer, which the boundary's types leave no room for.
            _ => unreachable!("the library answered with number {number}"),
        }
    }
}

impl fmt::Display for Error {
    fn fmt(&self, f: &mut fmt::Formatter<'_>) -> fmt::Result {
        match self {
            Self::InvalidDimensions { side, value } => write!(f, "{side} is {value}: a side is 1 to {MAX_DIMENSION}"),
            Self::CropOutOfBounds { side, edge, limit } => write!(f, "{side} reaches to {edge}, and the source ends at {limit}"),
            Self::PixelBufferMismatch { expected, found } => {
                write!(f, "there are {found} bytes where {expected} fit, or for an offer a multiple of it")
            }
            Self::OutputLength { expected, found } => write!(f, "the output buffer has {found} bytes and not {expected}"),
            Self::WorkLength { expected, found } => write!(f, "there are {found} work values and not {expected}"),
            Self::InvalidRecord => f.write_str("no job and no group can have this record"),
            Self::RowReady => f.write_str("a preview row is ready and has to be taken first"),
            Self::AllAccepted => f.write_str("all source rows were accepted before"),
            Self::NoneReady => f.write_str("no preview row is ready"),
            Self::InvalidLanes { value } => write!(f, "there are {value} lanes: a plane has 1 to {MAX_LANES}"),
            Self::PamMalformed => f.write_str("the PAM header is outside the form"),
            Self::PamUnsupported => f.write_str("the PAM picture is not of DEPTH 4, MAXVAL 255 and TUPLTYPE RGB_ALPHA"),
            Self::InvalidGroup => f.write_str("the group has no jobs, or none of this number, or jobs whose sources are not alike"),
            Self::GroupTooLarge { jobs } => write!(f, "there are {jobs} jobs: a group has 1 to {GROUP_LIMIT}"),
            Self::UnequalSizes { background, badge } => write!(
                f,
                "the badge is {} by {} and the background {} by {}: they have to be of one size",
                badge.width(),
                badge.height(),
                background.width(),
                background.height()
            ),
            Self::BackgroundNotOpaque => f.write_str("the background is not opaque: a badge is laid on an opaque one only"),
            Self::InvalidBand { expected: 0, .. } => f.write_str("there is no band of rows here: rows come singly"),
            Self::InvalidBand { expected, found } => write!(f, "the next band has {expected} bytes and not {found}"),
        }
    }
}

impl core::error::Error for Error {}

#[cfg(feature = "std")]
impl From<Error> for std::io::Error {
    /// Of the kind `WouldBlock` where the call has to wait its turn (a row ready, or none), `InvalidData` for a PAM header, else `InvalidInput`.
    fn from(why: Error) -> Self {
        let kind = match why {
            Error::RowReady | Error::NoneReady => std::io::ErrorKind::WouldBlock,
            Error::PamMalformed | Error::PamUnsupported => std::io::ErrorKind::InvalidData,
            _ => std::io::ErrorKind::InvalidInput,
        };
        Self::new(kind, why)
    }
}

/// A result whose error is the library's.
pub type Result<T, E = Error> = core::result::Result<T, E>;

#[cfg(all(test, feature = "std"))]
mod tests {
    use super::*;

    fn given() -> Given {
        let sizes = Some((Dimensions::new(5, 4).unwrap(), Dimensions::new(5, 3).unwrap()));
        Given { window: None, sizes, lanes: 5, jobs: GROUP_LIMIT + 1, pixels: (8, 7), band: (24, 16), out: (4, 5), work: (16, 3) }
    }

    #[test]
    fn variants_are_the_numbers() {
        for number in 3..=17 {
            assert_eq!(Error::of(number, given()).number(), number);
        }
        let size = Dimensions::new(5, 4).unwrap();
        for (number, window) in [(1, Rect::new(9, 9, 0, 1)), (2, Rect::new(5, 0, 1, 1))] {
            assert_eq!(Error::of(number, Given { window: Some((window, size)), ..given() }).number(), number);
        }
    }

    #[test]
    #[should_panic(expected = "number 100")]
    fn the_boundary_number_is_no_error() {
        let _ = Error::of(100, given());
    }

    #[test]
    #[should_panic(expected = "number 2 for a window that fits")]
    fn a_window_that_fits_is_no_error() {
        let size = Dimensions::new(5, 4).unwrap();
        let _ = Error::of(2, Given { window: Some((Rect::of(size), size)), ..given() });
    }

    #[test]
    #[should_panic(expected = "number 15 for sizes that are equal")]
    fn sizes_that_are_equal_are_no_error() {
        let size = Dimensions::new(5, 4).unwrap();
        let _ = Error::of(15, Given { sizes: Some((size, size)), ..given() });
    }

    #[test]
    fn messages_name_the_side_and_the_value() {
        let size = Dimensions::new(5, 4).unwrap();
        for (why, said) in [
            (Dimensions::new(0, 9).unwrap_err(), "the width is 0: a side is 1 to 16384"),
            (Dimensions::new(9, 16_385).unwrap_err(), "the height is 16385: a side is 1 to 16384"),
            (size.scaled(0, 0).unwrap_err(), "the width is 0: a side is 1 to 16384"),
            (size.scaled(0, u32::MAX).unwrap_err(), "the width is 5368709119: a side is 1 to 16384"),
            (size.scaled(16_384, 20_000).unwrap_err(), "the height is 20000: a side is 1 to 16384"),
            (Rect::new(0, 0, 3, 0).fits(size).unwrap_err(), "the crop's height is 0: a side is 1 to 16384"),
            (Rect::new(u32::MAX, 0, 1, 1).fits(size).unwrap_err(), "the crop's width reaches to 4294967296, and the source ends at 5"),
            (Rect::new(0, 1, 5, 4).fits(size).unwrap_err(), "the crop's height reaches to 5, and the source ends at 4"),
            (Error::of(3, given()), "there are 7 bytes where 8 fit, or for an offer a multiple of it"),
            (Error::of(4, given()), "the output buffer has 5 bytes and not 4"),
            (Error::of(5, given()), "there are 3 work values and not 16"),
            (Error::of(10, given()), "there are 5 lanes: a plane has 1 to 4"),
            (Error::of(11, given()), "the PAM header is outside the form"),
            (Error::of(12, given()), "the PAM picture is not of DEPTH 4, MAXVAL 255 and TUPLTYPE RGB_ALPHA"),
            (Error::of(13, given()), "the group has no jobs, or none of this number, or jobs whose sources are not alike"),
            (Error::of(14, given()), &format!("there are {} jobs: a group has 1 to {GROUP_LIMIT}", GROUP_LIMIT + 1)),
            (Error::of(15, given()), "the badge is 5 by 3 and the background 5 by 4: they have to be of one size"),
            (Error::of(16, given()), "the background is not opaque: a badge is laid on an opaque one only"),
            (Error::of(17, given()), "the next band has 24 bytes and not 16"),
            (Error::of(17, Given { band: (0, 16), ..given() }), "there is no band of rows here: rows come singly"),
        ] {
            assert_eq!(why.to_string(), said);
        }
    }

    #[test]
    fn kinds_of_io_errors() {
        use std::io::{self, ErrorKind};
        for (number, kind) in [
            (3, ErrorKind::InvalidInput),
            (7, ErrorKind::WouldBlock),
            (8, ErrorKind::InvalidInput),
            (9, ErrorKind::WouldBlock),
            (10, ErrorKind::InvalidInput),
            (11, ErrorKind::InvalidData),
            (12, ErrorKind::InvalidData),
            (13, ErrorKind::InvalidInput),
            (14, ErrorKind::InvalidInput),
            (15, ErrorKind::InvalidInput),
            (16, ErrorKind::InvalidInput),
            (17, ErrorKind::InvalidInput),
        ] {
            let why = io::Error::from(Error::of(number, given()));
            assert_eq!(why.kind(), kind);
            assert_eq!(why.get_ref().and_then(|inner| inner.downcast_ref::<Error>()).map(|inner| inner.number()), Some(number));
        }
    }
}
