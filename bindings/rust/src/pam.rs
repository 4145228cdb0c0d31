//! Netpbm PAM pictures: `P7`, the lines `WIDTH`, `HEIGHT`, `DEPTH 4`, `MAXVAL 255` and `TUPLTYPE RGB_ALPHA` in any order, comments among them, `ENDHDR`, then the
//! pixels in [`PixelLayout::Rgba8`] order. `pngtopam -alphapam` writes such a picture of a colour PNG, and `pamtopng` reads one.
//!
//! [`read`] and [`write`](write()) have a whole picture in memory. Where it comes or goes in pieces, [`read_header`] tells its size and where the pixels begin, and
//! [`write_header`] writes what stands before them.
//!
//! ```
//! use jonquilsaw::{Dimensions, PixelLayout, pam};
//!
//! let size = Dimensions::new(2, 1)?;
//! let pixels = [10, 20, 30, 255, 40, 50, 60, 128];
//! let mut file = vec![0; pam::file_len(size)];
//! pam::write(size, &pixels, &mut file)?;
//! assert!(file.starts_with(b"P7\nWIDTH 2\nHEIGHT 1\nDEPTH 4\nMAXVAL 255\nTUPLTYPE RGB_ALPHA\nENDHDR\n"));
//!
//! let picture = pam::read(&file)?;
//! assert_eq!((picture.dimensions(), picture.layout(), picture.as_bytes()), (size, PixelLayout::Rgba8, &pixels[..]));
//! # Ok::<(), jonquilsaw::Error>(())
//! ```

use crate::boundary;
use crate::error::{Error, Given, Result, Side};
use crate::image::{Dimensions, ImageRef, MAX_DIMENSION, PixelLayout};

/// The most bytes that a header takes, as [`write_header`] writes it.
pub const MAX_HEADER_LEN: usize = 73;

/// What the header of a picture says.
#[derive(Clone, Copy, PartialEq, Eq, Hash, Debug)]
pub struct Header {
    /// The size of the picture.
    pub size: Dimensions,
    /// The place in the input where the pixels begin, 4 × width × height bytes.
    pub start: usize,
}

/// Reads the header from a beginning of a picture, `None` if it does not hold all of the header yet. What stands after the header plays no part.
///
/// A header has no longest form, since it may have any number of comments: a program that waits for more bytes sets a bound of its own. At the end of the input
/// `None` means [`Error::PamMalformed`].
///
/// # Errors
///
/// [`Error::PamMalformed`] if the input is no beginning of a header, whatever may follow; [`Error::PamUnsupported`]; [`Error::InvalidDimensions`] if a side is 0
/// or above 16,384, with `u64::MAX` for a value that is larger yet.
///
/// ```
/// use jonquilsaw::{Dimensions, Error, pam};
///
/// let input = b"P7\n# a badge\nDEPTH 4\nMAXVAL 255\nHEIGHT 1\nWIDTH 2\nTUPLTYPE RGB_ALPHA\nENDHDR\n and pixels";
/// for n in 0..75 {
///     assert_eq!(pam::read_header(&input[..n]), Ok(None));
/// }
/// assert_eq!(pam::read_header(input), Ok(Some(pam::Header { size: Dimensions::new(2, 1)?, start: 75 })));
/// assert_eq!(pam::read_header(b"P6\n"), Err(Error::PamMalformed));
/// # Ok::<(), Error>(())
/// ```
pub fn read_header(input: &[u8]) -> Result<Option<Header>> {
    match boundary::read_pam_header(input) {
        // The library's places are usize; it hands them over in two words.
        Ok([width, height, low, high]) => {
            Ok(Some(Header { size: Dimensions::of_words([width, height]), start: (high as usize) << 32 | low as usize }))
        }
        // A first line that is not whole is no beginning to the library.
        Err(11) if b"P7\n".starts_with(input) || boundary::pam_unfinished(input) == Ok(true) => Ok(None),
        Err(1) => Err(wrong_side(input)),
        Err(number) => Err(Error::of(number, Given::default())),
    }
}

/// Reads a whole picture. Its pixels are a part of the input: nothing is copied.
///
/// # Errors
///
/// [`Error::PamMalformed`], [`Error::PamUnsupported`] and [`Error::InvalidDimensions`] as [`read_header`] has them, a header that is not whole being malformed;
/// [`Error::PixelBufferMismatch`] if other than 4 × width × height bytes follow the header.
pub fn read(input: &[u8]) -> Result<ImageRef<'_>> {
    match boundary::read_pam(input) {
        Ok(words) => {
            let size = Dimensions::of_words(words);
            ImageRef::new(size, PixelLayout::Rgba8, &input[input.len() - size.byte_len()..])
        }
        Err(1) => Err(wrong_side(input)),
        Err(number) => {
            // Only 3 names lengths, and then the header is right.
            let pixels = read_header(input)?.map_or((0, 0), |header| (header.size.byte_len(), input.len() - header.start));
            Err(Error::of(number, Given { pixels, ..Given::default() }))
        }
    }
}

/// Which side the library refused. The header is inside the form, so each has one line there, and its number is all digits.
fn wrong_side(input: &[u8]) -> Error {
    let number = |key: &[u8]| {
        let digits = input.split(|&byte| byte == b'\n').find_map(|line| {
            let mut words = line.split(|byte| matches!(byte, 9 | 11..=13 | 32)).filter(|word| !word.is_empty());
            if words.next() == Some(key) { words.next() } else { None }
        });
        digits.unwrap_or_default().iter().fold(0_u64, |value, digit| value.saturating_mul(10).saturating_add(u64::from(digit & 15)))
    };
    let width = number(b"WIDTH");
    if width == 0 || width > u64::from(MAX_DIMENSION) {
        Error::InvalidDimensions { side: Side::Width, value: width }
    } else {
        Error::InvalidDimensions { side: Side::Height, value: number(b"HEIGHT") }
    }
}

/// The bytes of the header that [`write_header`] writes: 65 to 73.
///
/// # Panics
///
/// Never: the library refuses only sizes that are out of range.
#[must_use]
pub fn header_len(size: Dimensions) -> usize {
    boundary::pam_header_length(size.words()).expect("the size is in range") as usize
}

/// The bytes of the picture that [`write`](write()) writes: its header's and [`Dimensions::byte_len`].
///
/// # Panics
///
/// Never: the library refuses only sizes that are out of range.
#[must_use]
pub fn file_len(size: Dimensions) -> usize {
    boundary::pam_length(size.words()).expect("the size is in range") as usize
}

/// Writes the header of a picture to the beginning of `room`, and returns it: the rows follow, [`Dimensions::row_len`] bytes each.
///
/// # Panics
///
/// Never: the library refuses only sizes and lengths, and these fit.
///
/// ```
/// use jonquilsaw::{Dimensions, pam};
///
/// let mut room = [0; pam::MAX_HEADER_LEN];
/// let header = pam::write_header(Dimensions::new(320, 240)?, &mut room);
/// assert_eq!(header, b"P7\nWIDTH 320\nHEIGHT 240\nDEPTH 4\nMAXVAL 255\nTUPLTYPE RGB_ALPHA\nENDHDR\n");
/// # Ok::<(), jonquilsaw::Error>(())
/// ```
pub fn write_header(size: Dimensions, room: &mut [u8; MAX_HEADER_LEN]) -> &[u8] {
    let out = &mut room[..header_len(size)];
    boundary::write_pam_header(size.words(), out).expect("the size is in range and the output has the library's length");
    out
}

/// Writes a picture of `pixels` in [`PixelLayout::Rgba8`] order to `out`: the header, its lines in the order of netpbm's own, then the pixels. [`read`] gives the
/// same size and the same bytes back.
///
/// # Errors
///
/// [`Error::PixelBufferMismatch`] if `pixels` isn't 4 × width × height bytes, [`Error::OutputLength`] if `out` isn't [`file_len`] bytes. `out` stays as it was
/// then.
pub fn write(size: Dimensions, pixels: &[u8], out: &mut [u8]) -> Result<()> {
    let given = Given { pixels: (size.byte_len(), pixels.len()), out: (file_len(size), out.len()), ..Given::default() };
    boundary::write_pam(size.words(), pixels, out).map_err(|number| Error::of(number, given))
}

#[cfg(all(test, feature = "std"))]
mod tests {
    use super::*;

    const KEYS: &str = "WIDTH 2\nHEIGHT 1\nDEPTH 4\nMAXVAL 255\n";
    const TYPE: &str = "TUPLTYPE RGB_ALPHA\n";

    fn size(width: u32, height: u32) -> Dimensions {
        Dimensions::new(width, height).unwrap()
    }

    #[test]
    fn every_beginning_of_a_picture() {
        let pixels = [10, 10, 13, 255, 10, 32, 9, 0];
        let mut file = vec![7; file_len(size(2, 1))];
        write(size(2, 1), &pixels, &mut file).unwrap();
        let start = header_len(size(2, 1));
        assert_eq!(file, [format!("P7\n{KEYS}{TYPE}ENDHDR\n").as_bytes(), &pixels].concat());
        for n in 0..start {
            assert_eq!(read_header(&file[..n]), Ok(None));
            assert_eq!(read(&file[..n]).unwrap_err(), Error::PamMalformed);
        }
        for n in start..file.len() {
            assert_eq!(read_header(&file[..n]), Ok(Some(Header { size: size(2, 1), start })));
            assert_eq!(read(&file[..n]).unwrap_err(), Error::PixelBufferMismatch { expected: 8, found: n - start });
        }
        let picture = read(&file).unwrap();
        assert_eq!((picture.dimensions(), picture.layout(), picture.as_bytes()), (size(2, 1), PixelLayout::Rgba8, &pixels[..]));
        assert_eq!(picture.as_bytes().as_ptr(), file[start..].as_ptr());
        file.push(10);
        assert_eq!(read(&file).unwrap_err(), Error::PixelBufferMismatch { expected: 8, found: 9 });
    }

    #[test]
    fn headers_that_are_refused() {
        let long = format!("P7\nWIDTH 1{}\nHEIGHT 1\nDEPTH 4\nMAXVAL 255\n{TYPE}ENDHDR\n", "0".repeat(100));
        let wide = |value| Error::InvalidDimensions { side: Side::Width, value };
        let high = |value| Error::InvalidDimensions { side: Side::Height, value };
        for (input, why) in [
            ("P8", Error::PamMalformed),
            (" P7\n", Error::PamMalformed),
            ("P7\nWIDTH 1\nWIDTH 1\n", Error::PamMalformed),
            (&format!("P7\n{KEYS}{TYPE}ENDHDR 1\n"), Error::PamMalformed),
            (&format!("P7\n{KEYS}ENDHDR\n"), Error::PamUnsupported),
            (&format!("P7\n{KEYS}{TYPE}{TYPE}ENDHDR\n"), Error::PamUnsupported),
            (&format!("P7\nWIDTH 0\nHEIGHT 1\nDEPTH 3\nMAXVAL 255\n{TYPE}ENDHDR\n"), Error::PamUnsupported),
            (&format!("P7\nHEIGHT 0\n \tWIDTH  000\t\nDEPTH 4\nMAXVAL 255\n{TYPE}ENDHDR\n"), wide(0)),
            (&format!("P7\n# WIDTH 3\nWIDTH 0016384\nHEIGHT 16385\nDEPTH 4\nMAXVAL 255\n{TYPE}ENDHDR\n"), high(16385)),
            (&long, wide(u64::MAX)),
        ] {
            assert_eq!(read_header(input.as_bytes()), Err(why), "{input}");
            assert_eq!(read(input.as_bytes()).unwrap_err(), why, "{input}");
        }
    }

    #[test]
    fn lengths_and_refusals_of_the_writer() {
        for (width, height) in [(1, 1), (9, 10), (99, 100), (999, 1000), (9999, 1), (1, 10000), (16384, 16384)] {
            let dims = size(width, height);
            let text = format!("P7\nWIDTH {width}\nHEIGHT {height}\nDEPTH 4\nMAXVAL 255\n{TYPE}ENDHDR\n");
            assert_eq!(write_header(dims, &mut [0; MAX_HEADER_LEN]), text.as_bytes());
            assert_eq!((header_len(dims), file_len(dims)), (text.len(), text.len() + dims.byte_len()));
        }
        assert_eq!(header_len(size(16384, 16384)), MAX_HEADER_LEN);
        let mut out = [7; 70];
        assert_eq!(write(size(1, 1), &[1; 5], &mut out), Err(Error::PixelBufferMismatch { expected: 4, found: 5 }));
        assert_eq!(write(size(1, 1), &[1; 4], &mut out), Err(Error::OutputLength { expected: 69, found: 70 }));
        assert_eq!(out, [7; 70]);
    }
}
