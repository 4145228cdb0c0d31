//! A scaler that takes source rows as they arrive and hands out preview rows as they become ready: of a picture, byte for byte what webpkit's `Image::crop` and
//! `Image::resize` make of the whole, except that a column one pixel wide which is made taller does not become 0, and that no colour runs into the next lane
//! where sums wrap ([`Image::resize`]); and of planes of 1 to 4 lanes. The arithmetic is a library written and proved in Rattle; this crate is its Rust face,
//! with no dependency.
//!
//! - [`Preview`] takes bytes in pieces of any length, as a socket delivers them, and hands out preview rows; [`PreviewWriter`] does so as a [`std::io::Write`].
//! - [`GroupPreview`] makes several previews of one source in one pass and hands out rows with the job that they belong to; [`GroupWriter`] writes them to a sink
//!   each.
//! - [`Image`] and [`ImageRef`] hold whole pictures: [`Image::crop`], [`Image::resize`], [`Image::apply_alpha_plane`], with webpkit's names.
//! - [`Image::lay_badge`] and [`lay_badge`] lay a translucent picture on an opaque one of the same size.
//! - [`Job`] is the library's own job over lent buffers: whole rows in by [`Job::offer`], a row out by [`Job::take`], no heap. [`Group`] is several of them over the
//!   same source, each made by a [`Plan`].
//! - [`Preview::push_stretch`] and [`Job::offer_band`] take the rows of a band at once, from a decoder that fills its buffer bottom-up. There are bands only for
//!   heights that do not grow; rows above the crop come singly.
//! - [`Preview::plane`] and [`Job::start_plane`] scale a plane of 1 to 4 lanes; [`Preview::planes`] and [`Planes`] scale luma and both chroma planes of a
//!   4:2:0 picture.
//! - [`pam`] reads and writes netpbm's PAM pictures, whole or in pieces.
//! - [`Dimensions::scaled`] derives a target size from one side; [`Dimensions::chroma`] halves both.
//!
//! Without the feature `std`, which is on by default, the crate is `no_std` and uses no heap: [`Job`], [`Group`], [`Planes`], [`ImageRef`],
//! [`apply_alpha_plane`], [`lay_badge`], [`pam`], [`Dimensions`], [`Rect`] and [`Error`] are there.
//!
//! Rows stand one after another without gaps. A picture's pixels are 4 bytes each in a [`PixelLayout`]'s order, and their colours are not premultiplied by
//! alpha. A plane's pixels are 1 to 4 lanes, a byte each, side by side, which are scaled as they are.
//!
//! ```
//! use jonquilsaw::{Dimensions, PixelLayout, Preview, Rect};
//!
//! // Two pixels side by side, scaled to one; the bytes come in pieces.
//! let source = Dimensions::new(2, 1)?;
//! let mut preview = Preview::new(source, PixelLayout::Rgba8, Rect::of(source), Dimensions::new(1, 1)?)?;
//! let mut rows = Vec::new();
//! for piece in [&[10, 10, 10][..], &[255, 20], &[20, 20, 255]] {
//!     preview.feed(piece, |row| rows.extend_from_slice(row))?;
//! }
//! assert_eq!(rows, [15, 15, 15, 255]);
//! assert!(preview.is_done());
//! assert_eq!(preview.finish(), Ok(false)); // all bytes came, and no alpha byte but 255 went out
//! # Ok::<(), Box<dyn std::error::Error>>(())
//! ```

#![cfg_attr(not(feature = "std"), no_std)]

// The documents can be made anywhere.
#[cfg(not(any(doc, all(target_arch = "x86_64", target_os = "linux", target_pointer_width = "64"))))]
compile_error!("libjonquilsaw.a is compiled for x86-64 Linux, and this target is another");

mod boundary;
mod error;
mod geometry;
mod group;
#[cfg(feature = "std")]
mod group_preview;
mod image;
mod job;
pub mod pam;
mod planes;
#[cfg(feature = "std")]
mod preview;

pub use error::{Error, Result, Side};
pub use geometry::Rect;
pub use group::{GROUP_LIMIT, Group, Plan};
#[cfg(feature = "std")]
pub use group_preview::{GroupPreview, GroupWriter};
#[cfg(feature = "std")]
pub use image::Image;
pub use image::{Dimensions, ImageRef, MAX_DIMENSION, MAX_LANES, PixelLayout, apply_alpha_plane, lay_badge};
pub use job::{Job, Kind};
pub use planes::Planes;
#[cfg(feature = "std")]
pub use preview::{IntoInnerError, Preview, PreviewError, PreviewWriter, WriterError};
