//! `pam TARGET_WIDTH`: the preview of a PAM picture, itself a PAM picture, between two streams.
//!
//! The picture comes in on standard input, in whatever pieces it comes, and preview rows go out as they become ready; the height is derived.

use jonquilsaw::{Dimensions, Error, PixelLayout, Preview, PreviewWriter, Rect, pam};
use std::io::{self, Read, Write};

/// The longest header that is waited for.
const HEADER: usize = 1 << 16;

fn preview(mut input: impl Read, mut out: impl Write, target_width: u32) -> io::Result<Dimensions> {
    let (mut held, mut piece) = (Vec::new(), [0; 4096]);
    let header = loop {
        if let Some(header) = pam::read_header(&held)? {
            break header;
        }
        if held.len() >= HEADER {
            return Err(io::Error::new(io::ErrorKind::InvalidData, "the header is longer than 65536 bytes"));
        }
        match input.read(&mut piece)? {
            0 => return Err(Error::PamMalformed.into()),
            n => held.extend_from_slice(&piece[..n]),
        }
    };
    let (source, target) = (header.size, header.size.scaled(target_width, 0)?);
    let preview = Preview::new(source, PixelLayout::Rgba8, Rect::of(source), target)?;
    out.write_all(pam::write_header(target, &mut [0; pam::MAX_HEADER_LEN]))?;
    let mut writer = PreviewWriter::new(preview, out);
    writer.write_all(&held[header.start..])?;
    io::copy(&mut input, &mut writer)?;
    writer.finish()?;
    Ok(target)
}

fn main() -> Result<(), Box<dyn std::error::Error>> {
    let width = std::env::args().nth(1).ok_or("usage: pam TARGET_WIDTH <IN.pam >OUT.pam")?.parse()?;
    let target = preview(io::stdin().lock(), io::stdout().lock(), width)?;
    eprintln!("{} by {}", target.width(), target.height());
    Ok(())
}
