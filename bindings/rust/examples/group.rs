//! `group NAME WIDTH..`: several previews of one upload, in one pass over the stream that brings it.
//!
//! A PAM picture comes in on standard input, in whatever pieces a socket delivers it, and a preview of each width goes to NAME-WIDTH.pam, its rows as they become
//! ready; the heights are derived. `jonquilsaw-preview --also` is the command for all sizes and crops.

use jonquilsaw::{Dimensions, Error, GroupPreview, GroupWriter, PixelLayout, Plan, Rect, Result, pam};
use std::fs::File;
use std::io::{self, Read, Write};

/// The longest header that is waited for.
const HEADER: usize = 1 << 16;

/// The header, and the bytes that were read after it.
fn header(socket: &mut impl Read) -> io::Result<(Dimensions, Vec<u8>)> {
    let (mut held, mut piece) = (Vec::new(), [0; 4096]);
    loop {
        if let Some(header) = pam::read_header(&held)? {
            return Ok((header.size, held.split_off(header.start)));
        }
        if held.len() >= HEADER {
            return Err(io::Error::new(io::ErrorKind::InvalidData, "the header is longer than 65536 bytes"));
        }
        match socket.read(&mut piece)? {
            0 => return Err(Error::PamMalformed.into()),
            n => held.extend_from_slice(&piece[..n]),
        }
    }
}

/// A preview of each width to a file of its own.
fn previews(mut socket: impl Read, name: &str, widths: &[u32]) -> io::Result<Vec<Dimensions>> {
    let (source, held) = header(&mut socket)?;
    let targets = widths.iter().map(|&width| source.scaled(width, 0)).collect::<Result<Vec<_>>>()?;
    let plans: Vec<_> = targets.iter().map(|&target| Plan::picture(source, PixelLayout::Rgba8, Rect::of(source), target)).collect();
    let previews = GroupPreview::new(&plans)?;
    let mut files = Vec::new();
    for &target in &targets {
        let mut file = File::create(format!("{name}-{}.pam", target.width()))?;
        file.write_all(pam::write_header(target, &mut [0; pam::MAX_HEADER_LEN]))?;
        files.push(file);
    }
    let mut writer = GroupWriter::new(previews, files);
    writer.write_all(&held)?;
    io::copy(&mut socket, &mut writer)?;
    writer.finish()?;
    Ok(targets)
}

fn main() -> Result<(), Box<dyn std::error::Error>> {
    let mut words = std::env::args().skip(1);
    let name = words.next().ok_or("usage: group NAME WIDTH.. <IN.pam")?;
    let widths = words.map(|word| word.parse()).collect::<Result<Vec<u32>, _>>()?;
    for target in previews(io::stdin().lock(), &name, &widths)? {
        eprintln!("{} by {}", target.width(), target.height());
    }
    Ok(())
}
