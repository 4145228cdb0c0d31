//! `bmp PICTURE.bmp TARGET_WIDTH [TARGET_HEIGHT]`: the preview of a BMP file, as a PAM picture on standard output.
//!
//! A BMP file has its bottom row first. Each stretch of rows that the preview asks for is read forwards, fills a buffer from its end and is lent whole; the memory
//! is that buffer, one row as the file has it and what the preview holds. A height below 0 says that the top row stands first: then the rows are pushed one by
//! one. The file is uncompressed, of 24 or 32 bits a pixel; the fourth byte of 32 bits is unused, so that the picture is opaque. A target height of 0, or none, is
//! derived.

use jonquilsaw::{Dimensions, PixelLayout, Preview, Rect, pam};
use std::fs::File;
use std::io::{self, BufReader, Read, Seek, SeekFrom, Write};

/// The rows of a BMP file.
struct Rows<F> {
    file: F,
    size: Dimensions,
    bottom_up: bool,
    /// Where the first of them begins.
    start: u64,
    /// The bytes of a pixel: blue, green, red, and maybe one more.
    depth: usize,
    /// One of them as the file has it, with bytes that fill it up to a multiple of 4.
    stored: Vec<u8>,
}

fn malformed(why: &str) -> io::Error {
    io::Error::new(io::ErrorKind::InvalidData, why)
}

impl<F: Read + Seek> Rows<F> {
    /// Reads the header, and makes sure that the file has all rows before there is memory for any.
    fn open(mut file: F) -> io::Result<Self> {
        let (length, mut head) = (file.seek(SeekFrom::End(0))?, [0; 34]);
        if length < head.len() as u64 {
            return Err(malformed("the file ends inside its header"));
        }
        file.rewind()?;
        file.read_exact(&mut head)?;
        let four = |at: usize| [head[at], head[at + 1], head[at + 2], head[at + 3]];
        let number = |at: usize| u32::from_le_bytes(four(at));
        if !head.starts_with(b"BM") || number(14) < 40 {
            return Err(malformed("this is no BMP file with a BITMAPINFOHEADER"));
        }
        // One plane, so many bits, no compression.
        let depth = match (&head[26..30], number(30)) {
            ([1, 0, 24, 0], 0) => 3,
            ([1, 0, 32, 0], 0) => 4,
            _ => return Err(malformed("only 24 or 32 bits a pixel without compression are read")),
        };
        let height = i32::from_le_bytes(four(22));
        let size = Dimensions::new(number(18), height.unsigned_abs())?;
        let (start, stride) = (u64::from(number(10)), (depth * size.width() as usize).next_multiple_of(4));
        if start < 14 + u64::from(number(14)) {
            return Err(malformed("the rows begin inside the header"));
        }
        if length < start + stride as u64 * u64::from(size.height()) {
            return Err(malformed("the file ends before its last row"));
        }
        file.seek(SeekFrom::Start(start))?;
        Ok(Self { file, size, bottom_up: height > 0, start, depth, stored: vec![0; stride] })
    }

    /// Goes to a row, counted from the picture's top, of a file that has its bottom row first.
    fn go_to(&mut self, row: u32) -> io::Result<u64> {
        let before = u64::from(self.size.height() - 1 - row);
        self.file.seek(SeekFrom::Start(self.start + before * self.stored.len() as u64))
    }

    /// Reads the row that comes next in the file.
    fn read(&mut self, row: &mut [u8]) -> io::Result<()> {
        self.file.read_exact(&mut self.stored)?;
        for (pixel, stored) in row.chunks_exact_mut(4).zip(self.stored.chunks_exact(self.depth)) {
            pixel.copy_from_slice(&[stored[2], stored[1], stored[0], 255]);
        }
        Ok(())
    }
}

/// The preview of a file to a sink, and its size.
pub(crate) fn preview(file: impl Read + Seek, mut out: impl Write, target_width: u32, target_height: u32) -> io::Result<Dimensions> {
    let mut rows = Rows::open(file)?;
    let (source, target) = (rows.size, rows.size.scaled(target_width, target_height)?);
    let mut preview = Preview::new(source, PixelLayout::Rgba8, Rect::of(source), target)?;
    out.write_all(pam::write_header(target, &mut [0; pam::MAX_HEADER_LEN]))?;
    let mut buffer = vec![0; source.row_len()];
    while !preview.stretch().is_empty() {
        if rows.bottom_up {
            let stretch = preview.stretch();
            buffer.resize(stretch.len() * source.row_len(), 0);
            rows.go_to(stretch.end - 1)?;
            for row in buffer.chunks_exact_mut(source.row_len()).rev() {
                rows.read(row)?;
            }
            preview.push_stretch(&buffer)?;
        } else {
            rows.read(&mut buffer)?;
            preview.push(&buffer)?;
        }
        while let Some(row) = preview.next_row() {
            out.write_all(row)?;
        }
    }
    preview.finish()?;
    out.flush()?;
    Ok(target)
}

fn main() -> Result<(), Box<dyn std::error::Error>> {
    let usage = "usage: bmp PICTURE.bmp TARGET_WIDTH [TARGET_HEIGHT] >OUT.pam";
    let mut words = std::env::args_os().skip(1);
    let name = words.next().ok_or(usage)?;
    let sides = words.map(|word| Ok(word.to_str().ok_or(usage)?.parse()?)).collect::<Result<Vec<u32>, Box<dyn std::error::Error>>>()?;
    let (width, height) = match sides[..] {
        [width] => (width, 0),
        [width, height] => (width, height),
        _ => return Err(usage.into()),
    };
    let target = preview(BufReader::new(File::open(name)?), io::stdout().lock(), width, height)?;
    eprintln!("{} by {}", target.width(), target.height());
    Ok(())
}
