//! `preview WIDTH HEIGHT TARGET_WIDTH`: a `PreviewWriter` between two streams.
//!
//! Raw RGBA rows come in on standard input, in whatever pieces they come, and preview rows go out as they become ready; the height is derived.
//! `jonquilsaw-preview` is the command for all sizes and crops.

use jonquilsaw::{Dimensions, PixelLayout, Preview, PreviewWriter, Rect};
use std::error::Error;
use std::io;

fn main() -> Result<(), Box<dyn Error>> {
    let numbers = std::env::args().skip(1).map(|word| word.parse()).collect::<Result<Vec<u32>, _>>()?;
    let [width, height, target_width] = numbers[..] else {
        return Err("usage: preview WIDTH HEIGHT TARGET_WIDTH".into());
    };
    let source = Dimensions::new(width, height)?;
    let preview = Preview::new(source, PixelLayout::Rgba8, Rect::of(source), source.scaled(target_width, 0)?)?;
    let mut writer = PreviewWriter::new(preview, io::stdout().lock());
    io::copy(&mut io::stdin().lock(), &mut writer)?;
    let (_stdout, has_alpha) = writer.finish()?;
    eprintln!("{}", if has_alpha { "translucent" } else { "opaque" });
    Ok(())
}
