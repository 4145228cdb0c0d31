//! `jonquilsaw-preview`: the command to deploy. It reads and writes what the repository's `./preview` does, with true statuses.
//!
//! A PAM picture, or with `--raw` rows without a header, comes in on standard input, and preview rows go out as they become ready. With `--also` further previews
//! are made in the same pass and go to files; with `--badge` the preview is held until a badge is laid on it. What goes wrong is said in one line on standard
//! error.

use jonquilsaw::{Dimensions, Error, GROUP_LIMIT, GroupPreview, ImageRef, PixelLayout, Plan, Rect, lay_badge, pam};
use std::cmp::Ordering;
use std::ffi::{OsStr, OsString};
use std::fs::File;
use std::io::{self, Read, Write};
use std::os::fd::AsFd;
use std::os::unix::ffi::OsStrExt;
use std::process::ExitCode;

const USAGE: &str =
    "usage: preview [--raw WIDTH HEIGHT] TARGET_WIDTH TARGET_HEIGHT [X Y CROP_WIDTH CROP_HEIGHT] [--badge FILE | --also WIDTHxHEIGHT=FILE...]";

const HELP: &str = "
Scales a picture. A PAM picture (netpbm's P7; DEPTH 4, MAXVAL 255, TUPLTYPE RGB_ALPHA) comes in on
standard input and one goes out on standard output, its rows as they become ready. A target side of
0 is derived from the other, so that the crop keeps its ratio. With no crop the whole picture is
scaled. Sides are 1 to 16384, and a header has at most 4096 bytes.

    pngtopam -alphapam in.png | preview 320 0 | pamtopng >out.png
    convert in.png -depth 8 -type TrueColorAlpha pam:- | preview 320 0 >out.pam

With --raw and the picture's size, raw RGBA rows, 4 bytes a pixel and no header, come in and go out.

Status: 0 where the preview was written; 1 where the picture, a size, the crop or the badge is
refused, the input is too short or too long, or the output cannot be written; 2 where the arguments
are not of this form.
";

/// Of the options, with the limit as it stands.
fn options_help() -> String {
    format!(
        "
With --also a further preview of the same crop, of its own size, is made in the same pass over the
input and written to the file, in the form of the first. There are at most {GROUP_LIMIT} previews in all.

    preview 320 0 --also 640x0=middle.pam --also 1280x0=large.pam <in.pam >small.pam

With --badge the badge in the file, a PAM picture of the preview's size, is laid over the finished
preview, which has to be opaque. With --raw too the file is a PAM picture. Nothing is written before
all of the preview is known to be right.

    preview 320 0 --badge badge.pam <in.pam >out.pam
"
    )
}

/// The bytes of a header that are read.
const HEADER: usize = 4096;

/// What is said at the end, and the status.
struct Stop(String, u8);

impl Stop {
    fn usage(said: impl Into<String>) -> Self {
        Self(said.into(), 2)
    }

    fn picture(said: impl AsRef<str>) -> Self {
        Self(format!("preview: {}", said.as_ref()), 1)
    }

    /// A stream that failed, with the system's words alone.
    fn stream(name: &str, why: &io::Error) -> Self {
        let text = why.to_string();
        Self::picture(format!("{name}: {}", text.split(" (os error").next().unwrap_or(&text)))
    }
}

impl From<Error> for Stop {
    fn from(why: Error) -> Self {
        match why {
            Error::GroupTooLarge { jobs } => Self::picture(format!("there are {jobs} previews to make: at most {GROUP_LIMIT} are made in one pass")),
            Error::CropOutOfBounds { .. } => Self::picture("the crop does not lie within the picture"),
            Error::UnequalSizes { background, badge } => {
                let sides = |size: Dimensions| format!("{}x{}", size.width(), size.height());
                Self::picture(format!("the badge is {} and the preview {}: they have to be of one size", sides(badge), sides(background)))
            }
            Error::BackgroundNotOpaque => Self::picture("the preview is not opaque: a badge is laid on an opaque preview only"),
            _ => Self::picture(OF_INPUT.side),
        }
    }
}

/// What is said of a PAM picture with no right header.
struct Sayings {
    empty: &'static str,
    cut: &'static str,
    other: &'static str,
    long: &'static str,
    form: &'static str,
    kind: &'static str,
    side: &'static str,
}

const OF_INPUT: Sayings = Sayings {
    empty: "the input is empty: there is no PAM picture",
    cut: "the input ends inside the PAM header",
    other: "the input is not a PAM picture: its first line is not P7 (pngtopam -alphapam makes one of a PNG; --raw takes rows without a header)",
    long: "the PAM header is longer than the 4096 bytes that are read",
    form: "the PAM header is outside the form: a line is wrong, unknown, missing or given twice",
    kind: "the PAM picture is of another kind: only DEPTH 4, MAXVAL 255, TUPLTYPE RGB_ALPHA is taken, as pngtopam -alphapam writes it of a colour PNG (16 bits: pamdepth 255)",
    side: "a side of the picture, of the crop or of the preview is 0 or above 16384",
};

const OF_BADGE: Sayings = Sayings {
    empty: "the badge is empty: there is no PAM picture",
    cut: "the badge ends inside the PAM header",
    other: "the badge is not a PAM picture: its first line is not P7",
    long: "the PAM header of the badge is longer than the 4096 bytes that are read",
    form: "the PAM header of the badge is outside the form: a line is wrong, unknown, missing or given twice",
    kind: "the PAM picture of the badge is of another kind: only DEPTH 4, MAXVAL 255, TUPLTYPE RGB_ALPHA is taken",
    side: "a side of the badge is 0 or above 16384",
};

fn number(text: &str) -> Option<u32> {
    if text.bytes().all(|b| b.is_ascii_digit()) { text.parse().ok() } else { None }
}

fn numbers(words: &[OsString]) -> Result<Vec<u32>, Stop> {
    words
        .iter()
        .zip(1..)
        .map(|(word, place)| {
            let wrong = || Stop::usage(format!("preview: argument {place} is not a decimal number below 4294967296"));
            word.to_str().and_then(number).ok_or_else(wrong)
        })
        .collect()
}

/// A preview that goes to a file. A side of 0 is to be derived.
struct Further {
    target: [u32; 2],
    file: OsString,
}

impl Further {
    /// WIDTHxHEIGHT=FILE.
    fn of(word: &OsStr) -> Option<Self> {
        let at = word.as_bytes().iter().position(|&byte| byte == b'=')?;
        let (size, file) = (std::str::from_utf8(&word.as_bytes()[..at]).ok()?, &word.as_bytes()[at + 1..]);
        let (width, height) = size.split_once('x')?;
        if file.is_empty() { None } else { Some(Self { target: [number(width)?, number(height)?], file: OsStr::from_bytes(file).into() }) }
    }

    /// Of the words from the first `--also` on: pairs of it and what it asks for.
    fn all(words: &[OsString]) -> Result<Vec<Self>, Stop> {
        let one = |pair: &[OsString]| match pair {
            [option, word] if option == "--also" => {
                let wrong = || Stop::usage(format!("preview: --also takes WIDTHxHEIGHT=FILE, and not '{}'", word.to_string_lossy()));
                Self::of(word).ok_or_else(wrong)
            }
            _ => Err(Stop::usage(USAGE)),
        };
        words.chunks(2).map(one).collect()
    }
}

/// Where a preview's rows go.
struct Output {
    name: String,
    file: File,
}

impl Output {
    /// The stream itself: a row goes out whole, as soon as it is ready.
    fn standard() -> Result<Self, Stop> {
        let name = "standard output".into();
        let file = io::stdout().as_fd().try_clone_to_owned().map_err(|why| Stop::stream("standard output", &why))?.into();
        Ok(Self { name, file })
    }

    fn create(file: &OsStr) -> Result<Self, Stop> {
        let name = file.to_string_lossy().into_owned();
        let file = File::create(file).map_err(|why| Stop::stream(&name, &why))?;
        Ok(Self { name, file })
    }

    fn write(&mut self, bytes: &[u8]) -> Result<(), Stop> {
        self.file.write_all(bytes).map_err(|why| Stop::stream(&self.name, &why))
    }
}

/// The sizes are tested before a side is derived: from a crop beyond the picture none is. A side that is still to be derived passes as the other one does.
fn plan(source: Dimensions, n: &[u32], further: &[Further]) -> Result<(GroupPreview, Vec<Dimensions>), Error> {
    let either = |side: u32, other: u32| if side == 0 { other } else { side };
    let asked: Vec<_> = [[n[0], n[1]]].into_iter().chain(further.iter().map(|one| one.target)).collect();
    for [width, height] in &asked {
        Dimensions::new(either(*width, *height), either(*height, *width))?;
    }
    let crop = if n.len() == 6 { Rect::new(n[2], n[3], n[4], n[5]) } else { Rect::of(source) };
    crop.fits(source)?;
    let window = Dimensions::new(crop.width(), crop.height())?;
    let targets = asked.into_iter().map(|[width, height]| window.scaled(width, height)).collect::<Result<Vec<_>, _>>()?;
    let plans: Vec<_> = targets.iter().map(|&target| Plan::picture(source, PixelLayout::Rgba8, crop, target)).collect();
    Ok((GroupPreview::new(&plans)?, targets))
}

/// Where a picture comes from.
struct Input {
    name: String,
    file: File,
    buffer: Vec<u8>,
}

impl Input {
    fn of(name: String, file: File) -> Self {
        Self { name, file, buffer: vec![0; 65536] }
    }

    fn standard() -> Result<Self, Stop> {
        let file: File = io::stdin().as_fd().try_clone_to_owned().map_err(|why| Stop::stream("standard input", &why))?.into();
        if file.metadata().is_ok_and(|told| told.is_dir()) {
            return Err(Stop::picture("standard input is a directory"));
        }
        Ok(Self::of("standard input".into(), file))
    }

    fn open(file: &OsStr) -> Result<Self, Stop> {
        let name = file.to_string_lossy().into_owned();
        let file = File::open(file).map_err(|why| Stop::stream(&name, &why))?;
        Ok(Self::of(name, file))
    }

    /// The bytes that have come: none at the end.
    fn read(&mut self) -> Result<&[u8], Stop> {
        loop {
            match self.file.read(&mut self.buffer) {
                Ok(some) => return Ok(&self.buffer[..some]),
                Err(why) if why.kind() == io::ErrorKind::Interrupted => {}
                Err(why) => return Err(Stop::stream(&self.name, &why)),
            }
        }
    }

    /// Reads the header. The size that it says, and the bytes that were read after it.
    fn head(&mut self, said: &Sayings) -> Result<(Dimensions, Vec<u8>), Stop> {
        // What is said where the first line is P7, or, cut off, a beginning of that.
        let of_pam = |text: &[u8], line| Stop::picture(if text.starts_with(b"P7\n") || b"P7\n".starts_with(text) { line } else { said.other });
        let mut text = Vec::new();
        loop {
            let some = self.read()?;
            if some.is_empty() {
                return Err(if text.is_empty() { Stop::picture(said.empty) } else { of_pam(&text, said.cut) });
            }
            text.extend_from_slice(some);
            let most = &text[..text.len().min(HEADER)];
            match pam::read_header(most) {
                Ok(Some(header)) => return Ok((header.size, text.split_off(header.start))),
                Ok(None) if most.len() < HEADER => {}
                Ok(None) => return Err(of_pam(most, said.long)),
                Err(Error::PamMalformed) => return Err(of_pam(most, said.form)),
                Err(Error::PamUnsupported) => return Err(Stop::picture(said.kind)),
                Err(_) => return Err(Stop::picture(said.side)),
            }
        }
    }
}

/// Reads the pixels of the badge, where it has the preview's size.
fn badge(file: &OsStr, preview: Dimensions) -> Result<Vec<u8>, Stop> {
    let mut input = Input::open(file)?;
    let (size, mut pixels) = input.head(&OF_BADGE)?;
    if size != preview {
        return Err(Error::UnequalSizes { background: preview, badge: size }.into());
    }
    while pixels.len() <= size.byte_len() {
        match input.read()? {
            [] => break,
            some => pixels.extend_from_slice(some),
        }
    }
    match pixels.len().cmp(&size.byte_len()) {
        Ordering::Less => Err(Stop::picture("the badge is too short: pixel bytes are missing")),
        Ordering::Equal => Ok(pixels),
        Ordering::Greater => Err(Stop::picture("the badge is too long: it goes on after its last pixel")),
    }
}

/// Takes what a read brought and hands out the rows that it makes ready.
fn pass(previews: &mut GroupPreview, mut bytes: &[u8], each: &mut impl FnMut(usize, &[u8]) -> Result<(), Stop>) -> Result<(), Stop> {
    while !bytes.is_empty() {
        let taken = previews.push(bytes).map_err(|_| Stop::picture("the input is too long: it goes on after the last row"))?;
        bytes = &bytes[taken..];
        while let Some((job, row)) = previews.next_row() {
            each(job, row)?;
        }
    }
    Ok(())
}

/// Reads the input to its end, what was read with the header first, and hands out each row as it becomes ready, with the number of its preview.
fn scale(mut previews: GroupPreview, rest: &[u8], input: &mut Input, mut each: impl FnMut(usize, &[u8]) -> Result<(), Stop>) -> Result<(), Stop> {
    pass(&mut previews, rest, &mut each)?;
    loop {
        match input.read()? {
            [] => break,
            some => pass(&mut previews, some, &mut each)?,
        }
    }
    if previews.missing() > 0 {
        return Err(Stop::picture(format!("the input is too short: it has only {} whole rows", previews.group().accepted())));
    }
    Ok(())
}

fn run() -> Result<(), Stop> {
    let words: Vec<OsString> = std::env::args_os().skip(1).collect();
    if words.first().is_some_and(|word| word == "-h" || word == "--help") {
        let help = format!("{USAGE}\n{HELP}{}", options_help());
        return io::stdout().write_all(help.as_bytes()).map_err(|why| Stop::stream("standard output", &why));
    }
    let (words, options) = words.split_at(words.iter().position(|word| word == "--also" || word == "--badge").unwrap_or(words.len()));
    let raw = words.first().is_some_and(|word| word == "--raw");
    let words = &words[usize::from(raw)..];
    let sizes = if raw { 2 } else { 0 };
    if words.len() != sizes + 2 && words.len() != sizes + 6 {
        return Err(Stop::usage(USAGE));
    }
    let n = numbers(words)?;
    let (badge_file, further) = match options {
        [option, file] if option == "--badge" => (Some(file), Vec::new()),
        options => (None, Further::all(options)?),
    };
    let mut input = Input::standard()?;
    let mut outputs = vec![Output::standard()?];
    let (source, rest) = if raw { (Dimensions::new(n[0], n[1])?, Vec::new()) } else { input.head(&OF_INPUT)? };
    let (previews, targets) = plan(source, &n[sizes..], &further)?;
    let header = |output: &mut Output, target| if raw { Ok(()) } else { output.write(pam::write_header(target, &mut [0; pam::MAX_HEADER_LEN])) };

    if let Some(file) = badge_file {
        // Not a byte goes out before all is known to be right.
        let target = targets[0];
        let badge = badge(file, target)?;
        let mut held = Vec::with_capacity(target.byte_len());
        scale(previews, &rest, &mut input, |_, row| {
            held.extend_from_slice(row);
            Ok(())
        })?;
        lay_badge(target, PixelLayout::Rgba8, &mut held, ImageRef::new(target, PixelLayout::Rgba8, &badge)?)?;
        header(&mut outputs[0], target)?;
        return outputs[0].write(&held);
    }

    for one in &further {
        outputs.push(Output::create(&one.file)?);
    }
    for (output, target) in outputs.iter_mut().zip(targets) {
        header(output, target)?;
    }
    scale(previews, &rest, &mut input, |job, row| outputs[job].write(row))
}

fn main() -> ExitCode {
    match run() {
        Ok(()) => ExitCode::SUCCESS,
        Err(Stop(said, status)) => {
            let _ = writeln!(io::stderr(), "{said}");
            ExitCode::from(status)
        }
    }
}
