//! A preview made while the bytes arrive, in pieces of any length.

use crate::error::{Error, Result};
use crate::geometry::Rect;
use crate::image::{Dimensions, MAX_LANES, PixelLayout};
use crate::job::Job;
use crate::planes::Planes;
use std::fmt;
use std::io::{self, Write};
use std::ops::Range;

/// Why a [`Preview`] or a [`GroupPreview`](crate::GroupPreview) did not take bytes, or is not finished. Nothing is lost by it: what was taken stays, and it can
/// go on.
///
/// An [`Error`] turns into one, so that `?` serves for both.
#[derive(Clone, Copy, PartialEq, Eq, Hash, Debug)]
#[non_exhaustive]
pub enum PreviewError {
    /// A preview row is ready: ask `next_row` until it has none.
    RowReady,
    /// Every byte of the source was there before these.
    TooManyBytes,
    /// The source has this many bytes more.
    EndsEarly {
        /// The bytes that have not arrived.
        missing: usize,
    },
    /// A size, a window or a length that the library refuses. Making a preview may say so; of the calls on one, [`Preview::push_stretch`] alone.
    Refused(Error),
}

impl fmt::Display for PreviewError {
    fn fmt(&self, f: &mut fmt::Formatter<'_>) -> fmt::Result {
        match self {
            Self::RowReady => Error::RowReady.fmt(f),
            Self::TooManyBytes => f.write_str("there are more bytes than the source has"),
            Self::EndsEarly { missing } => write!(f, "the source ends {missing} bytes early"),
            Self::Refused(why) => why.fmt(f),
        }
    }
}

impl std::error::Error for PreviewError {}

impl From<Error> for PreviewError {
    fn from(why: Error) -> Self {
        match why {
            Error::RowReady => Self::RowReady,
            Error::AllAccepted => Self::TooManyBytes,
            why => Self::Refused(why),
        }
    }
}

impl TryFrom<PreviewError> for Error {
    type Error = PreviewError;

    /// The library's error, where there is one: it knows of no bytes that are missing.
    fn try_from(why: PreviewError) -> Result<Self, PreviewError> {
        match why {
            PreviewError::RowReady => Ok(Self::RowReady),
            PreviewError::TooManyBytes => Ok(Self::AllAccepted),
            PreviewError::EndsEarly { .. } => Err(why),
            PreviewError::Refused(why) => Ok(why),
        }
    }
}

impl From<PreviewError> for io::Error {
    fn from(why: PreviewError) -> Self {
        let kind = match why {
            PreviewError::RowReady => io::ErrorKind::WouldBlock,
            PreviewError::TooManyBytes => io::ErrorKind::InvalidInput,
            PreviewError::EndsEarly { .. } => io::ErrorKind::UnexpectedEof,
            PreviewError::Refused(why) => return why.into(),
        };
        Self::new(kind, why)
    }
}

/// Why an offer goes through that is made where no row is ready and bytes are missing.
pub(crate) const ACCEPTED: &str = "no row is ready, source rows remain and every buffer has the right length";

/// The source row that is not whole yet.
#[derive(Clone, Debug)]
pub(crate) struct Partial {
    bytes: Vec<u8>,
    stride: usize,
}

impl Partial {
    pub fn new(stride: usize) -> Self {
        Self { bytes: Vec::with_capacity(stride), stride }
    }

    /// The bytes of it that have come.
    pub fn len(&self) -> usize {
        self.bytes.len()
    }

    /// Takes at least one of the bytes and returns how many: whole rows are offered as they come, up to those accepted, and else this one as soon as it is whole.
    pub fn accept(&mut self, bytes: &[u8], offer: impl FnOnce(&[u8]) -> usize) -> usize {
        let whole = bytes.len() / self.stride * self.stride;
        if self.bytes.is_empty() && whole > 0 {
            return self.stride * offer(&bytes[..whole]);
        }
        let taken = bytes.len().min(self.stride - self.bytes.len());
        self.bytes.extend_from_slice(&bytes[..taken]);
        if self.bytes.len() == self.stride {
            offer(&self.bytes);
            self.bytes.clear();
        }
        taken
    }
}

/// What is known of the row buffer.
#[derive(Clone, Copy, PartialEq, Eq, Debug)]
enum Next {
    /// It holds the next preview row, not handed out yet.
    Held,
    /// No preview row is ready.
    None,
    /// The job has to be asked.
    Unknown,
}

/// A preview of a picture or a plane whose bytes come in pieces of any length.
///
/// It holds one source row (the one that is not whole yet), the work rows and one preview row, and allocates them when it is made and nothing afterwards.
/// Source rows that come whole are not copied.
///
/// [`push`](Self::push) takes bytes up to where a preview row is ready; [`next_row`](Self::next_row) hands the row out. [`feed`](Self::feed) does both for a
/// whole piece; [`PreviewWriter`] does so as a [`Write`]. [`push_stretch`](Self::push_stretch) takes several rows at once from a decoder that fills its buffer
/// bottom-up.
///
/// ```
/// use jonquilsaw::{Dimensions, PixelLayout, Preview, PreviewError, Rect};
///
/// let source = Dimensions::new(1, 2)?;
/// let mut preview = Preview::new(source, PixelLayout::Rgba8, Rect::of(source), Dimensions::new(1, 1)?)?;
/// assert_eq!(preview.push(&[10, 10, 10, 255, 20]), Ok(5));
/// assert_eq!(preview.next_row(), None);
/// assert_eq!(preview.finish(), Err(PreviewError::EndsEarly { missing: 3 }));
///
/// // The picture's last three bytes, and one that is too many.
/// assert_eq!(preview.push(&[20, 20, 255, 0]), Ok(3));
/// assert_eq!(preview.next_row(), Some(&[15, 15, 15, 255][..]));
/// assert_eq!(preview.push(&[0]), Err(PreviewError::TooManyBytes));
/// assert_eq!(preview.finish(), Ok(false));
/// # Ok::<(), Box<dyn std::error::Error>>(())
/// ```
#[derive(Clone, Debug)]
pub struct Preview {
    job: Job,
    work: Vec<u32>,
    partial: Partial,
    row: Vec<u8>,
    next: Next,
}

impl Preview {
    /// A preview of the window `crop` of a picture, scaled to `target`.
    ///
    /// # Errors
    ///
    /// [`Error::InvalidDimensions`] if the crop is empty, [`Error::CropOutOfBounds`] if it does not lie inside the source.
    pub fn new(source: Dimensions, layout: PixelLayout, crop: Rect, target: Dimensions) -> Result<Self> {
        let mut work = vec![0; target.work_len()];
        Job::start(source, layout, crop, target, &mut work).map(|job| Self::of(job, work))
    }

    /// A preview of the window `crop` of a plane, whose pixels are `lanes` bytes each, scaled to `target`. The lanes are scaled as they are, and
    /// [`finish`](Self::finish) answers false.
    ///
    /// # Errors
    ///
    /// [`Error::InvalidDimensions`] if the crop is empty, [`Error::InvalidLanes`] if `lanes` isn't 1 to 4, [`Error::CropOutOfBounds`] if the crop does not lie
    /// inside the source.
    ///
    /// ```
    /// use jonquilsaw::{Dimensions, Preview, Rect};
    ///
    /// let source = Dimensions::new(3, 2)?;
    /// let mut preview = Preview::plane(source, 1, Rect::of(source), Dimensions::new(2, 1)?)?;
    /// let mut rows = Vec::new();
    /// for piece in [&[10, 21][..], &[30, 10, 21, 30]] {
    ///     preview.feed(piece, |row| rows.extend_from_slice(row))?;
    /// }
    /// assert_eq!(rows, [14, 27]);
    /// assert_eq!(preview.finish(), Ok(false));
    /// # Ok::<(), Box<dyn std::error::Error>>(())
    /// ```
    pub fn plane(source: Dimensions, lanes: u32, crop: Rect, target: Dimensions) -> Result<Self> {
        // More lanes are refused before the work values are counted.
        let mut work = vec![0; target.plane_work_len(lanes.min(MAX_LANES))];
        Job::start_plane(source, lanes, crop, target, &mut work).map(|job| Self::of(job, work))
    }

    /// Previews of luma, cb and cr of a 4:2:0 picture, as [`Planes`] has them. The sizes are luma's.
    ///
    /// # Panics
    ///
    /// Never: the library refuses only sizes and lengths, and these fit.
    ///
    /// ```
    /// use jonquilsaw::{Dimensions, Preview};
    ///
    /// // 4 by 2: eight bytes of luma, then two of each chroma plane.
    /// let picture = [10, 20, 30, 40, 10, 20, 30, 40, 100, 110, 200, 220];
    /// let mut rest = &picture[..];
    /// let mut made = Vec::new();
    /// for mut preview in Preview::planes(Dimensions::new(4, 2)?, Dimensions::new(2, 1)?) {
    ///     let (plane, after) = rest.split_at(preview.missing());
    ///     preview.feed(plane, |row| made.extend_from_slice(row))?;
    ///     rest = after;
    /// }
    /// assert_eq!(made, [15, 35, 105, 210]);
    /// # Ok::<(), Box<dyn std::error::Error>>(())
    /// ```
    #[must_use]
    pub fn planes(source: Dimensions, target: Dimensions) -> [Self; 3] {
        let work = |size: Dimensions| vec![0; size.plane_work_len(1)];
        let (mut luma, mut cb, mut cr) = (work(target), work(target.chroma()), work(target.chroma()));
        let jobs = Planes::start(source, target, [&mut luma, &mut cb, &mut cr]).expect("sizes are in range and every slice has the library's length");
        [Self::of(jobs.luma, luma), Self::of(jobs.cb, cb), Self::of(jobs.cr, cr)]
    }

    /// A preview by a fresh job with its work values.
    fn of(job: Job, work: Vec<u32>) -> Self {
        let (partial, row) = (Partial::new(job.row_len()), vec![0; job.out_len()]);
        Self { job, work, partial, row, next: Next::None }
    }

    /// Takes bytes, from the first that has not come yet, and returns how many: all of them, or fewer where a preview row became ready or the source ended.
    /// Give the rest again after [`next_row`](Self::next_row) has handed out what is ready.
    ///
    /// # Errors
    ///
    /// [`PreviewError::RowReady`] if a preview row is ready, [`PreviewError::TooManyBytes`] if the whole source has come. No byte is taken then.
    pub fn push(&mut self, bytes: &[u8]) -> Result<usize, PreviewError> {
        let mut taken = 0;
        while taken < bytes.len() {
            let refused = match (self.holds_row(), self.missing()) {
                (true, _) => PreviewError::RowReady,
                (false, 0) => PreviewError::TooManyBytes,
                (false, _) => {
                    taken += self.accept(&bytes[taken..]);
                    continue;
                }
            };
            return if taken == 0 { Err(refused) } else { Ok(taken) };
        }
        Ok(taken)
    }

    /// The next preview row, if one is ready.
    pub fn next_row(&mut self) -> Option<&[u8]> {
        if !self.holds_row() {
            return None;
        }
        self.next = Next::Unknown;
        Some(&self.row)
    }

    /// Takes all the bytes and hands each preview row to `each` as it becomes ready.
    ///
    /// # Errors
    ///
    /// [`PreviewError::TooManyBytes`] if bytes are left after the source's last. Those of the source are taken and the preview's rows are handed out.
    pub fn feed(&mut self, bytes: &[u8], mut each: impl FnMut(&[u8])) -> Result<(), PreviewError> {
        let mut taken = 0;
        loop {
            while let Some(row) = self.next_row() {
                each(row);
            }
            if taken == bytes.len() {
                return Ok(());
            }
            taken += self.push(&bytes[taken..])?;
        }
    }

    /// The source rows to lend next to [`push_stretch`](Self::push_stretch): those of the next band, or a single row where there is none. Empty once all have
    /// come, and while a row has come in part by [`push`](Self::push), which takes the rest of it.
    ///
    /// A band is the rows from the next one due up to, but without, the one that makes the next preview row ready. There are bands only for heights that do not
    /// grow; rows above the crop come singly, and so do those below it. Preview rows that are ready need not be handed out before this is asked.
    #[must_use]
    pub fn stretch(&self) -> Range<u32> {
        let from = self.job.accepted();
        if self.partial.len() > 0 || from == self.job.source().height() {
            return from..from;
        }
        from..from + self.job.next_band().max(1)
    }

    /// Takes exactly the rows of [`stretch`](Self::stretch), top row first, as a decoder leaves them that fills its buffer bottom-up: a band is added from last
    /// to first. They are not copied, and the preview is the same as by [`push`](Self::push), which may come in between.
    ///
    /// # Errors
    ///
    /// [`PreviewError::RowReady`] if a preview row is ready, as [`push`](Self::push) says it first; [`PreviewError::TooManyBytes`] if the whole source has
    /// come, of an empty stretch too; [`Error::InvalidBand`] in [`PreviewError::Refused`] if `rows` isn't exactly these rows, or if a row has come in part,
    /// which expects 0 bytes. No row is taken then.
    ///
    /// ```
    /// use jonquilsaw::{Dimensions, PixelLayout, Preview, Rect};
    /// # use std::ops::Range;
    /// # struct Decoder;
    /// # impl Decoder {
    /// #     fn fill(&self, rows: Range<u32>, buffer: &mut Vec<u8>) {
    /// #         buffer.resize(4 * rows.len(), 255);
    /// #         for (row, pixel) in rows.zip(buffer.chunks_exact_mut(4)).rev() {
    /// #             pixel[..3].fill(10 * row.to_le_bytes()[0]);
    /// #         }
    /// #     }
    /// # }
    /// # let decoder = Decoder;
    ///
    /// // Grey, darkest at the top, four rows to one.
    /// let source = Dimensions::new(1, 4)?;
    /// let mut preview = Preview::new(source, PixelLayout::Rgba8, Rect::of(source), Dimensions::new(1, 1)?)?;
    /// let (mut buffer, mut made) = (Vec::new(), Vec::new());
    /// while !preview.stretch().is_empty() {
    ///     let rows = preview.stretch(); // 0..3, then 3..4
    ///     decoder.fill(rows, &mut buffer); // from its end
    ///     preview.push_stretch(&buffer)?;
    ///     while let Some(row) = preview.next_row() {
    ///         made.extend_from_slice(row);
    ///     }
    /// }
    /// assert_eq!(made, [15, 15, 15, 255]);
    /// assert_eq!(preview.finish(), Ok(false));
    /// # Ok::<(), Box<dyn std::error::Error>>(())
    /// ```
    pub fn push_stretch(&mut self, rows: &[u8]) -> Result<(), PreviewError> {
        if self.holds_row() {
            return Err(PreviewError::RowReady);
        }
        if self.missing() == 0 {
            return Err(PreviewError::TooManyBytes);
        }
        let due = self.stretch().len();
        let expected = due * self.job.row_len();
        if due == 0 || rows.len() != expected {
            return Err(PreviewError::Refused(Error::InvalidBand { expected, found: rows.len() }));
        }
        self.next = Next::Unknown;
        // A single row is no band, or a band of one, which an offer takes alike.
        if due == 1 {
            self.job.offer(rows, &mut self.work)?
        } else {
            self.job.offer_band(rows, &mut self.work)?
        };
        Ok(())
    }

    /// Whether every preview row was handed out. Bytes below the crop may still be missing; they change nothing.
    #[must_use]
    pub fn is_done(&self) -> bool {
        self.job.is_done() && self.next != Next::Held
    }

    /// How many of the source's bytes have not come.
    #[must_use]
    pub fn missing(&self) -> usize {
        (self.job.source().height() - self.job.accepted()) as usize * self.job.row_len() - self.partial.len()
    }

    /// Says that no more bytes come, and returns whether an alpha byte of the preview isn't 255; false for a plane.
    ///
    /// # Errors
    ///
    /// [`PreviewError::EndsEarly`] if bytes are missing, [`PreviewError::RowReady`] if a preview row was not handed out. The preview can go on after either.
    pub fn finish(&self) -> Result<bool, PreviewError> {
        match self.missing() {
            0 if self.is_done() => Ok(self.job.has_alpha()),
            0 => Err(PreviewError::RowReady),
            missing => Err(PreviewError::EndsEarly { missing }),
        }
    }

    /// The job underneath: its sizes, and how far it is.
    #[must_use]
    pub const fn job(&self) -> &Job {
        &self.job
    }

    /// Whether the row buffer holds a row to hand out; asks the job where that is not known.
    fn holds_row(&mut self) -> bool {
        if self.next == Next::Unknown {
            self.next = match self.job.take(&mut self.row, &mut self.work) {
                Ok(()) => Next::Held,
                Err(_) => Next::None, // none ready: the buffers are of the right length
            };
        }
        self.next == Next::Held
    }

    /// Takes at least one of the bytes. No row is ready and bytes are missing, so the job accepts what it is offered.
    fn accept(&mut self, bytes: &[u8]) -> usize {
        self.partial.accept(bytes, |rows| {
            self.next = Next::Unknown;
            self.job.offer(rows, &mut self.work).expect(ACCEPTED)
        })
    }
}

/// A [`Preview`] as a [`Write`]: the source's bytes are written to it in pieces of any length, and it writes each preview row to a sink as it becomes ready.
///
/// End with [`finish`](Self::finish), which gives the sink back. Nothing is written when it is dropped.
///
/// What the sink does not take is kept: where the sink fails, a later call goes on at the same byte of the same row. An error of the sink is told once and is
/// never passed over: a write that had taken bytes before the sink failed answers how many, and the next call begins with the error.
///
/// ```
/// use jonquilsaw::{Dimensions, PixelLayout, Preview, PreviewWriter, Rect};
///
/// let source = Dimensions::new(2, 1)?;
/// let preview = Preview::new(source, PixelLayout::Rgba8, Rect::of(source), Dimensions::new(3, 1)?)?;
/// let mut writer = PreviewWriter::new(preview, Vec::new());
/// let mut socket = &[10, 10, 10, 255, 21, 21, 21, 255][..];
/// std::io::copy(&mut socket, &mut writer)?;
/// let (rows, has_alpha) = writer.finish()?;
/// assert_eq!(rows, [10, 10, 10, 255, 16, 16, 16, 255, 21, 21, 21, 255]);
/// assert!(!has_alpha);
/// # Ok::<(), Box<dyn std::error::Error>>(())
/// ```
#[must_use = "`finish` tells whether all bytes came and the sink has every row"]
#[derive(Debug)]
pub struct PreviewWriter<W> {
    preview: Preview,
    sink: W,
    /// How much of the row handed out the sink has.
    sent: usize,
    /// An error of the sink that no call has told.
    failed: Option<io::Error>,
}

/// Writes what a sink has not got of a row, and counts what it has.
pub(crate) fn write_rest(sink: &mut impl Write, row: &[u8], sent: &mut usize) -> io::Result<()> {
    while *sent < row.len() {
        match sink.write(&row[*sent..]) {
            Ok(0) => return Err(io::ErrorKind::WriteZero.into()),
            Ok(more) => *sent += more,
            Err(why) if why.kind() == io::ErrorKind::Interrupted => {}
            Err(why) => return Err(why),
        }
    }
    Ok(())
}

impl<W: Write> PreviewWriter<W> {
    /// Writes the rows of `preview` to `sink`.
    pub fn new(preview: Preview, sink: W) -> Self {
        let sent = preview.row.len();
        Self { preview, sink, sent, failed: None }
    }

    /// Says that no more bytes come, passes on what the sink has not got, flushes it, and gives it back with whether an alpha byte of the preview isn't 255.
    ///
    /// # Errors
    ///
    /// The sink's, or [`PreviewError::EndsEarly`] of the kind [`UnexpectedEof`](io::ErrorKind::UnexpectedEof). The writer comes back in it and can go on; `?`
    /// makes an [`io::Error`] of it.
    pub fn finish(mut self) -> Result<(W, bool), IntoInnerError<W>> {
        match self.flush().and_then(|()| Ok(self.preview.finish()?)) {
            Ok(has_alpha) => Ok((self.sink, has_alpha)),
            Err(error) => Err(IntoInnerError::new(self, error)),
        }
    }

    /// The sink alone, with every row that is ready. The source need not be whole: [`finish`](Self::finish) asks that.
    ///
    /// # Errors
    ///
    /// The sink's, where it does not take a row that is ready, or an error of it that no call has told. The writer comes back in it.
    pub fn into_inner(mut self) -> Result<W, IntoInnerError<W>> {
        match self.tell().and_then(|()| self.pass_on()) {
            Ok(()) => Ok(self.sink),
            Err(error) => Err(IntoInnerError::new(self, error)),
        }
    }

    /// Whether the sink has every preview row.
    #[must_use]
    pub fn is_done(&self) -> bool {
        self.preview.is_done() && self.sent >= self.preview.row.len()
    }

    /// The preview: its job, and how many bytes are missing.
    #[must_use]
    pub const fn preview(&self) -> &Preview {
        &self.preview
    }

    /// The sink.
    #[must_use]
    pub const fn get_ref(&self) -> &W {
        &self.sink
    }

    /// The sink, to change. What is written to it here stands among the rows.
    pub const fn get_mut(&mut self) -> &mut W {
        &mut self.sink
    }

    /// The sink's error, if there is one that no call has told.
    fn tell(&mut self) -> io::Result<()> {
        self.failed.take().map_or(Ok(()), Err)
    }

    /// Passes all rows that are ready to the sink.
    fn pass_on(&mut self) -> io::Result<()> {
        loop {
            write_rest(&mut self.sink, &self.preview.row, &mut self.sent)?;
            if self.preview.next_row().is_none() {
                return Ok(());
            }
            self.sent = 0;
        }
    }
}

impl<W: Write> Write for PreviewWriter<W> {
    /// Takes bytes and writes the rows that they make ready.
    ///
    /// # Errors
    ///
    /// The sink's, or [`PreviewError::TooManyBytes`] of the kind [`InvalidInput`](io::ErrorKind::InvalidInput). None of `bytes` is taken then. Where the sink
    /// fails after some were taken, the answer is how many, and the next call tells the error, whether or not the sink would take the row by then.
    fn write(&mut self, bytes: &[u8]) -> io::Result<usize> {
        self.tell()?;
        self.pass_on()?;
        let mut taken = 0;
        while taken < bytes.len() {
            match self.preview.push(&bytes[taken..]) {
                Ok(more) => taken += more,
                Err(why) if taken == 0 => return Err(why.into()),
                Err(_) => break,
            }
            if let Err(why) = self.pass_on() {
                self.failed = Some(why);
                break;
            }
        }
        Ok(taken)
    }

    /// Passes on the rows that the sink has not got, and flushes it.
    ///
    /// # Errors
    ///
    /// The sink's; first one that no call has told.
    fn flush(&mut self) -> io::Result<()> {
        self.tell()?;
        self.pass_on()?;
        self.sink.flush()
    }
}

/// Why a writer did not give its sink or its sinks back, with the writer, as [`std::io::IntoInnerError`] has it.
pub struct WriterError<T> {
    writer: Box<T>,
    error: io::Error,
}

/// Why a [`PreviewWriter`] did not give its sink back, with the writer.
pub type IntoInnerError<W> = WriterError<PreviewWriter<W>>;

impl<T> WriterError<T> {
    pub(crate) fn new(writer: T, error: io::Error) -> Self {
        Self { writer: Box::new(writer), error }
    }

    /// The error.
    #[must_use]
    pub const fn error(&self) -> &io::Error {
        &self.error
    }

    /// The error alone.
    #[must_use]
    pub fn into_error(self) -> io::Error {
        self.error
    }

    /// The writer, to go on with.
    #[must_use]
    pub fn into_inner(self) -> T {
        *self.writer
    }

    /// Both.
    #[must_use]
    pub fn into_parts(self) -> (io::Error, T) {
        (self.error, *self.writer)
    }
}

impl<T> fmt::Display for WriterError<T> {
    fn fmt(&self, f: &mut fmt::Formatter<'_>) -> fmt::Result {
        self.error.fmt(f)
    }
}

impl<T> fmt::Debug for WriterError<T> {
    /// The error alone: the writer's buffers tell nobody anything.
    fn fmt(&self, f: &mut fmt::Formatter<'_>) -> fmt::Result {
        f.debug_struct("WriterError").field("error", &self.error).finish_non_exhaustive()
    }
}

impl<T> std::error::Error for WriterError<T> {}

impl<T> From<WriterError<T>> for io::Error {
    fn from(why: WriterError<T>) -> Self {
        why.error
    }
}
