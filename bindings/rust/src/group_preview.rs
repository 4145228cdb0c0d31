//! Several previews of one source, made in one pass while the bytes arrive.

use crate::error::Result;
use crate::group::{GROUP_LIMIT, Group, Plan};
use crate::preview::{ACCEPTED, Partial, PreviewError, WriterError, write_rest};
use std::io::{self, Write};

/// What is known of the row buffer.
#[derive(Clone, Copy, PartialEq, Eq, Debug)]
enum Next {
    /// It holds the next preview row of this job, not handed out yet.
    Held(usize),
    /// The jobs from this one on have to be asked; those before it have no row ready.
    Ask(usize),
}

/// Several previews of one picture or plane whose bytes come in pieces of any length: a [`Preview`](crate::Preview) for each plan, all in one pass.
///
/// It holds one source row (the one that is not whole yet), the work rows of every job and one preview row, the widest, and allocates them when it is made and
/// nothing while it runs. Source rows that come whole are not copied.
///
/// [`push`](Self::push) takes bytes up to where a preview row is ready; [`next_row`](Self::next_row) hands the row out, with the number of the job that it belongs
/// to. [`feed`](Self::feed) does both for a whole piece; [`GroupWriter`] does so as a [`Write`].
///
/// ```
/// use jonquilsaw::{Dimensions, GroupPreview, PixelLayout, Plan, PreviewError, Rect};
///
/// let source = Dimensions::new(1, 2)?;
/// let to = |target| Plan::picture(source, PixelLayout::Rgba8, Rect::of(source), target);
/// let mut previews = GroupPreview::new(&[to(Dimensions::new(1, 1)?), to(source)])?;
/// assert_eq!(previews.push(&[10, 10, 10, 255, 20]), Ok(4));
/// assert_eq!(previews.next_row(), Some((1, &[10, 10, 10, 255][..])));
/// assert_eq!(previews.next_row(), None);
/// assert_eq!(previews.finish(), Err(PreviewError::EndsEarly { missing: 4 }));
///
/// assert_eq!(previews.push(&[20, 20, 20, 255]), Ok(4));
/// assert_eq!(previews.next_row(), Some((0, &[15, 15, 15, 255][..])));
/// assert_eq!(previews.next_row(), Some((1, &[20, 20, 20, 255][..])));
/// assert_eq!(previews.finish(), Ok(vec![false, false]));
/// # Ok::<(), Box<dyn std::error::Error>>(())
/// ```
#[derive(Clone, Debug)]
pub struct GroupPreview {
    group: Group,
    work: Vec<u32>,
    partial: Partial,
    row: Vec<u8>,
    next: Next,
}

impl GroupPreview {
    /// A preview for each plan.
    ///
    /// # Errors
    ///
    /// Those of [`Group::start`], but for the work values, which are its own.
    pub fn new(plans: &[Plan]) -> Result<Self> {
        let mut work = vec![0; plans.iter().take(GROUP_LIMIT).map(|plan| plan.room()).sum()];
        let group = Group::start(plans, &mut work)?;
        let widest = group.jobs().map(|job| job.out_len()).max().unwrap_or_default();
        let (partial, row) = (Partial::new(group.row_len()), vec![0; widest]);
        Ok(Self { group, work, partial, row, next: Next::Ask(0) })
    }

    /// Takes bytes, from the first that has not come yet, and returns how many: all of them, or fewer where a preview row became ready or the source ended.
    /// Give the rest again after [`next_row`](Self::next_row) has handed out what is ready.
    ///
    /// # Errors
    ///
    /// [`PreviewError::RowReady`] if a preview row is ready, [`PreviewError::TooManyBytes`] if the whole source has come. No byte is taken then.
    pub fn push(&mut self, bytes: &[u8]) -> Result<usize, PreviewError> {
        let mut taken = 0;
        while taken < bytes.len() {
            let refused = match (self.held(), self.missing()) {
                (Some(_), _) => PreviewError::RowReady,
                (None, 0) => PreviewError::TooManyBytes,
                (None, _) => {
                    taken += self.accept(&bytes[taken..]);
                    continue;
                }
            };
            return if taken == 0 { Err(refused) } else { Ok(taken) };
        }
        Ok(taken)
    }

    /// The next preview row, if one is ready, and the number of its job, counted from 0 in the order of the plans. Where several jobs have rows ready, those of
    /// the first come first.
    pub fn next_row(&mut self) -> Option<(usize, &[u8])> {
        let job = self.held()?;
        self.next = Next::Ask(job);
        Some((job, self.row_of(job)))
    }

    /// Takes all the bytes and hands each preview row to `each` as it becomes ready, with the number of its job.
    ///
    /// # Errors
    ///
    /// [`PreviewError::TooManyBytes`] if bytes are left after the source's last. Those of the source are taken and the previews' rows are handed out.
    pub fn feed(&mut self, bytes: &[u8], mut each: impl FnMut(usize, &[u8])) -> Result<(), PreviewError> {
        let mut taken = 0;
        loop {
            while let Some((job, row)) = self.next_row() {
                each(job, row);
            }
            if taken == bytes.len() {
                return Ok(());
            }
            taken += self.push(&bytes[taken..])?;
        }
    }

    /// Whether every preview row was handed out. Bytes below the crops may still be missing; they change nothing.
    #[must_use]
    pub fn is_done(&self) -> bool {
        self.group.is_done() && !matches!(self.next, Next::Held(_))
    }

    /// How many of the source's bytes have not come.
    #[must_use]
    pub fn missing(&self) -> usize {
        (self.group.source().height() - self.group.accepted()) as usize * self.group.row_len() - self.partial.len()
    }

    /// Says that no more bytes come, and returns for each preview whether an alpha byte of it isn't 255; false for planes.
    ///
    /// # Errors
    ///
    /// [`PreviewError::EndsEarly`] if bytes are missing, [`PreviewError::RowReady`] if a preview row was not handed out. The previews can go on after either.
    pub fn finish(&self) -> Result<Vec<bool>, PreviewError> {
        match self.missing() {
            0 if self.is_done() => Ok(self.group.jobs().map(|job| job.has_alpha()).collect()),
            0 => Err(PreviewError::RowReady),
            missing => Err(PreviewError::EndsEarly { missing }),
        }
    }

    /// The group underneath: its jobs, their sizes, and how far they are.
    #[must_use]
    pub const fn group(&self) -> &Group {
        &self.group
    }

    /// The job whose row the row buffer holds, to hand out; asks the jobs where that is not known.
    fn held(&mut self) -> Option<usize> {
        loop {
            let job = match self.next {
                Next::Held(job) => return Some(job),
                Next::Ask(job) => job,
            };
            let length = self.group.job(job)?.out_len();
            self.next = match self.group.take(job, &mut self.row[..length], &mut self.work) {
                Ok(()) => Next::Held(job),
                Err(_) => Next::Ask(job + 1), // none ready: the buffers are of the right length
            };
        }
    }

    /// The row handed out, or held, which is one of this job.
    fn row_of(&self, job: usize) -> &[u8] {
        &self.row[..self.group.job(job).map_or(0, |job| job.out_len())]
    }

    /// Takes at least one of the bytes. No row is ready and bytes are missing, so the group accepts what it is offered.
    fn accept(&mut self, bytes: &[u8]) -> usize {
        self.partial.accept(bytes, |rows| {
            self.next = Next::Ask(0);
            self.group.offer(rows, &mut self.work).expect(ACCEPTED)
        })
    }
}

/// A [`GroupPreview`] as a [`Write`]: the source's bytes are written to it in pieces of any length, and it writes each preview row to the sink of its job as it
/// becomes ready.
///
/// End with [`finish`](Self::finish), which gives the sinks back. Nothing is written when it is dropped.
///
/// It goes on after an error of a sink as a [`PreviewWriter`](crate::PreviewWriter) does; the other sinks wait for the one that fails.
///
/// ```
/// use jonquilsaw::{Dimensions, GroupPreview, GroupWriter, PixelLayout, Plan, Rect};
///
/// let source = Dimensions::new(2, 1)?;
/// let to = |target| Plan::picture(source, PixelLayout::Rgba8, Rect::of(source), target);
/// let previews = GroupPreview::new(&[to(Dimensions::new(1, 1)?), to(Dimensions::new(3, 1)?)])?;
/// let mut writer = GroupWriter::new(previews, vec![Vec::new(), Vec::new()]);
/// let mut socket = &[10, 10, 10, 255, 21, 21, 21, 255][..];
/// std::io::copy(&mut socket, &mut writer)?;
/// let [(small, _), (large, has_alpha)] = &writer.finish()?[..] else { unreachable!() };
/// assert_eq!(*small, [16, 16, 16, 255]);
/// assert_eq!(*large, [10, 10, 10, 255, 16, 16, 16, 255, 21, 21, 21, 255]);
/// assert!(!has_alpha);
/// # Ok::<(), Box<dyn std::error::Error>>(())
/// ```
#[must_use = "`finish` tells whether all bytes came and the sinks have every row"]
#[derive(Debug)]
pub struct GroupWriter<W> {
    preview: GroupPreview,
    sinks: Vec<W>,
    /// The job whose row was handed out, and how much of it its sink has; none where the sinks have all of them.
    pending: Option<(usize, usize)>,
    /// An error of a sink that no call has told.
    failed: Option<io::Error>,
}

impl<W: Write> GroupWriter<W> {
    /// Writes the rows of each job of `preview` to a sink of its own, in the order of the jobs.
    ///
    /// # Panics
    ///
    /// Where there are not as many sinks as jobs.
    pub fn new(preview: GroupPreview, sinks: Vec<W>) -> Self {
        assert_eq!(preview.group.jobs().len(), sinks.len(), "there is one sink for each job");
        Self { preview, sinks, pending: None, failed: None }
    }

    /// Says that no more bytes come, passes on what the sinks have not got, flushes them, and gives them back, each with whether an alpha byte of its preview
    /// isn't 255.
    ///
    /// # Errors
    ///
    /// A sink's, or [`PreviewError::EndsEarly`] of the kind [`UnexpectedEof`](io::ErrorKind::UnexpectedEof). The writer comes back in it and can go on; `?` makes
    /// an [`io::Error`] of it.
    pub fn finish(mut self) -> Result<Vec<(W, bool)>, WriterError<Self>> {
        match self.flush().and_then(|()| Ok(self.preview.finish()?)) {
            Ok(flags) => Ok(self.sinks.into_iter().zip(flags).collect()),
            Err(error) => Err(WriterError::new(self, error)),
        }
    }

    /// The sinks alone, with every row that is ready. The source need not be whole: [`finish`](Self::finish) asks that.
    ///
    /// # Errors
    ///
    /// A sink's, where it does not take a row that is ready, or an error of one that no call has told. The writer comes back in it.
    pub fn into_inner(mut self) -> Result<Vec<W>, WriterError<Self>> {
        match self.tell().and_then(|()| self.pass_on()) {
            Ok(()) => Ok(self.sinks),
            Err(error) => Err(WriterError::new(self, error)),
        }
    }

    /// Whether the sinks have every preview row.
    #[must_use]
    pub fn is_done(&self) -> bool {
        self.preview.is_done() && self.pending.is_none()
    }

    /// The previews: their group, and how many bytes are missing.
    #[must_use]
    pub const fn preview(&self) -> &GroupPreview {
        &self.preview
    }

    /// The sinks, in the order of the jobs.
    #[must_use]
    pub fn get_ref(&self) -> &[W] {
        &self.sinks
    }

    /// The sinks, to change. What is written to one here stands among its rows.
    pub fn get_mut(&mut self) -> &mut [W] {
        &mut self.sinks
    }

    /// A sink's error, if there is one that no call has told.
    fn tell(&mut self) -> io::Result<()> {
        self.failed.take().map_or(Ok(()), Err)
    }

    /// Passes all rows that are ready to their sinks.
    fn pass_on(&mut self) -> io::Result<()> {
        loop {
            if let Some((job, sent)) = &mut self.pending {
                write_rest(&mut self.sinks[*job], self.preview.row_of(*job), sent)?;
            }
            self.pending = self.preview.next_row().map(|(job, _)| (job, 0));
            if self.pending.is_none() {
                return Ok(());
            }
        }
    }
}

impl<W: Write> Write for GroupWriter<W> {
    /// Takes bytes and writes the rows that they make ready.
    ///
    /// # Errors
    ///
    /// A sink's, or [`PreviewError::TooManyBytes`] of the kind [`InvalidInput`](io::ErrorKind::InvalidInput). None of `bytes` is taken then. Where a sink fails
    /// after some were taken, the answer is how many, and the next call tells the error, whether or not the sink would take the row by then.
    fn write(&mut self, bytes: &[u8]) -> io::Result<usize> {
        self.tell()?;
        self.pass_on()?;
        let mut taken = 0;
        while taken < bytes.len() {
            match self.preview.push(&bytes[taken..]) {
                Ok(more) => taken += more,
                Err(why) if taken == 0 => return Err(why.into()),
                Err(_) => break,
            }
            if let Err(why) = self.pass_on() {
                self.failed = Some(why);
                break;
            }
        }
        Ok(taken)
    }

    /// Passes on the rows that the sinks have not got, and flushes them.
    ///
    /// # Errors
    ///
    /// A sink's; first one that no call has told.
    fn flush(&mut self) -> io::Result<()> {
        self.tell()?;
        self.pass_on()?;
        self.sinks.iter_mut().try_for_each(Write::flush)
    }
}
