//! The library's job: whole rows in, a row out, in buffers that the caller lends.

use crate::boundary::{self, Record};
use crate::error::{Error, Given, Result};
use crate::geometry::Rect;
use crate::image::{Dimensions, PixelLayout};

/// What a [`Job`] scales.
#[derive(Clone, Copy, PartialEq, Eq, Hash, Debug)]
#[non_exhaustive]
pub enum Kind {
    /// Pixels of 4 bytes, matted by their alpha as they come in and restored as they go out.
    Picture,
    /// Lanes, a byte each, scaled as they are.
    Plane,
}

/// A job that crops a source and scales it to a target, row by row. The source is a picture ([`Job::start`]) or a plane of 1 to 4 lanes
/// ([`Job::start_plane`]).
///
/// It holds fourteen words. The work values are lent to every call and must be those that the call before left: 2 × lanes × target width of them
/// ([`Dimensions::work_len`], [`Dimensions::plane_work_len`]).
///
/// ```
/// use jonquilsaw::{Dimensions, Error, Job, PixelLayout, Rect};
///
/// let (source, target) = (Dimensions::new(1, 2)?, Dimensions::new(1, 1)?);
/// let mut work = [0; 8];
/// let mut job = Job::start(source, PixelLayout::Rgba8, Rect::of(source), target, &mut work)?;
///
/// assert_eq!(job.offer(&[10, 10, 10, 255], &mut work), Ok(1));
/// let mut row = [0; 4];
/// assert_eq!(job.take(&mut row, &mut work), Err(Error::NoneReady)); // a row of the preview needs both source rows
/// assert_eq!(job.offer(&[20, 20, 20, 255], &mut work), Ok(1));
/// job.take(&mut row, &mut work)?;
/// assert_eq!(row, [15, 15, 15, 255]);
/// assert!(job.is_done());
/// # Ok::<(), Error>(())
/// ```
#[derive(Clone, PartialEq, Eq, Hash, Debug)]
pub struct Job {
    record: Record,
}

impl Job {
    /// Starts a picture's job and clears its work values.
    ///
    /// # Errors
    ///
    /// [`Error::InvalidDimensions`] if the crop is empty, [`Error::CropOutOfBounds`] if it does not lie inside the source, [`Error::WorkLength`] if `work` has
    /// fewer than [`target.work_len()`](Dimensions::work_len) values.
    pub fn start(source: Dimensions, layout: PixelLayout, crop: Rect, target: Dimensions, work: &mut [u32]) -> Result<Self> {
        let given = Given { window: Some((crop, source)), work: (target.work_len(), work.len()), ..Given::default() };
        match boundary::start(source.words(), layout.word(), crop.words(), target.words(), work) {
            Ok(record) => Ok(Self { record }),
            Err(number) => Err(Error::of(number, given)),
        }
    }

    /// Starts a plane's job and clears its work values. Each pixel of the plane is `lanes` bytes, which are scaled as they are: nothing is matted, and
    /// [`has_alpha`](Self::has_alpha) stays false.
    ///
    /// # Errors
    ///
    /// [`Error::InvalidDimensions`] if the crop is empty, [`Error::InvalidLanes`] if `lanes` isn't 1 to 4, [`Error::CropOutOfBounds`] if the crop does not lie
    /// inside the source, [`Error::WorkLength`] if `work` has fewer than [`target.plane_work_len(lanes)`](Dimensions::plane_work_len) values.
    ///
    /// ```
    /// use jonquilsaw::{Dimensions, Error, Job, Rect};
    ///
    /// // Two lanes, 3 pixels wide, scaled to 2.
    /// let (source, target) = (Dimensions::new(3, 1)?, Dimensions::new(2, 1)?);
    /// let mut work = [0; 8];
    /// let mut job = Job::start_plane(source, 2, Rect::of(source), target, &mut work)?;
    /// assert_eq!(job.offer(&[10, 255, 21, 255, 30, 255], &mut work), Ok(1));
    /// let mut row = [0; 4];
    /// job.take(&mut row, &mut work)?;
    /// assert_eq!(row, [14, 255, 27, 255]);
    ///
    /// assert_eq!(Job::start_plane(source, 5, Rect::of(source), target, &mut work), Err(Error::InvalidLanes { value: 5 }));
    /// # Ok::<(), Error>(())
    /// ```
    pub fn start_plane(source: Dimensions, lanes: u32, crop: Rect, target: Dimensions, work: &mut [u32]) -> Result<Self> {
        let given = Given { window: Some((crop, source)), lanes, work: (target.plane_work_len(lanes), work.len()), ..Given::default() };
        match boundary::start_plane(source.words(), lanes, crop.words(), target.words(), work) {
            Ok(record) => Ok(Self { record }),
            Err(number) => Err(Error::of(number, given)),
        }
    }

    /// A job from the fourteen words that [`Self::record`] gave, to go on elsewhere with a copy of the work values. Words that keep the library's rules
    /// count, whoever filled them: source width and height, layout, crop x, y, width and height, target width and height, rows accepted, rows taken, alpha
    /// flag, kind (0 for a picture, 1 for a plane), lanes (4 for a picture). A plane's layout and flag are 0.
    ///
    /// # Errors
    ///
    /// [`Error::InvalidRecord`] if no job can have these words.
    pub fn from_record(record: [u32; 14]) -> Result<Self> {
        let mut job = Self { record };
        // A take tests the record first and turns an empty row away next, so it leaves all as it was.
        match boundary::take(&mut job.record, &mut [], &mut []) {
            Err(4) => Ok(job),
            _ => Err(Error::InvalidRecord),
        }
    }

    /// The job's fourteen words.
    #[must_use]
    pub const fn record(&self) -> [u32; 14] {
        self.record
    }

    /// Offers one or more whole source rows, from the first that was not accepted yet, and returns how many were accepted, at least one. It stops at the first
    /// row that makes a preview row ready and at the source's last: offer the rest after taking what is ready.
    ///
    /// # Errors
    ///
    /// [`Error::PixelBufferMismatch`] if `rows` is empty or no whole number of source rows ([`Self::row_len`]), [`Error::WorkLength`], [`Error::RowReady`] if a
    /// preview row has to be taken first, [`Error::AllAccepted`]. The job and `work` stay as they were.
    pub fn offer(&mut self, rows: &[u8], work: &mut [u32]) -> Result<usize> {
        let given = Given { pixels: (self.row_len(), rows.len()), work: (self.work_len(), work.len()), ..Given::default() };
        match boundary::offer(&mut self.record, rows, work) {
            Ok(count) => Ok(count as usize),
            Err(number) => Err(Error::of(number, given)),
        }
    }

    /// How many rows the next band has, for [`Self::offer_band`]: the source rows from the next one due up to, but without, the one that makes the next preview
    /// row ready. 0 where there is no band: that row is due itself, rows above the crop are still due, the last preview row is made, or the height grows.
    #[must_use]
    pub fn band_rows(&self) -> usize {
        self.next_band() as usize
    }

    /// Offers exactly the rows of the next band, top row first, as a decoder leaves them that fills its buffer bottom-up, and returns how many they are. They
    /// are added from last to first; the job and `work` end as they do when [`Self::offer`] takes the same rows.
    ///
    /// There are bands only for heights that do not grow. The row after a band, with which the next preview row is ready, comes by [`Self::offer`], and so do
    /// the rows above and below the crop.
    ///
    /// # Errors
    ///
    /// [`Error::InvalidBand`] if `rows` isn't exactly [`Self::band_rows`] rows of [`Self::row_len`] bytes, or if there is no band; [`Error::WorkLength`];
    /// [`Error::RowReady`] if a preview row has to be taken first. The job and `work` stay as they were.
    ///
    /// ```
    /// use jonquilsaw::{Dimensions, Error, Job, Rect};
    ///
    /// // Grey, four rows to one: three are a band, and the fourth makes the preview row ready.
    /// let (source, target) = (Dimensions::new(1, 4)?, Dimensions::new(1, 1)?);
    /// let mut work = [0; 2];
    /// let mut job = Job::start_plane(source, 1, Rect::of(source), target, &mut work)?;
    /// assert_eq!(job.band_rows(), 3);
    /// assert_eq!(job.offer_band(&[10, 20], &mut work), Err(Error::InvalidBand { expected: 3, found: 2 }));
    /// assert_eq!(job.offer_band(&[10, 20, 30], &mut work), Ok(3));
    /// assert_eq!(job.band_rows(), 0);
    /// assert_eq!(job.offer(&[40], &mut work), Ok(1));
    /// let mut row = [0];
    /// job.take(&mut row, &mut work)?;
    /// assert_eq!(row, [25]);
    /// # Ok::<(), Error>(())
    /// ```
    pub fn offer_band(&mut self, rows: &[u8], work: &mut [u32]) -> Result<usize> {
        match boundary::band_offer(&mut self.record, rows, work) {
            Ok(count) => Ok(count as usize),
            // Turned away, the job is as it was, and so is its next band.
            Err(number) => {
                let band = (self.band_rows() * self.row_len(), rows.len());
                Err(Error::of(number, Given { band, work: (self.work_len(), work.len()), ..Given::default() }))
            }
        }
    }

    /// Takes the next preview row.
    ///
    /// # Errors
    ///
    /// [`Error::OutputLength`] if `out` isn't exactly a row of the target ([`Self::out_len`]), [`Error::WorkLength`], [`Error::NoneReady`]. The job, `out` and
    /// `work` stay as they were.
    pub fn take(&mut self, out: &mut [u8], work: &mut [u32]) -> Result<()> {
        let given = Given { out: (self.out_len(), out.len()), work: (self.work_len(), work.len()), ..Given::default() };
        boundary::take(&mut self.record, out, work).map_err(|number| Error::of(number, given))
    }

    /// The source's size.
    #[must_use]
    pub const fn source(&self) -> Dimensions {
        self.size(0)
    }

    /// The byte order of a picture's rows, in and out; [`PixelLayout::Rgba8`] for a plane, whose lanes have no names.
    ///
    /// # Panics
    ///
    /// Never: a job has one of the three layouts.
    #[must_use]
    pub fn layout(&self) -> PixelLayout {
        PixelLayout::of_word(self.record[2]).expect("a job's layout is one of the three")
    }

    /// The window of the source that is scaled.
    #[must_use]
    pub const fn crop(&self) -> Rect {
        Rect::new(self.record[3], self.record[4], self.record[5], self.record[6])
    }

    /// The preview's size.
    #[must_use]
    pub const fn target(&self) -> Dimensions {
        self.size(7)
    }

    /// What is scaled.
    ///
    /// # Panics
    ///
    /// Never: a job has one of the two kinds.
    #[must_use]
    pub const fn kind(&self) -> Kind {
        match self.record[12] {
            0 => Kind::Picture,
            1 => Kind::Plane,
            _ => unreachable!(),
        }
    }

    /// The lanes of a plane, 1 to 4; 4 for a picture.
    #[must_use]
    pub const fn lanes(&self) -> u32 {
        self.record[13]
    }

    /// The bytes of a source row: lanes × width.
    #[must_use]
    pub const fn row_len(&self) -> usize {
        self.source().plane_row_len(self.lanes())
    }

    /// The bytes of a preview row: lanes × width.
    #[must_use]
    pub const fn out_len(&self) -> usize {
        self.target().plane_row_len(self.lanes())
    }

    /// The fewest work values that every call asks for: 2 × lanes × target width.
    #[must_use]
    pub const fn work_len(&self) -> usize {
        self.target().plane_work_len(self.lanes())
    }

    /// Source rows accepted.
    #[must_use]
    pub const fn accepted(&self) -> u32 {
        self.record[9]
    }

    /// Preview rows taken.
    #[must_use]
    pub const fn taken(&self) -> u32 {
        self.record[10]
    }

    /// Preview rows that are ready and not taken.
    #[must_use]
    pub fn ready(&self) -> u32 {
        // The library is asked: a record keeps the rules up to as many rows taken as the accepted ones make.
        let (mut least, mut most) = (self.taken(), self.record[8]);
        while least < most {
            let taken = least + (most - least).div_ceil(2);
            let mut record = self.record;
            record[10] = taken;
            match Self::from_record(record) {
                Ok(_) => least = taken,
                Err(_) => most = taken - 1,
            }
        }
        least - self.taken()
    }

    /// Whether an alpha byte other than 255 stood in a row taken; false for a plane.
    #[must_use]
    pub const fn has_alpha(&self) -> bool {
        self.record[11] != 0
    }

    /// Whether every preview row was taken. Source rows below the crop may still be accepted.
    #[must_use]
    pub const fn is_done(&self) -> bool {
        self.taken() == self.record[8]
    }

    /// [`Self::band_rows`] as the library counts them.
    pub(crate) fn next_band(&self) -> u32 {
        boundary::band_count(&self.record).expect("a job's record keeps the rules")
    }

    /// A job of a record that the library wrote.
    pub(crate) const fn of_fresh(record: Record) -> Self {
        Self { record }
    }

    const fn size(&self, at: usize) -> Dimensions {
        match Dimensions::new(self.record[at], self.record[at + 1]) {
            Ok(size) => size,
            Err(_) => unreachable!(),
        }
    }
}

#[cfg(all(test, feature = "std"))]
mod tests {
    use super::*;

    fn job(work: &mut [u32]) -> Result<Job> {
        Job::start(Dimensions::new(2, 3)?, PixelLayout::Bgra8, Rect::new(1, 1, 1, 2), Dimensions::new(1, 2)?, work)
    }

    #[test]
    fn what_a_record_says() {
        let mut job = job(&mut [7; 8]).unwrap();
        assert_eq!(job.record(), [2, 3, 2, 1, 1, 1, 2, 1, 2, 0, 0, 0, 0, 4]);
        assert_eq!((job.source(), job.target()), (Dimensions::new(2, 3).unwrap(), Dimensions::new(1, 2).unwrap()));
        assert_eq!((job.layout(), job.crop()), (PixelLayout::Bgra8, Rect::new(1, 1, 1, 2)));
        assert_eq!((job.kind(), job.lanes(), job.row_len(), job.out_len(), job.work_len()), (Kind::Picture, 4, 8, 4, 8));
        assert_eq!((job.accepted(), job.taken(), job.has_alpha(), job.is_done()), (0, 0, false, false));
        // The first row lies above the crop, the second makes a preview row ready.
        let mut work = [0; 8];
        let rows: Vec<u8> = (0..24).collect();
        assert_eq!(job.offer(&rows, &mut work), Ok(2));
        assert_eq!((job.accepted(), job.taken(), job.ready()), (2, 0, 1));
        job.take(&mut [0; 4], &mut work).unwrap();
        assert_eq!(job.offer(&rows[16..], &mut work), Ok(1));
        job.take(&mut [0; 4], &mut work).unwrap();
        assert!(job.is_done() && job.has_alpha());
    }

    #[test]
    fn every_refusal_leaves_all_as_it_was() {
        let mut work = [7; 8];
        let too_few = Error::WorkLength { expected: 8, found: 7 };
        assert_eq!(job(&mut work[..7]), Err(too_few));
        let source = Dimensions::new(2, 3).unwrap();
        for (crop, number) in [(Rect::new(0, 0, 0, 1), 1), (Rect::new(1, 1, 2, 2), 2)] {
            let refused = Job::start(source, PixelLayout::Rgba8, crop, source, &mut work);
            assert_eq!(refused.as_ref().map_err(|why| why.number()), Err(number));
            assert_eq!(refused.err(), crop.fits(source).err());
        }
        assert_eq!(work, [7; 8]);
        let mut job = job(&mut work).unwrap();
        assert_eq!(work, [0; 8]);
        let rows = [255; 24];
        let mut out = [7; 5];
        let refused = |job: &mut Job, out: &mut [u8; 5], work: &mut [u32; 8], ready: bool| {
            let before = (job.clone(), *out, *work);
            for bytes in [0, 7, 9] {
                assert_eq!(job.offer(&rows[..bytes], work), Err(Error::PixelBufferMismatch { expected: 8, found: bytes }));
            }
            assert_eq!(job.offer(&rows[..8], &mut work[..7]), Err(too_few));
            assert_eq!(job.take(out, work), Err(Error::OutputLength { expected: 4, found: 5 }));
            assert_eq!(job.take(&mut out[..4], &mut work[..7]), Err(too_few));
            if ready {
                assert_eq!(job.offer(&rows, work), Err(Error::RowReady));
            } else {
                assert_eq!(job.take(&mut out[..4], work), Err(Error::NoneReady));
            }
            assert!(before == (job.clone(), *out, *work));
        };
        refused(&mut job, &mut out, &mut work, false);
        assert_eq!(job.offer(&rows, &mut work), Ok(2));
        refused(&mut job, &mut out, &mut work, true);
        job.take(&mut out[..4], &mut work).unwrap();
        assert_eq!(out, [255, 255, 255, 255, 7]);
        assert_eq!(job.offer(&rows[..8], &mut work), Ok(1));
        job.take(&mut out[..4], &mut work).unwrap();
        assert_eq!(job.offer(&rows, &mut work), Err(Error::AllAccepted));
        refused(&mut job, &mut out, &mut work, false);
    }

    /// 1 by 9, its rows 1 to 7 to two: rows 1 to 3 are a band, row 4 makes the first preview row ready, 5 and 6 are a band, row 7 makes the second ready.
    #[test]
    fn every_band_refused_leaves_all_as_it_was() {
        let (source, crop) = (Dimensions::new(1, 9).unwrap(), Rect::new(0, 1, 1, 7));
        let mut work = [7; 9];
        let mut job = Job::start(source, PixelLayout::Argb8, crop, Dimensions::new(1, 2).unwrap(), &mut work).unwrap();
        let rows: Vec<u8> = (0..40_u8).map(|i| i.wrapping_mul(37)).collect();
        let too_few = Error::WorkLength { expected: 8, found: 7 };
        // Whatever is lent but the band is 17, ahead of too few work values and of a row that is ready; the band itself is `why` then.
        let refused = |job: &mut Job, work: &mut [u32; 9], band: usize, why: Option<Error>| {
            let before = (job.clone(), *work);
            assert_eq!(job.band_rows(), band);
            for found in (0..=40).filter(|&found| band == 0 || found != 4 * band) {
                for values in [0, 7, 8, 9] {
                    assert_eq!(job.offer_band(&rows[..found], &mut work[..values]), Err(Error::InvalidBand { expected: 4 * band, found }));
                }
            }
            if band > 0 {
                assert_eq!(job.offer_band(&rows[..4 * band], &mut work[..7]), Err(too_few));
            }
            if let Some(why) = why {
                assert_eq!(job.offer_band(&rows[..4 * band], work), Err(why));
            }
            assert!(before == (job.clone(), *work));
        };
        // The same rows by an offer leave the same.
        let accepted = |job: &mut Job, work: &mut [u32; 9], band: usize| {
            let (mut other, mut other_work) = (job.clone(), *work);
            assert_eq!(job.offer_band(&rows[..4 * band], work), Ok(band));
            assert_eq!(other.offer(&rows[..4 * band], &mut other_work), Ok(band));
            assert!((&*job, *work) == (&other, other_work) && job.ready() == 0);
        };
        // Above the crop, at its first row, before and at the row that makes one ready.
        refused(&mut job, &mut work, 0, None);
        assert_eq!(job.offer(&rows[..4], &mut work), Ok(1));
        refused(&mut job, &mut work, 3, None);
        accepted(&mut job, &mut work, 3);
        refused(&mut job, &mut work, 0, None);
        assert_eq!(job.offer(&rows[..4], &mut work), Ok(1));
        refused(&mut job, &mut work, 2, Some(Error::RowReady));
        job.take(&mut [0; 4], &mut work).unwrap();
        // A band's rest is a band.
        let (mut singly, mut singly_work) = (job.clone(), work);
        assert_eq!(singly.offer(&rows[..4], &mut singly_work), Ok(1));
        refused(&mut singly, &mut singly_work, 1, None);
        accepted(&mut singly, &mut singly_work, 1);
        accepted(&mut job, &mut work, 2);
        assert_eq!(job.offer(&rows[..4], &mut work), Ok(1));
        // The last row is made: ready, taken, and below the crop.
        refused(&mut job, &mut work, 0, None);
        job.take(&mut [0; 4], &mut work).unwrap();
        refused(&mut job, &mut work, 0, None);
        assert_eq!((job.offer(&rows[..4], &mut work), job.accepted()), (Ok(1), 9));
        refused(&mut job, &mut work, 0, None);
        // A height that stays and one that grows have no band, at any row.
        for height in [7, 8, 16] {
            let mut job = Job::start(source, PixelLayout::Argb8, crop, Dimensions::new(1, height).unwrap(), &mut work).unwrap();
            while job.accepted() < 9 {
                refused(&mut job, &mut work, 0, None);
                job.offer(&rows[..4], &mut work).unwrap();
                while job.ready() > 0 {
                    refused(&mut job, &mut work, 0, None);
                    job.take(&mut [0; 4], &mut work).unwrap();
                }
            }
            refused(&mut job, &mut work, 0, None);
        }
        assert_eq!(work[8], 7);
    }

    #[test]
    fn as_many_rows_are_ready_as_can_be_taken() {
        for (height, taller) in [(1, 1), (1, 16384), (2, 5), (3, 1), (7, 7), (5, 16), (16, 5), (2, 16383)] {
            let (source, crop) = (Dimensions::new(1, height + 3).unwrap(), Rect::new(0, 1, 1, height));
            let mut work = [0; 2];
            let mut job = Job::start_plane(source, 1, crop, Dimensions::new(1, taller).unwrap(), &mut work).unwrap();
            while job.accepted() < height + 3 {
                assert_eq!(job.ready(), 0);
                job.offer(&[9], &mut work).unwrap();
                for left in (0..job.ready()).rev() {
                    job.take(&mut [0], &mut work).unwrap();
                    assert!(left % 97 > 3 || job.ready() == left);
                }
                assert_eq!(job.take(&mut [0], &mut work), Err(Error::NoneReady));
            }
            assert!(job.is_done() && job.ready() == 0);
        }
    }

    #[test]
    fn records_from_elsewhere() {
        let fresh = job(&mut [0; 8]).unwrap();
        assert_eq!(Job::from_record(fresh.record()), Ok(fresh.clone()));
        for (at, word) in [(0, 0), (1, 16385), (2, 3), (5, 0), (6, 3), (7, 0), (9, 4), (10, 1), (11, 1), (11, 2), (12, 1), (12, 2), (13, 3), (13, 5)]
        {
            let mut record = fresh.record();
            record[at] = word;
            assert_eq!(Job::from_record(record), Err(Error::InvalidRecord), "word {at} is {word}");
        }
    }
}
