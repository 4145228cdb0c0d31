//! Several previews of one source in one pass: a group of jobs that are offered the same rows.

use crate::boundary::{self, GroupRecord, PlanWords};
use crate::error::{Error, Given, Result};
use crate::geometry::Rect;
use crate::image::{Dimensions, MAX_LANES, PixelLayout};
use crate::job::{Job, Kind};

/// The most jobs of a [`Group`]: six. A seventh is [`Error::GroupTooLarge`].
pub const GROUP_LIMIT: usize = 6;

/// What a job of a [`Group`] makes: the window `crop` of a source, scaled to `target`.
///
/// It is held against the library's rules only where a group is started.
#[derive(Clone, Copy, PartialEq, Eq, Hash, Debug)]
pub struct Plan {
    source: Dimensions,
    layout: PixelLayout,
    crop: Rect,
    target: Dimensions,
    kind: Kind,
    lanes: u32,
}

impl Plan {
    /// Of a picture, as [`Job::start`] has it.
    #[must_use]
    pub const fn picture(source: Dimensions, layout: PixelLayout, crop: Rect, target: Dimensions) -> Self {
        Self { source, layout, crop, target, kind: Kind::Picture, lanes: MAX_LANES }
    }

    /// Of a plane, as [`Job::start_plane`] has it.
    #[must_use]
    pub const fn plane(source: Dimensions, lanes: u32, crop: Rect, target: Dimensions) -> Self {
        Self { source, layout: PixelLayout::Rgba8, crop, target, kind: Kind::Plane, lanes }
    }

    /// The work values that its job needs: 2 × lanes × target width.
    #[must_use]
    pub const fn work_len(self) -> usize {
        self.target.plane_work_len(self.lanes)
    }

    /// The work values to try a start with: more lanes are refused before the work values are counted.
    #[cfg(feature = "std")]
    pub(crate) fn room(self) -> usize {
        self.target.plane_work_len(self.lanes.min(MAX_LANES))
    }

    fn words(self) -> PlanWords {
        let ([width, height], [x, y, crop_width, crop_height], [target_width, target_height]) =
            (self.source.words(), self.crop.words(), self.target.words());
        let kind = match self.kind {
            Kind::Picture => 0,
            Kind::Plane => 1,
        };
        [width, height, self.layout.word(), x, y, crop_width, crop_height, target_width, target_height, kind, self.lanes]
    }
}

/// Jobs over the same source that are offered its rows together: several previews in one pass. Each is what its job would make alone.
///
/// It holds the jobs' records, [`GROUP_LIMIT`] of them at most. The jobs are counted from 0, in the order of their plans. The work values are lent to every call
/// and must be those that the call before left; each job has a part of its own among them, in the same order, and [`Group::work_len_of`] counts them all.
///
/// ```
/// use jonquilsaw::{Dimensions, Error, Group, PixelLayout, Plan, Rect};
///
/// let source = Dimensions::new(2, 2)?;
/// let to = |target| Plan::picture(source, PixelLayout::Rgba8, Rect::of(source), target);
/// let plans = [to(source), to(Dimensions::new(1, 1)?)];
/// let mut work = [0; 24];
/// assert_eq!(Group::work_len_of(&plans), work.len());
/// let mut group = Group::start(&plans, &mut work)?;
///
/// // The first row makes one of the first preview ready, and both go on when it was taken.
/// let rows = [10, 10, 10, 255, 20, 20, 20, 255, 30, 30, 30, 255, 40, 40, 40, 255];
/// assert_eq!(group.offer(&rows, &mut work), Ok(1));
/// assert_eq!((group.ready(0), group.ready(1)), (1, 0));
/// assert_eq!(group.offer(&rows[8..], &mut work), Err(Error::RowReady));
/// let mut row = [0; 8];
/// group.take(0, &mut row, &mut work)?;
/// assert_eq!(row, rows[..8]);
///
/// assert_eq!(group.offer(&rows[8..], &mut work), Ok(1));
/// group.take(0, &mut row, &mut work)?;
/// group.take(1, &mut row[..4], &mut work)?;
/// assert_eq!(row[..4], [25, 25, 25, 255]);
/// assert!(group.is_done());
/// # Ok::<(), Error>(())
/// ```
#[derive(Clone, PartialEq, Eq, Hash, Debug)]
pub struct Group {
    /// The words beyond its last job's are 0.
    record: GroupRecord,
}

impl Group {
    /// Starts a job for each plan and clears their work values.
    ///
    /// # Errors
    ///
    /// Each of these is looked for over all plans before the next: [`Error::InvalidDimensions`] if a crop is empty, [`Error::InvalidLanes`] if a plane's lanes
    /// aren't 1 to 4, [`Error::CropOutOfBounds`] if a crop does not lie inside its source, [`Error::InvalidGroup`] if there is no plan or their sources, layouts,
    /// kinds or lanes differ, [`Error::GroupTooLarge`] if there are more than [`GROUP_LIMIT`], of which only the first so many were looked at, and
    /// [`Error::WorkLength`] if `work` has fewer than [`Group::work_len_of`] values.
    pub fn start(plans: &[Plan], work: &mut [u32]) -> Result<Self> {
        let looked = &plans[..plans.len().min(GROUP_LIMIT)];
        let mut words = [[0; 11]; GROUP_LIMIT];
        for (words, plan) in words.iter_mut().zip(looked) {
            *words = plan.words();
        }
        let (count, found) = (u32::try_from(plans.len()).unwrap_or(u32::MAX), work.len());
        match boundary::start_group(&words[..looked.len()], count, work) {
            Ok(record) => Ok(Self { record }),
            Err(number) => {
                let refused = |plan: &&Plan| plan.crop.fits(plan.source).is_err_and(|why| why.number() == number);
                let given = Given {
                    window: looked.iter().find(refused).map(|plan| (plan.crop, plan.source)),
                    lanes: looked.iter().map(|plan| plan.lanes).find(|lanes| !(1..=MAX_LANES).contains(lanes)).unwrap_or_default(),
                    jobs: plans.len(),
                    work: (Self::work_len_of(looked), found),
                    ..Given::default()
                };
                Err(Error::of(number, given))
            }
        }
    }

    /// The work values that the jobs of these plans need together, the fewest that every call of their group asks for.
    #[must_use]
    pub fn work_len_of(plans: &[Plan]) -> usize {
        plans.iter().map(|plan| plan.work_len()).sum()
    }

    /// A group from the words that [`Self::record`] gave, to go on elsewhere with a copy of the work values. Words after those of the last job say nothing.
    ///
    /// # Errors
    ///
    /// [`Error::InvalidRecord`] if no group can have these words: a job's record is none, the jobs differ in rows accepted, or no group is started so.
    pub fn from_record(record: &[u32]) -> Result<Self> {
        let mut group = Self { record: [0; 1 + 14 * GROUP_LIMIT] };
        let words = record.len().min(group.record.len());
        group.record[..words].copy_from_slice(&record[..words]);
        // A take tests the record first, where a job of words that are not there is none, and turns a job that no group has away next: all stays as it was.
        match boundary::take_group(&mut group.record, u32::MAX, &mut [], &mut []) {
            Err(13) => {
                let after = group.record().len();
                group.record[after..].fill(0);
                Ok(group)
            }
            _ => Err(Error::InvalidRecord),
        }
    }

    /// The group's words: how many jobs, then each job's fourteen ([`Job::record`]).
    #[must_use]
    pub fn record(&self) -> &[u32] {
        &self.record[..=14 * self.count()]
    }

    /// Offers one or more whole source rows to all jobs, from the first that was not accepted yet, and returns how many were accepted, at least one. It stops
    /// at the first row that makes a preview row of any job ready and at the source's last: offer the rest after taking what is ready.
    ///
    /// # Errors
    ///
    /// [`Error::PixelBufferMismatch`] if `rows` is empty or no whole number of source rows ([`Self::row_len`]), [`Error::WorkLength`], [`Error::RowReady`] if a
    /// preview row of any job has to be taken first, [`Error::AllAccepted`]. The group and `work` stay as they were.
    pub fn offer(&mut self, rows: &[u8], work: &mut [u32]) -> Result<usize> {
        let found = (rows.len(), work.len());
        match boundary::offer_group(&mut self.record, rows, work) {
            Ok(count) => Ok(count as usize),
            Err(number) => Err(Error::of(number, Given { pixels: (self.row_len(), found.0), work: (self.work_len(), found.1), ..Given::default() })),
        }
    }

    /// Takes the next preview row of a job.
    ///
    /// # Errors
    ///
    /// [`Error::InvalidGroup`] if the group lacks the job, [`Error::OutputLength`] if `out` isn't exactly a row of its target ([`Job::out_len`]),
    /// [`Error::WorkLength`], [`Error::NoneReady`]. The group, `out` and `work` stay as they were.
    pub fn take(&mut self, job: usize, out: &mut [u8], work: &mut [u32]) -> Result<()> {
        let found = (out.len(), work.len());
        boundary::take_group(&mut self.record, u32::try_from(job).unwrap_or(u32::MAX), out, work).map_err(|number| {
            let expected = self.job(job).map_or(0, |job| job.out_len());
            Error::of(number, Given { out: (expected, found.0), work: (self.work_len(), found.1), ..Given::default() })
        })
    }

    /// The preview rows of a job that are ready and not taken; 0 for one that the group lacks.
    #[must_use]
    pub fn ready(&self, job: usize) -> u32 {
        self.job(job).map_or(0, |job| job.ready())
    }

    /// A copy of a job, unless the group lacks it: its sizes, and how far it is.
    #[must_use]
    pub fn job(&self, job: usize) -> Option<Job> {
        (job < self.count()).then(|| self.at(job))
    }

    /// Copies of the jobs, in the order of their plans.
    #[must_use]
    pub fn jobs(&self) -> impl ExactSizeIterator<Item = Job> {
        (0..self.count()).map(|job| self.at(job))
    }

    /// The bytes of a source row: lanes × width.
    #[must_use]
    pub fn row_len(&self) -> usize {
        self.at(0).row_len()
    }

    /// The fewest work values that every call asks for: those of all jobs.
    #[must_use]
    pub fn work_len(&self) -> usize {
        self.jobs().map(|job| job.work_len()).sum()
    }

    /// The source's size.
    #[must_use]
    pub fn source(&self) -> Dimensions {
        self.at(0).source()
    }

    /// Source rows accepted, by every job alike.
    #[must_use]
    pub fn accepted(&self) -> u32 {
        self.at(0).accepted()
    }

    /// Whether every preview row of every job was taken. Source rows below the crops may still be accepted.
    #[must_use]
    pub fn is_done(&self) -> bool {
        self.jobs().all(|job| job.is_done())
    }

    const fn count(&self) -> usize {
        self.record[0] as usize
    }

    /// A job that the group has; it has the first, whose source and rows accepted are every job's.
    fn at(&self, job: usize) -> Job {
        Job::of_fresh(core::array::from_fn(|word| self.record[1 + 14 * job + word]))
    }
}
