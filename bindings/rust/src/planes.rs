//! A picture of three planes, as cameras and video have it.

use crate::boundary;
use crate::error::{Error, Given, Result};
use crate::image::Dimensions;
use crate::job::Job;

/// The jobs of a 4:2:0 picture: luma in full size, both chroma planes in half of it, rounded up ([`Dimensions::chroma`]), source and target alike; one lane
/// each, uncropped. Each is offered and taken by itself, with work values of its own.
///
/// ```
/// use jonquilsaw::{Dimensions, Error, Planes};
///
/// let (source, target) = (Dimensions::new(4, 2)?, Dimensions::new(2, 1)?);
/// let (mut luma, mut cb, mut cr) = ([0; 4], [0; 2], [0; 2]);
/// let mut planes = Planes::start(source, target, [&mut luma, &mut cb, &mut cr])?;
///
/// assert_eq!(planes.luma.offer(&[10, 20, 30, 40, 10, 20, 30, 40], &mut luma), Ok(2));
/// let mut row = [0; 2];
/// planes.luma.take(&mut row, &mut luma)?;
/// assert_eq!(row, [15, 35]);
/// assert_eq!(planes.cb.source(), source.chroma());
/// # Ok::<(), Error>(())
/// ```
#[derive(Clone, PartialEq, Eq, Hash, Debug)]
pub struct Planes {
    /// Of the luma plane.
    pub luma: Job,
    /// Of the chroma plane Cb.
    pub cb: Job,
    /// Of the chroma plane Cr.
    pub cr: Job,
}

impl Planes {
    /// Starts the three jobs and clears their work values. The sizes are luma's, and the work values those of luma, cb and cr.
    ///
    /// # Errors
    ///
    /// [`Error::WorkLength`] of the first slice that has fewer than [`plane_work_len(1)`](Dimensions::plane_work_len) of its plane's target. No slice is
    /// touched then.
    pub fn start(source: Dimensions, target: Dimensions, work: [&mut [u32]; 3]) -> Result<Self> {
        let needs = [target, target.chroma(), target.chroma()].map(|size| size.plane_work_len(1));
        let found = [work[0].len(), work[1].len(), work[2].len()];
        match boundary::start_planes(source.words(), target.words(), work) {
            Ok([luma, cb, cr]) => Ok(Self { luma: Job::of_fresh(luma), cb: Job::of_fresh(cb), cr: Job::of_fresh(cr) }),
            Err(number) => {
                let short = (0..3).find(|&plane| found[plane] < needs[plane]).unwrap_or(0);
                Err(Error::of(number, Given { work: (needs[short], found[short]), ..Given::default() }))
            }
        }
    }
}
