//! Bands, the rows before the one that makes a preview row ready, lent at once: against the same rows offered singly, without the feature `std` too; and previews
//! of stretches, against those of pieces.

use jonquilsaw::{Dimensions, Error, Job, PixelLayout, Rect};

/// A picture or a plane.
#[derive(Clone, Copy, Debug)]
enum Form {
    Picture(PixelLayout),
    Plane(u32),
}

impl Form {
    const ALL: [Self; 7] = [
        Self::Picture(PixelLayout::Rgba8),
        Self::Picture(PixelLayout::Argb8),
        Self::Picture(PixelLayout::Bgra8),
        Self::Plane(1),
        Self::Plane(2),
        Self::Plane(3),
        Self::Plane(4),
    ];

    fn lanes(self) -> u32 {
        match self {
            Self::Picture(_) => 4,
            Self::Plane(lanes) => lanes,
        }
    }
}

/// What is made of what.
#[derive(Clone, Copy, Debug)]
struct Make {
    form: Form,
    source: Dimensions,
    crop: Rect,
    target: Dimensions,
}

impl Make {
    /// A fresh job, with two work values behind those that it needs.
    fn start(self) -> (Job, Vec<u32>) {
        let mut work = vec![7; self.target.plane_work_len(self.form.lanes()) + 2];
        let job = match self.form {
            Form::Picture(layout) => Job::start(self.source, layout, self.crop, self.target, &mut work),
            Form::Plane(lanes) => Job::start_plane(self.source, lanes, self.crop, self.target, &mut work),
        };
        (job.unwrap(), work)
    }
}

/// Numbers that differ, the same in every run.
struct Numbers(u64);

impl Numbers {
    fn below(&mut self, limit: usize) -> usize {
        self.0 = self.0.wrapping_mul(6_364_136_223_846_793_005).wrapping_add(1_442_695_040_888_963_407);
        usize::try_from(self.0 >> 33).unwrap() % limit
    }

    fn side(&mut self, most: u32) -> u32 {
        1 + u32::try_from(self.below(most as usize)).unwrap()
    }

    fn bytes(&mut self, len: usize) -> Vec<u8> {
        (0..len).map(|_| self.below(256).to_le_bytes()[0]).collect()
    }

    /// Of all kinds, with rows above and below the crop; five heights of six do not grow.
    fn make(&mut self) -> Make {
        let form = Form::ALL[self.below(Form::ALL.len())];
        let source = Dimensions::new(self.side(9), self.side(24)).unwrap();
        let (width, height) = (self.side(source.width()), self.side(source.height()));
        let crop = Rect::new(self.side(source.width() - width + 1) - 1, self.side(source.height() - height + 1) - 1, width, height);
        let most = if self.below(6) == 0 { 2 * height } else { height };
        Make { form, source, crop, target: Dimensions::new(self.side(12), self.side(most)).unwrap() }
    }

    /// With the bytes of its source.
    fn picture(&mut self) -> (Make, Vec<u8>) {
        let make = self.make();
        (make, self.bytes(make.source.plane_byte_len(make.form.lanes())))
    }
}

/// R of the first `accepted` source rows where the height does not grow: how many preview rows they make.
fn made(crop: Rect, target: u32, accepted: u32) -> u32 {
    accepted.saturating_sub(crop.y()).min(crop.height()) * target / crop.height()
}

/// The definition: the rows from the next one due up to, but without, the first at which R rises above what it is.
fn band(source: u32, crop: Rect, target: u32, accepted: u32) -> usize {
    if accepted < crop.y() || target > crop.height() {
        return 0;
    }
    let raises = (accepted..source).find(|&row| made(crop, target, row + 1) > made(crop, target, accepted));
    raises.map_or(0, |row| (row - accepted) as usize)
}

/// Whatever is lent but the next band is 17; the band itself is 5 with too few work values, and then 7 where a row is ready. All stays as it was.
fn refused(job: &mut Job, work: &mut [u32], numbers: &mut Numbers) {
    let before = (job.clone(), work.to_vec());
    let (row, need, expected) = (job.row_len(), job.work_len(), job.band_rows() * job.row_len());
    let lent = vec![9; expected + 2 * row];
    let others = [0, 1, row, expected.saturating_sub(row), expected.saturating_sub(1), expected + 1, expected + row, expected + 2 * row];
    for found in others.into_iter().filter(|&found| expected == 0 || found != expected) {
        let values = numbers.below(need + 3);
        assert_eq!(job.offer_band(&lent[..found], &mut work[..values]), Err(Error::InvalidBand { expected, found }));
    }
    if expected > 0 {
        let found = numbers.below(need);
        assert_eq!(job.offer_band(&lent[..expected], &mut work[..found]), Err(Error::WorkLength { expected: need, found }));
        if job.ready() > 0 {
            assert_eq!(job.offer_band(&lent[..expected], work), Err(Error::RowReady));
        }
    }
    assert!(before == (job.clone(), work.to_vec()));
}

#[test]
fn a_band_leaves_what_its_rows_leave_singly() {
    let (mut numbers, mut bands) = (Numbers(1), 0);
    for turn in 0..1500 {
        let (make, picture) = numbers.picture();
        let ((mut job, mut work), (mut twin, mut twin_work)) = (make.start(), make.start());
        let row = job.row_len();
        while job.accepted() < make.source.height() {
            refused(&mut job, &mut work, &mut numbers);
            let due = job.band_rows();
            assert_eq!(due, band(make.source.height(), make.crop, make.target.height(), job.accepted()), "turn {turn}: {make:?}");
            let rest = &picture[job.accepted() as usize * row..];
            if due > 0 && numbers.below(4) > 0 {
                let lent = &rest[..due * row];
                assert_eq!(job.offer_band(lent, &mut work), Ok(due), "turn {turn}: {make:?}");
                assert!(lent.chunks_exact(row).all(|row| twin.offer(row, &mut twin_work) == Ok(1)));
                assert_eq!((job.ready(), job.band_rows()), (0, 0));
                bands += 1;
            } else {
                let lent = &rest[..row * (1 + numbers.below(3)).min(rest.len() / row)];
                let accepted = job.offer(lent, &mut work).unwrap();
                assert_eq!(twin.offer(lent, &mut twin_work), Ok(accepted));
            }
            assert!((&job, &work) == (&twin, &twin_work), "turn {turn}: {make:?}");
            while job.ready() > 0 {
                refused(&mut job, &mut work, &mut numbers);
                let (mut out, mut twin_out) = (vec![1; job.out_len()], vec![2; job.out_len()]);
                assert_eq!((job.take(&mut out, &mut work), twin.take(&mut twin_out, &mut twin_work)), (Ok(()), Ok(())));
                assert_eq!(out, twin_out, "turn {turn}: {make:?}");
            }
        }
        refused(&mut job, &mut work, &mut numbers);
        assert!(job.is_done() && job.band_rows() == 0 && work.ends_with(&[7, 7]));
    }
    assert!(bands > 1000, "{bands} bands");
}

/// Every count of accepted rows; those of a source that is as high as it can be, too.
#[test]
fn a_band_ends_before_the_row_at_which_one_more_is_made() -> Result<(), Error> {
    let record = |crop: Rect, target, below, accepted| {
        let source = crop.y() + crop.height() + below;
        let taken = if target > crop.height() { 0 } else { made(crop, target, accepted) };
        Job::from_record([1, source, 0, 0, crop.y(), 1, crop.height(), 1, target, accepted, taken, 0, 1, 1])
    };
    for (height, above, below) in (1..=24).flat_map(|height| [(0, 0), (2, 0), (0, 1), (3, 2)].map(|(above, below)| (height, above, below))) {
        let crop = Rect::new(0, above, 1, height);
        for target in 1..=height {
            for accepted in 0..=above + height + below {
                let job = record(crop, target, below, accepted)?;
                assert_eq!(job.band_rows(), band(above + height + below, crop, target, accepted), "{crop:?} to {target} at {accepted}");
            }
        }
        // Growing, before the first row: records of later rows have rows taken.
        assert_eq!(record(crop, height + 1, below, 0)?.band_rows(), 0);
    }
    let crop = Rect::new(0, 0, 1, 16384);
    for target in [1, 2, 3, 5, 127, 5461, 8191, 8192, 8193, 16383, 16384] {
        // From the last row upwards: a row that raises R has no band, and any other has one row more than the next.
        let mut due = 0;
        for accepted in (0..16384).rev() {
            due = if made(crop, target, accepted + 1) > made(crop, target, accepted) { 0 } else { due + 1 };
            assert_eq!(record(crop, target, 0, accepted)?.band_rows(), due, "to {target} at {accepted}");
        }
        assert_eq!(record(crop, target, 0, 16384)?.band_rows(), 0);
    }
    Ok(())
}

/// The first half of the work values has the sums, the second the row that came last, as lent.
#[test]
fn rows_of_a_band_in_any_order_make_the_same_sums() -> Result<(), Error> {
    // 10, 20 and 30 of one lane, one pixel wide.
    let source = Dimensions::new(1, 4)?;
    let mut work = [0; 2];
    let fresh = Job::start_plane(source, 1, Rect::of(source), Dimensions::new(1, 1)?, &mut work)?;
    for rows in [[10, 20, 30], [10, 30, 20], [20, 10, 30], [20, 30, 10], [30, 10, 20], [30, 20, 10]] {
        let mut work = [0; 2];
        assert_eq!(fresh.clone().offer_band(&rows, &mut work), Ok(3));
        assert_eq!(work, [60, u32::from(rows[2])]);
    }
    let mut numbers = Numbers(3);
    for turn in 0..300 {
        let (make, picture) = numbers.picture();
        let (mut job, mut work) = make.start();
        let row = job.row_len();
        while job.accepted() < make.source.height() {
            let (due, from) = (job.band_rows(), job.accepted() as usize * row);
            if due == 0 {
                job.offer(&picture[from..from + row], &mut work).unwrap();
                while job.ready() > 0 {
                    job.take(&mut vec![0; job.out_len()], &mut work).unwrap();
                }
                continue;
            }
            let mut order: Vec<_> = (0..due).collect();
            for i in 1..due {
                order.swap(i, numbers.below(i + 1));
            }
            let turned: Vec<_> = order.iter().flat_map(|i| &picture[from + i * row..][..row]).copied().collect();
            let (mut other, mut other_work) = (job.clone(), work.clone());
            assert_eq!(other.offer_band(&turned, &mut other_work), Ok(due));
            assert_eq!(job.offer_band(&picture[from..from + due * row], &mut work), Ok(due));
            let half = job.work_len() / 2;
            assert!(job == other && work[..half] == other_work[..half], "turn {turn}: {make:?} in the order {order:?}");
        }
    }
    Ok(())
}

#[cfg(feature = "std")]
mod previews {
    use super::{Form, Make, Numbers};
    use jonquilsaw::{Dimensions, Error, PixelLayout, Preview, PreviewError, Rect};

    fn preview(make: Make) -> Preview {
        match make.form {
            Form::Picture(layout) => Preview::new(make.source, layout, make.crop, make.target),
            Form::Plane(lanes) => Preview::plane(make.source, lanes, make.crop, make.target),
        }
        .unwrap()
    }

    fn wrong(expected: usize, found: usize) -> Result<(), PreviewError> {
        Err(PreviewError::Refused(Error::InvalidBand { expected, found }))
    }

    /// The rows and the flag of the whole picture, fed at once.
    fn fed(make: Make, picture: &[u8]) -> (Vec<u8>, bool) {
        let (mut preview, mut rows) = (preview(make), Vec::new());
        preview.feed(picture, |row| rows.extend_from_slice(row)).unwrap();
        (rows, preview.finish().unwrap())
    }

    /// Each stretch in a buffer that is filled from its end, as a decoder does.
    #[test]
    fn stretches_make_what_pieces_make() {
        let mut numbers = Numbers(5);
        for turn in 0..1500 {
            let (make, picture) = numbers.picture();
            let mut preview = preview(make);
            let (row, mut buffer, mut rows, mut next) = (preview.job().row_len(), Vec::new(), Vec::new(), 0);
            while !preview.stretch().is_empty() {
                let stretch = preview.stretch();
                assert!(stretch.start == next && (stretch.len() == 1 || stretch.len() == preview.job().band_rows()));
                next = stretch.end;
                buffer.resize(stretch.len() * row, 0);
                for (y, filled) in stretch.zip(buffer.chunks_exact_mut(row)).rev() {
                    filled.copy_from_slice(&picture[y as usize * row..][..row]);
                }
                preview.push_stretch(&buffer).unwrap();
                assert_eq!(preview.missing(), picture.len() - next as usize * row);
                while let Some(row) = preview.next_row() {
                    rows.extend_from_slice(row);
                }
            }
            assert!(preview.is_done());
            assert_eq!((rows, preview.finish().unwrap()), fed(make, &picture), "turn {turn}: {make:?}");
        }
    }

    /// Stretches between pieces of any length, whole rows among them, and stretches that are turned away between those.
    #[test]
    fn stretches_and_pieces_in_turn() {
        let mut numbers = Numbers(7);
        for turn in 0..1500 {
            let (make, picture) = numbers.picture();
            let mut preview = preview(make);
            let (row, mut rows) = (preview.job().row_len(), Vec::new());
            while preview.missing() > 0 {
                let rest = &picture[picture.len() - preview.missing()..];
                let expected = preview.stretch().len() * row;
                // A row that has come in part leaves no stretch.
                assert_eq!(expected == 0, rest.len() % row > 0);
                let found = numbers.below(expected + 2 * row).min(rest.len());
                if found != expected || found == 0 {
                    assert_eq!(preview.push_stretch(&rest[..found]), wrong(expected, found), "turn {turn}: {make:?}");
                    assert_eq!(preview.missing(), rest.len());
                }
                match numbers.below(4) {
                    0 | 1 if expected > 0 => assert_eq!(preview.push_stretch(&rest[..expected]), Ok(())),
                    2 if expected > 0 => assert!(preview.push(&rest[..row]) == Ok(row)),
                    _ => assert!(preview.push(&rest[..=numbers.below(rest.len().min(3 * row))]).unwrap() > 0),
                }
                // It is told while a row is ready, and is the same after that.
                let stretch = preview.stretch();
                loop {
                    let answer = preview.clone().push_stretch(&[]);
                    let Some(ready) = preview.next_row() else { break };
                    rows.extend_from_slice(ready);
                    assert_eq!(answer, Err(PreviewError::RowReady));
                    assert_eq!(preview.stretch(), stretch);
                }
            }
            assert_eq!(preview.stretch(), make.source.height()..make.source.height());
            assert_eq!(
                (preview.push_stretch(&[]), preview.push_stretch(&picture)),
                (Err(PreviewError::TooManyBytes), Err(PreviewError::TooManyBytes))
            );
            assert_eq!((rows, preview.finish().unwrap()), fed(make, &picture), "turn {turn}: {make:?}");
        }
    }

    /// 1 by 8, its rows 1 to 6 to two: row 0 comes singly, 1 and 2 are a band, 3 makes a row ready, 4 and 5 are a band, 6 makes a row ready, 7 comes singly.
    #[test]
    fn one_preview_row_by_row() -> Result<(), Error> {
        let source = Dimensions::new(1, 8)?;
        let mut preview = Preview::new(source, PixelLayout::Rgba8, Rect::new(0, 1, 1, 6), Dimensions::new(1, 2)?)?;
        let lent = [255; 40];
        for (stretch, makes) in [(0..1, false), (1..3, false), (3..4, true), (4..6, false), (6..7, true), (7..8, false)] {
            let expected = 4 * stretch.len();
            assert_eq!(preview.stretch(), stretch);
            for found in (0..=40).filter(|&found| found != expected) {
                assert_eq!(preview.push_stretch(&lent[..found]), wrong(expected, found));
            }
            // The first byte of a row, by itself: the rest of it is for `push`, and then a stretch is due again.
            let mut cut = preview.clone();
            assert_eq!(cut.push(&lent[..1]), Ok(1));
            assert!(cut.stretch().is_empty());
            for found in [0, 3, 4, expected] {
                assert_eq!(cut.push_stretch(&lent[..found]), wrong(0, found));
            }
            assert_eq!(cut.push(&lent[..3]), Ok(3));
            assert_eq!(cut.stretch().start, stretch.start + 1);

            assert_eq!(preview.push_stretch(&lent[..expected]), Ok(()));
            if makes {
                // A row that is ready is told first, of whatever is lent.
                for found in 0..=40 {
                    assert_eq!(preview.push_stretch(&lent[..found]), Err(PreviewError::RowReady));
                }
                assert_eq!(preview.next_row(), Some(&lent[..4]));
            }
            assert_eq!(preview.next_row(), None);
        }
        assert_eq!((preview.stretch(), preview.finish()), (8..8, Ok(false)));
        assert_eq!(preview.push_stretch(&lent[..4]), Err(PreviewError::TooManyBytes));
        let why = wrong(24, 16).unwrap_err();
        assert_eq!((why.to_string(), Error::try_from(why).map(Error::number)), ("the next band has 24 bytes and not 16".into(), Ok(17)));
        Ok(())
    }
}
