//! Groups: several previews of one source in one pass, each against the same preview made alone.
#![cfg(feature = "std")]

mod pictures;

use jonquilsaw::{Dimensions, Error, GROUP_LIMIT, Group, GroupPreview, Job, PixelLayout, Plan, Preview, PreviewError, Rect};
use pictures::{bytes, cases, size, whole};

/// What a group's jobs have in common.
#[derive(Clone, Copy, Debug)]
enum Form {
    Picture(PixelLayout),
    Plane(u32),
}

impl Form {
    const ALL: [Self; 7] = [
        Self::Picture(PixelLayout::Rgba8),
        Self::Picture(PixelLayout::Argb8),
        Self::Picture(PixelLayout::Bgra8),
        Self::Plane(1),
        Self::Plane(2),
        Self::Plane(3),
        Self::Plane(4),
    ];

    fn plan(self, source: Dimensions, (crop, target): (Rect, Dimensions)) -> Plan {
        match self {
            Self::Picture(layout) => Plan::picture(source, layout, crop, target),
            Self::Plane(lanes) => Plan::plane(source, lanes, crop, target),
        }
    }

    fn plans(self, source: Dimensions, makes: &[(Rect, Dimensions)]) -> Vec<Plan> {
        makes.iter().map(|&make| self.plan(source, make)).collect()
    }

    fn alone(self, source: Dimensions, (crop, target): (Rect, Dimensions)) -> Preview {
        match self {
            Self::Picture(layout) => Preview::new(source, layout, crop, target).unwrap(),
            Self::Plane(lanes) => Preview::plane(source, lanes, crop, target).unwrap(),
        }
    }

    fn bytes(self, source: Dimensions) -> Vec<u8> {
        match self {
            Self::Picture(_) => bytes(source.byte_len()),
            Self::Plane(lanes) => bytes(source.plane_byte_len(lanes)),
        }
    }
}

/// The rows and the flag of each preview, made alone.
fn alone(form: Form, source: Dimensions, makes: &[(Rect, Dimensions)], picture: &[u8]) -> (Vec<Vec<u8>>, Vec<bool>) {
    let one = |&make: &(Rect, Dimensions)| {
        let mut preview = form.alone(source, make);
        let mut rows = Vec::new();
        preview.feed(picture, |row| rows.extend_from_slice(row)).unwrap();
        (rows, preview.finish().unwrap())
    };
    makes.iter().map(one).unzip()
}

/// The same, in one pass over the pieces.
fn together<'a>(plans: &[Plan], pieces: impl IntoIterator<Item = &'a [u8]>) -> (Vec<Vec<u8>>, Vec<bool>) {
    let mut previews = GroupPreview::new(plans).unwrap();
    let mut made = vec![Vec::new(); plans.len()];
    for piece in pieces {
        previews.feed(piece, |job, row| made[job].extend_from_slice(row)).unwrap();
    }
    assert!(previews.is_done());
    (made, previews.finish().unwrap())
}

/// Numbers that differ, the same in every run.
struct Numbers(u64);

impl Numbers {
    fn below(&mut self, limit: usize) -> usize {
        self.0 = self.0.wrapping_mul(6_364_136_223_846_793_005).wrapping_add(1_442_695_040_888_963_407);
        usize::try_from(self.0 >> 33).unwrap() % limit
    }

    fn side(&mut self, most: u32) -> u32 {
        1 + u32::try_from(self.below(most as usize)).unwrap()
    }

    fn size(&mut self, most: u32) -> Dimensions {
        size(self.side(most), self.side(most))
    }

    fn crop(&mut self, source: Dimensions) -> Rect {
        let (width, height) = (self.side(source.width()), self.side(source.height()));
        Rect::new(self.side(source.width() - width + 1) - 1, self.side(source.height() - height + 1) - 1, width, height)
    }

    /// Cuts anywhere, into pieces of less than `most` bytes; some are empty.
    fn pieces<'a>(&mut self, mut rest: &'a [u8], most: usize) -> Vec<&'a [u8]> {
        let mut pieces = Vec::new();
        while !rest.is_empty() {
            let (piece, after) = rest.split_at(self.below(most).min(rest.len()));
            pieces.push(piece);
            rest = after;
        }
        pieces
    }
}

/// A source and what is made of it: sizes that grow, shrink and stay, crops that leave rows above and below.
fn three() -> (Dimensions, [(Rect, Dimensions); 3]) {
    let source = size(3, 4);
    (source, [(Rect::new(1, 1, 2, 2), size(2, 1)), (Rect::of(source), size(2, 6)), (Rect::of(source), source)])
}

#[test]
fn cut_at_every_two_places() {
    let (source, makes) = three();
    for form in [Form::Picture(PixelLayout::Argb8), Form::Plane(1), Form::Plane(3)] {
        let picture = form.bytes(source);
        let (plans, expected) = (form.plans(source, &makes), alone(form, source, &makes, &picture));
        for first in 0..=picture.len() {
            for second in first..=picture.len() {
                let pieces = [&picture[..first], &picture[first..second], &picture[second..]];
                assert_eq!(together(&plans, pieces), expected, "{form:?} cut at {first} and {second}");
            }
        }
    }
}

#[test]
fn each_is_the_picture_scaled_whole() {
    for (source, layout, crop, target) in cases() {
        let picture = bytes(source.byte_len());
        let makes = [(crop, target), (Rect::of(source), target), (crop, size(target.height(), target.width())), (crop, source)];
        let (made, flags) = together(&Form::Picture(layout).plans(source, &makes), picture.chunks(5));
        for ((crop, target), (rows, flag)) in makes.into_iter().zip(made.into_iter().zip(flags)) {
            let expected = whole(source, layout, crop, target, &picture);
            assert_eq!((&rows[..], flag), (expected.as_bytes(), expected.has_alpha()), "{source:?} {layout:?} {crop:?} {target:?}");
        }
    }
}

#[test]
fn three_previews_of_a_larger_picture_in_uneven_pieces() {
    let source = size(301, 207);
    let makes = [(Rect::of(source), size(128, 88)), (Rect::new(17, 20, 250, 180), size(64, 47)), (Rect::of(source), size(340, 230))];
    for (form, seed) in Form::ALL.into_iter().zip(1..) {
        let picture = form.bytes(source);
        let expected = alone(form, source, &makes, &picture);
        let pieces = Numbers(seed).pieces(&picture, 5003);
        assert!(together(&form.plans(source, &makes), pieces) == expected, "{form:?}");
    }
}

#[test]
fn any_sizes_in_any_pieces() {
    let mut numbers = Numbers(5);
    for turn in 0..2000 {
        let form = Form::ALL[numbers.below(Form::ALL.len())];
        let source = numbers.size(24);
        let count = 1 + numbers.below(GROUP_LIMIT);
        let makes: Vec<_> = (0..count).map(|_| (numbers.crop(source), numbers.size(30))).collect();
        let picture = form.bytes(source);
        let most = 2 + numbers.below(3 * picture.len() / 2);
        let pieces = numbers.pieces(&picture, most);
        let made = together(&form.plans(source, &makes), pieces);
        assert!(made == alone(form, source, &makes, &picture), "turn {turn}: {form:?} {source:?} {makes:?}");
    }
}

#[test]
fn a_group_goes_as_its_jobs_do_alone() {
    let mut numbers = Numbers(9);
    for turn in 0..500 {
        let form = Form::ALL[numbers.below(Form::ALL.len())];
        let source = numbers.size(12);
        let count = 1 + numbers.below(GROUP_LIMIT);
        let makes: Vec<_> = (0..count).map(|_| (numbers.crop(source), numbers.size(20))).collect();
        let (plans, picture) = (form.plans(source, &makes), form.bytes(source));
        // Two values more than are needed, which nobody touches.
        let mut work = vec![7; Group::work_len_of(&plans) + 2];
        let mut group = Group::start(&plans, &mut work).unwrap();
        assert_eq!((group.jobs().len(), group.work_len(), group.source()), (count, work.len() - 2, source));
        let mut jobs: Vec<_> = plans
            .iter()
            .zip(&makes)
            .map(|(plan, &(crop, target))| {
                let mut work = vec![7; plan.work_len()];
                let job = match form {
                    Form::Picture(layout) => Job::start(source, layout, crop, target, &mut work),
                    Form::Plane(lanes) => Job::start_plane(source, lanes, crop, target, &mut work),
                };
                (job.unwrap(), work)
            })
            .collect();
        while !group.is_done() {
            let at = group.accepted() as usize * group.row_len();
            let lent = &picture[at..at + group.row_len() * (1 + numbers.below((source.height() - group.accepted()) as usize))];
            let accepted = group.offer(lent, &mut work).unwrap();
            let ready = (0..count).any(|job| group.ready(job) > 0);
            assert!(accepted * group.row_len() == lent.len() || ready, "turn {turn}: stopped for nothing");
            for (job, work) in &mut jobs {
                assert_eq!(job.offer(&lent[..accepted * group.row_len()], work), Ok(accepted), "turn {turn}");
            }
            // In any order of the jobs, until none has a row.
            while (0..count).any(|job| group.ready(job) > 0) {
                assert_eq!(group.offer(lent, &mut work), Err(Error::RowReady));
                let at = numbers.below(count);
                let (job, own) = &mut jobs[at];
                let (mut row, mut other) = (vec![1; job.out_len()], vec![2; job.out_len()]);
                let (ready, taken) = (group.ready(at), group.take(at, &mut row, &mut work));
                assert_eq!((ready, taken), (job.ready(), job.take(&mut other, own)));
                assert!(taken == Err(Error::NoneReady) || row == other, "turn {turn}");
            }
            assert!(group.jobs().eq(jobs.iter().map(|(job, _)| job.clone())), "turn {turn}");
            assert!(work.iter().eq(jobs.iter().flat_map(|(_, work)| work).chain(&[7, 7])), "turn {turn}: a part of the work values is another");
        }
        assert_eq!(Group::from_record(group.record()), Ok(group));
    }
}

#[test]
fn a_group_of_one_is_its_job() {
    let (source, makes) = three();
    for form in Form::ALL {
        let picture = form.bytes(source);
        for make in makes {
            let plan = [form.plan(source, make)];
            let expected = alone(form, source, &[make], &picture);
            for length in 1..=picture.len() {
                assert_eq!(together(&plan, picture.chunks(length)), expected);
            }
            let previews = GroupPreview::new(&plan).unwrap();
            assert_eq!(previews.group().job(0).as_ref(), Some(form.alone(source, make).job()));
            assert_eq!(previews.group().job(1), None);
            assert_eq!(previews.group().record()[0], 1);
            assert_eq!(previews.group().record()[1..], form.alone(source, make).job().record());
        }
    }
}

#[test]
fn as_many_as_the_limit_and_no_more() {
    let (source, makes) = three();
    let form = Form::Picture(PixelLayout::Rgba8);
    let makes: Vec<_> = makes.into_iter().cycle().take(GROUP_LIMIT).collect();
    let picture = form.bytes(source);
    let mut plans = form.plans(source, &makes);
    assert_eq!(together(&plans, picture.chunks(5)), alone(form, source, &makes, &picture));
    for jobs in GROUP_LIMIT + 1..GROUP_LIMIT + 4 {
        plans.push(plans[0]);
        assert_eq!(GroupPreview::new(&plans).unwrap_err(), Error::GroupTooLarge { jobs });
        let mut work = vec![7; Group::work_len_of(&plans)];
        assert_eq!(Group::start(&plans, &mut work), Err(Error::GroupTooLarge { jobs }));
        assert!(work.iter().all(|&value| value == 7));
    }
}

#[test]
fn six_and_seven() {
    assert_eq!(GROUP_LIMIT, 6);
    let (source, target) = (size(4, 3), size(2, 2));
    for form in Form::ALL {
        let plans = [form.plan(source, (Rect::of(source), target)); 7];
        let mut work = vec![7; Group::work_len_of(&plans)];
        assert_eq!(Group::start(&plans, &mut work), Err(Error::GroupTooLarge { jobs: 7 }));
        assert_eq!(GroupPreview::new(&plans).unwrap_err(), Error::GroupTooLarge { jobs: 7 });
        assert!(work.iter().all(|&value| value == 7));
        let group = Group::start(&plans[..6], &mut work).unwrap();
        assert_eq!(group.record()[0], 6);
        assert!(group.job(5).is_some() && group.job(6).is_none());
        assert!(GroupPreview::new(&plans[..6]).is_ok());
    }
}

#[test]
fn jobs_that_differ_and_a_group_of_none() {
    let (source, target) = (size(4, 3), size(2, 2));
    let make = (Rect::new(0, 0, 3, 2), target);
    assert_eq!(GroupPreview::new(&[]).unwrap_err(), Error::InvalidGroup);
    assert_eq!(Group::start(&[], &mut []), Err(Error::InvalidGroup));
    let picture = Form::Picture(PixelLayout::Rgba8).plan(source, make);
    for other in [
        Form::Picture(PixelLayout::Rgba8).plan(size(5, 3), make),
        Form::Picture(PixelLayout::Rgba8).plan(size(4, 4), make),
        Form::Picture(PixelLayout::Argb8).plan(source, make),
        Form::Picture(PixelLayout::Bgra8).plan(source, make),
        Form::Plane(4).plan(source, make),
        Form::Plane(1).plan(source, make),
    ] {
        for plans in [&[picture, other][..], &[other, picture], &[picture, picture, other], &[other, other, picture, other]] {
            let mut work = vec![7; Group::work_len_of(plans)];
            assert_eq!(Group::start(plans, &mut work), Err(Error::InvalidGroup));
            assert!(work.iter().all(|&value| value == 7));
            assert_eq!(GroupPreview::new(plans).unwrap_err(), Error::InvalidGroup);
        }
    }
    for (lanes, other) in (1..=4).flat_map(|lanes| (1..=4).map(move |other| (lanes, other))) {
        let both = [Form::Plane(lanes).plan(source, make), Form::Plane(other).plan(source, make)];
        assert_eq!(GroupPreview::new(&both).is_ok(), lanes == other);
    }
}

#[test]
fn every_number_over_all_jobs_before_the_next() {
    let source = size(4, 3);
    let plane = |lanes, crop| Plan::plane(source, lanes, crop, size(2, 2));
    let (fits, empty, beyond) = (Rect::of(source), Rect::new(9, 0, 0, 1), Rect::new(2, 0, 3, 1));
    let (good, no_size, no_lanes, no_crop) = (plane(1, fits), plane(1, empty), plane(5, fits), plane(1, beyond));
    let (one, two) = (empty.fits(source).unwrap_err(), beyond.fits(source).unwrap_err());
    assert_eq!((one.number(), two.number()), (1, 2));
    let ten = Error::InvalidLanes { value: 5 };
    let mut work = vec![7; 100];
    let mut refused = |plans: &[Plan], why: Error| {
        assert_eq!(Group::start(plans, &mut work), Err(why));
        assert_eq!(Group::start(plans, &mut []), Err(why));
        assert_eq!(GroupPreview::new(plans).unwrap_err(), why);
        assert!(work.iter().all(|&value| value == 7));
    };
    refused(&[good, no_crop, no_lanes, no_size], one);
    refused(&[no_lanes, no_size, no_crop, good], one);
    refused(&[no_crop, no_lanes, good], ten);
    refused(&[good, no_crop, plane(2, fits)], two);
    refused(&[good, plane(2, fits)], Error::InvalidGroup);
    refused(&[plane(0, fits), no_lanes], Error::InvalidLanes { value: 0 });
    // A picture has no lanes to be asked for.
    refused(&[Plan::picture(source, PixelLayout::Rgba8, fits, source), no_lanes], ten);
    // The last of those that are looked at, and the first that is not.
    let too_many = Error::GroupTooLarge { jobs: GROUP_LIMIT + 1 };
    let with = |at: usize, other: Plan| {
        let mut all = vec![good; GROUP_LIMIT + 1];
        all[at] = other;
        all
    };
    for (other, why) in [(no_size, one), (no_lanes, ten), (no_crop, two), (plane(2, fits), Error::InvalidGroup)] {
        refused(&with(GROUP_LIMIT - 1, other), why);
        refused(&with(GROUP_LIMIT, other), too_many);
    }
    // Lanes that would need more memory than there is are refused first.
    refused(&vec![plane(u32::MAX, fits); GROUP_LIMIT], Error::InvalidLanes { value: u32::MAX });
}

#[test]
fn one_work_value_short() {
    let (source, makes) = three();
    for form in Form::ALL {
        let (plans, picture) = (form.plans(source, &makes), form.bytes(source));
        let expected = Group::work_len_of(&plans);
        let short = Error::WorkLength { expected, found: expected - 1 };
        let mut work = vec![7; expected];
        assert_eq!(Group::start(&plans, &mut work[..expected - 1]), Err(short));
        assert!(work.iter().all(|&value| value == 7));
        let mut group = Group::start(&plans, &mut work).unwrap();
        assert!(work.iter().all(|&value| value == 0));
        assert_eq!(group.offer(&picture, &mut work[..expected - 1]), Err(short));
        assert_eq!(group.offer(&picture, &mut work), Ok(1));
        let before = (group.clone(), work.clone());
        for job in 0..3 {
            // The last job's part is short, so that the first's take is turned away, too.
            let mut row = vec![9; group.job(job).unwrap().out_len()];
            assert_eq!(group.take(job, &mut row, &mut work[..expected - 1]), Err(short));
            assert!(row.iter().all(|&byte| byte == 9));
        }
        assert!((group, work) == before);
    }
}

#[test]
fn calls_that_are_turned_away_leave_all_as_it_was() {
    let (source, makes) = three();
    let form = Form::Plane(2);
    let (plans, picture) = (form.plans(source, &makes), form.bytes(source));
    let mut work = vec![7; Group::work_len_of(&plans)];
    let mut group = Group::start(&plans, &mut work).unwrap();
    let refused = |group: &mut Group, work: &mut Vec<u32>, why: Error| {
        let before = (group.clone(), work.clone());
        for found in [0, 1, 5, 7, 13] {
            assert_eq!(group.offer(&picture[..found], work), Err(Error::PixelBufferMismatch { expected: 6, found }));
        }
        // A job that the group lacks is told before every length.
        for job in [3, 4, GROUP_LIMIT, u32::MAX as usize, u32::MAX as usize + 1, usize::MAX] {
            assert_eq!(group.take(job, &mut [], &mut []), Err(Error::InvalidGroup));
            assert_eq!((group.ready(job), group.job(job)), (0, None));
        }
        let mut row = [9; 7];
        for (job, expected) in [(0, 4), (1, 4), (2, 6)] {
            for found in [0, expected - 1, expected + 1] {
                assert_eq!(group.take(job, &mut row[..found], work), Err(Error::OutputLength { expected, found }));
            }
            if group.ready(job) == 0 {
                assert_eq!(group.take(job, &mut row[..expected], work), Err(Error::NoneReady));
            }
        }
        assert_eq!(group.offer(&picture[..6], work), Err(why));
        assert!(row == [9; 7] && (group.clone(), work.clone()) == before);
    };
    // The first row makes one of the second and one of the third ready.
    assert_eq!(group.offer(&picture, &mut work), Ok(1));
    assert_eq!([0, 1, 2].map(|job| group.ready(job)), [0, 1, 1]);
    refused(&mut group, &mut work, Error::RowReady);
    group.take(2, &mut [0; 6], &mut work).unwrap();
    refused(&mut group, &mut work, Error::RowReady);
    group.take(1, &mut [0; 4], &mut work).unwrap();
    while group.accepted() < 4 {
        let at = group.accepted() as usize * 6;
        assert_eq!(group.offer(&picture[at..at + 6], &mut work), Ok(1));
        for job in 0..3 {
            while group.ready(job) > 0 {
                let length = group.job(job).unwrap().out_len();
                group.take(job, &mut [0; 6][..length], &mut work).unwrap();
            }
        }
    }
    assert!(group.is_done());
    refused(&mut group, &mut work, Error::AllAccepted);
}

#[test]
fn records_from_elsewhere() {
    let (source, makes) = three();
    let plans = Form::Picture(PixelLayout::Bgra8).plans(source, &makes);
    let mut work = vec![7; Group::work_len_of(&plans)];
    let mut group = Group::start(&plans, &mut work).unwrap();
    group.offer(&bytes(source.byte_len()), &mut work).unwrap();
    let record = group.record().to_vec();
    assert_eq!((record.len(), record[0]), (1 + 14 * 3, 3));
    let jobs: Vec<_> = group.jobs().flat_map(|job| job.record()).collect();
    assert_eq!(record[1..], jobs);
    assert_eq!(Group::from_record(&record), Ok(group.clone()));
    // Words after the last are the caller's.
    for more in [1, 14, 14 * GROUP_LIMIT] {
        assert_eq!(Group::from_record(&[&record[..], &vec![9; more]].concat()), Ok(group.clone()));
    }
    for words in 0..record.len() {
        assert_eq!(Group::from_record(&record[..words]), Err(Error::InvalidRecord), "{words} words");
    }
    // As many jobs as the limit, and one more.
    for (jobs, taken) in [(0, false), (1, true), (GROUP_LIMIT, true), (GROUP_LIMIT + 1, false)] {
        let count = u32::try_from(jobs).unwrap();
        let words = [&[count][..], &record[1..15].repeat(jobs)].concat();
        assert_eq!(Group::from_record(&words).map(|group| group.jobs().len()), if taken { Ok(jobs) } else { Err(Error::InvalidRecord) });
    }
    let with = |at: usize, word: u32| {
        let mut words = record.clone();
        words[at] = word;
        Group::from_record(&words)
    };
    // A job's source, its layout, its rows accepted and taken, its kind and lanes.
    for (word, value) in [(0, 4), (1, 5), (2, 0), (2, 3), (5, 0), (7, 0), (9, 0), (9, 2), (9, 5), (10, 3), (11, 1), (12, 1), (12, 2), (13, 3)] {
        for job in 0..3 {
            assert_eq!(with(1 + 14 * job + word, value), Err(Error::InvalidRecord), "word {word} of job {job} is {value}");
        }
    }
    for count in [0, 4, u32::MAX] {
        assert_eq!(with(0, count), Err(Error::InvalidRecord));
    }
    // Fewer jobs are a group, too.
    assert_eq!(with(0, 2).map(|group| group.jobs().len()), Ok(2));
}

#[test]
fn rows_are_handed_out_as_early_as_a_job_has_them_and_hold_the_bytes_back() {
    let source = size(1, 4);
    let plans = Form::Plane(1).plans(source, &[(Rect::of(source), size(1, 2)), (Rect::of(source), size(1, 7)), (Rect::new(0, 1, 1, 1), size(1, 1))]);
    let mut previews = GroupPreview::new(&plans).unwrap();
    assert_eq!(previews.next_row(), None);
    // Two rows of four come after every second; seven of four are one by the first and two by each other.
    let expected = [vec![1], vec![0, 1, 1, 2], vec![1, 1], vec![0, 1, 1]];
    for (byte, jobs) in expected.into_iter().enumerate() {
        assert_eq!(previews.push(&[9, 9, 9]), Ok(1), "byte {byte}");
        assert_eq!(previews.push(&[9]), Err(PreviewError::RowReady));
        assert_eq!(previews.push(&[]), Ok(0));
        assert!(!previews.is_done());
        assert!(previews.finish().is_err());
        let handed: Vec<_> = std::iter::from_fn(|| previews.next_row().map(|(job, row)| (job, row.to_vec()))).collect();
        assert_eq!(handed, jobs.into_iter().map(|job| (job, vec![9])).collect::<Vec<_>>(), "byte {byte}");
        assert_eq!(previews.next_row(), None);
        assert_eq!(previews.missing(), 3 - byte);
    }
    assert!(previews.is_done());
    assert_eq!(previews.push(&[9]), Err(PreviewError::TooManyBytes));
    assert_eq!(previews.finish(), Ok(vec![false; 3]));
}

#[test]
fn an_end_too_early_and_bytes_too_many() {
    let (source, makes) = three();
    for form in Form::ALL {
        let picture = [form.bytes(source), vec![5; 31]].concat();
        let whole = form.bytes(source).len();
        let (plans, expected) = (form.plans(source, &makes), alone(form, source, &makes, &picture[..whole]));
        for end in 0..whole {
            let mut previews = GroupPreview::new(&plans).unwrap();
            let mut made = vec![Vec::new(); 3];
            previews.feed(&picture[..end], |job, row| made[job].extend_from_slice(row)).unwrap();
            assert_eq!(previews.finish(), Err(PreviewError::EndsEarly { missing: whole - end }));
            // Nothing is lost: what follows is taken, and then no more.
            let more = previews.feed(&picture[end..], |job, row| made[job].extend_from_slice(row));
            assert_eq!(more, Err(PreviewError::TooManyBytes));
            assert_eq!((made, previews.finish().unwrap()), expected);
        }
    }
}

#[test]
fn each_preview_has_a_flag_of_its_own() {
    let source = size(2, 1);
    let makes = [(Rect::new(0, 0, 1, 1), size(1, 1)), (Rect::new(1, 0, 1, 1), size(1, 1)), (Rect::of(source), size(2, 1))];
    let plans = Form::Picture(PixelLayout::Rgba8).plans(source, &makes);
    let (made, flags) = together(&plans, [&[1, 2, 3, 255, 4, 5, 6, 254][..]]);
    assert_eq!(flags, [false, true, true]);
    assert_eq!(made, alone(Form::Picture(PixelLayout::Rgba8), source, &makes, &[1, 2, 3, 255, 4, 5, 6, 254]).0);
}
