//! Planes of one to four lanes, in pieces and in whole rows, and the three planes of a 4:2:0 picture.
#![cfg(feature = "std")]

mod pictures;

use jonquilsaw::{Dimensions, Error, Job, Kind, PixelLayout, Planes, Preview, PreviewError, PreviewWriter, Rect};
use pictures::{bytes, cases, size, whole};
use std::io::Write;

/// The sizes and crops of the pictures that the other tests cut up, and larger ones.
fn plans() -> Vec<(Dimensions, Rect, Dimensions)> {
    let mut plans: Vec<_> = cases().into_iter().step_by(3).map(|(source, _, crop, target)| (source, crop, target)).collect();
    plans.push((size(41, 23), Rect::new(3, 2, 37, 19), size(16, 7)));
    plans.push((size(17, 11), Rect::new(1, 0, 15, 10), size(31, 24)));
    plans
}

/// A plane by a job that is lent all the rows that are left.
fn by_job(source: Dimensions, lanes: u32, crop: Rect, target: Dimensions, plane: &[u8]) -> Vec<u8> {
    let mut work = vec![7; target.plane_work_len(lanes)];
    let mut job = Job::start_plane(source, lanes, crop, target, &mut work).unwrap();
    let (mut rows, mut row) = (Vec::new(), vec![0; job.out_len()]);
    while !job.is_done() {
        match job.take(&mut row, &mut work) {
            Ok(()) => rows.extend_from_slice(&row),
            Err(why) => {
                assert_eq!(why, Error::NoneReady);
                assert!(job.offer(&plane[job.accepted() as usize * job.row_len()..], &mut work).unwrap() > 0);
            }
        }
    }
    assert!(!job.has_alpha());
    assert_eq!(rows.len(), target.plane_byte_len(lanes));
    rows
}

fn lane(plane: &[u8], lanes: u32, at: u32) -> Vec<u8> {
    plane.iter().copied().skip(at as usize).step_by(lanes as usize).collect()
}

#[test]
fn one_lane_is_the_colour_of_an_opaque_grey_picture() {
    for (source, crop, target) in plans() {
        let plane = bytes(source.plane_byte_len(1));
        let grey: Vec<_> = plane.iter().flat_map(|&g| [g, g, g, 255]).collect();
        let picture = whole(source, PixelLayout::Rgba8, crop, target, &grey);
        let rows = by_job(source, 1, crop, target, &plane);
        // Where the scaled alpha is not 255 the picture's colour is restored by it.
        let mut same = 0;
        for (byte, pixel) in rows.iter().zip(picture.as_bytes().chunks(4)).filter(|(_, pixel)| pixel[3] == 255) {
            assert_eq!([*byte; 3], pixel[..3], "{source:?} {crop:?} {target:?}");
            same += 1;
        }
        assert!(same > rows.len() / 2, "{source:?} {crop:?} {target:?}");
    }
}

/// A divider, one column of a plane that grows downwards, does not vanish: its rows are the column's own and blends of two that follow each other, at most
/// half a level off; and two columns are twice the one.
#[test]
fn a_column_made_taller_keeps_its_lanes() {
    let heights = [(1, 2), (1, 7), (2, 3), (3, 16), (40, 41), (9, 16384)];
    for (lanes, (height, taller)) in (1..=4).flat_map(|lanes| heights.map(|both| (lanes, both))) {
        let (source, crop) = (size(5, height + 3), Rect::new(3, 2, 1, height));
        let plane = bytes(source.plane_byte_len(lanes));
        let at = |row: u32, lane: u32| i64::from(plane[(((row + 2) * 5 + 3) * lanes + lane) as usize]);
        let one = by_job(source, lanes, crop, size(1, taller), &plane);
        let steps = i64::from(taller - 1);
        for (y, row) in (0..taller).zip(one.chunks(lanes as usize)) {
            // Row y stands `part` steps of the target below the crop's row `above`.
            let (above, part) = (y * (height - 1) / (taller - 1), i64::from(y * (height - 1) % (taller - 1)));
            for (lane, &byte) in (0..lanes).zip(row) {
                let below = if part == 0 { above } else { above + 1 };
                let exact = at(above, lane) * (steps - part) + at(below, lane) * part;
                assert!(2 * (i64::from(byte) * steps - exact).abs() <= steps, "lane {lane} of {lanes}, row {y} of {taller}, of {height}");
            }
        }
        let two: Vec<_> = one.chunks(lanes as usize).flat_map(|pixel| [pixel, pixel].concat()).collect();
        assert_eq!(by_job(source, lanes, crop, size(2, taller), &plane), two);
    }
}

#[test]
fn each_lane_is_scaled_by_itself() {
    for (source, crop, target) in plans() {
        for lanes in 1..=4 {
            let plane = bytes(source.plane_byte_len(lanes));
            let rows = by_job(source, lanes, crop, target, &plane);
            for at in 0..lanes {
                assert_eq!(lane(&rows, lanes, at), by_job(source, 1, crop, target, &lane(&plane, lanes, at)), "lane {at} of {lanes}");
            }
        }
    }
}

#[test]
fn pieces_of_any_length_equal_whole_rows() {
    for (source, crop, target) in plans() {
        for lanes in 1..=4 {
            let plane = bytes(source.plane_byte_len(lanes));
            let expected = by_job(source, lanes, crop, target, &plane);
            for length in (1..=plane.len()).filter(|length| *length < 40 || length % 97 == 1) {
                let mut preview = Preview::plane(source, lanes, crop, target).unwrap();
                assert_eq!(preview.missing(), plane.len());
                let mut rows = Vec::new();
                for piece in plane.chunks(length) {
                    preview.feed(piece, |row| rows.extend_from_slice(row)).unwrap();
                }
                assert_eq!(rows, expected, "{source:?} {lanes} {crop:?} {target:?} in pieces of {length}");
                assert!(preview.is_done() && !preview.job().has_alpha());
                assert_eq!(preview.finish(), Ok(false));
                assert_eq!(preview.push(&[0]), Err(PreviewError::TooManyBytes));
            }
        }
    }
}

#[test]
fn cut_at_every_two_places() {
    let (source, crop, target) = (size(3, 4), Rect::new(1, 1, 2, 2), size(3, 5));
    for lanes in 1..=4 {
        let plane = bytes(source.plane_byte_len(lanes));
        let expected = by_job(source, lanes, crop, target, &plane);
        for first in 0..=plane.len() {
            for second in first..=plane.len() {
                let mut preview = Preview::plane(source, lanes, crop, target).unwrap();
                let mut rows = Vec::new();
                for piece in [&plane[..first], &plane[first..second], &plane[second..]] {
                    preview.feed(piece, |row| rows.extend_from_slice(row)).unwrap();
                }
                assert_eq!(rows, expected, "{lanes} lanes cut at {first} and {second}");
            }
        }
    }
}

#[test]
fn a_writer_over_a_plane() {
    for (source, crop, target) in plans() {
        for lanes in 1..=4 {
            let plane = bytes(source.plane_byte_len(lanes));
            let mut writer = PreviewWriter::new(Preview::plane(source, lanes, crop, target).unwrap(), Vec::new());
            writer.write_all(&plane[..plane.len() - 1]).unwrap();
            let (early, mut writer) = writer.finish().unwrap_err().into_parts();
            assert_eq!(early.to_string(), "the source ends 1 bytes early");
            writer.write_all(&plane[plane.len() - 1..]).unwrap();
            assert!(writer.is_done());
            assert_eq!(writer.finish().unwrap(), (by_job(source, lanes, crop, target, &plane), false));
        }
    }
}

#[test]
fn a_plane_of_four_lanes_is_no_picture() {
    let source = size(1, 1);
    let translucent = [200, 200, 200, 128];
    let picture = whole(source, PixelLayout::Rgba8, Rect::of(source), source, &translucent);
    assert_eq!((picture.as_bytes(), picture.has_alpha()), (&[199, 199, 199, 128][..], true));
    assert_eq!(by_job(source, 4, Rect::of(source), source, &translucent), translucent);
    // Equal sizes leave every byte as it is, whatever stands in the fourth lane.
    let source = size(9, 7);
    for lanes in 1..=4 {
        let plane = bytes(source.plane_byte_len(lanes));
        assert_eq!(by_job(source, lanes, Rect::of(source), source, &plane), plane);
    }
}

#[test]
fn three_planes_of_one_buffer() {
    for (source, target) in
        [(size(1, 1), size(1, 1)), (size(2, 3), size(3, 2)), (size(5, 3), size(2, 7)), (size(40, 24), size(17, 11)), (size(41, 23), size(64, 37))]
    {
        let sources = [source, source.chroma(), source.chroma()];
        let targets = [target, target.chroma(), target.chroma()];
        let picture = bytes(sources.map(|size| size.plane_byte_len(1)).iter().sum());
        let mut rest = &picture[..];
        let planes = sources.map(|size| {
            let (plane, after) = rest.split_at(size.plane_byte_len(1));
            rest = after;
            plane
        });
        assert!(rest.is_empty());
        let expected: Vec<_> = (0..3).map(|i| by_job(sources[i], 1, Rect::of(sources[i]), targets[i], planes[i])).collect();

        // By the jobs that start together, a row of each in turn.
        let mut works = targets.map(|size| vec![7; size.plane_work_len(1) + 1]);
        let [luma, cb, cr] = &mut works;
        let jobs = Planes::start(source, target, [luma, cb, cr]).unwrap();
        let mut jobs = [jobs.luma, jobs.cb, jobs.cr];
        let mut made = [const { Vec::new() }; 3];
        while !jobs.iter().all(Job::is_done) {
            for i in 0..3 {
                let at = jobs[i].accepted() as usize * jobs[i].row_len();
                if at < planes[i].len() {
                    assert_eq!(jobs[i].offer(&planes[i][at..at + jobs[i].row_len()], &mut works[i]), Ok(1));
                }
                let mut row = vec![0; jobs[i].out_len()];
                while jobs[i].take(&mut row, &mut works[i]).is_ok() {
                    made[i].extend_from_slice(&row);
                }
            }
        }
        assert!(made.iter().eq(expected.iter()), "{source:?} {target:?}");
        for i in 0..3 {
            let alone = Job::start_plane(sources[i], 1, Rect::of(sources[i]), targets[i], &mut vec![0; targets[i].plane_work_len(1)]).unwrap();
            assert_eq!((jobs[i].source(), jobs[i].target(), jobs[i].crop()), (alone.source(), alone.target(), alone.crop()));
            assert_eq!((jobs[i].kind(), jobs[i].lanes(), works[i].last()), (Kind::Plane, 1, Some(&7)));
        }

        // By previews, from the whole buffer in pieces that end anywhere.
        for length in (1..=picture.len()).filter(|length| *length < 20 || length % 89 == 1) {
            let mut previews = Preview::planes(source, target);
            let mut made = [const { Vec::new() }; 3];
            let mut plane = 0;
            for mut piece in picture.chunks(length) {
                while !piece.is_empty() {
                    let (part, after) = piece.split_at(piece.len().min(previews[plane].missing()));
                    previews[plane].feed(part, |row| made[plane].extend_from_slice(row)).unwrap();
                    piece = after;
                    plane += usize::from(previews[plane].missing() == 0);
                }
            }
            assert!(made.iter().eq(expected.iter()), "{source:?} {target:?} in pieces of {length}");
            assert!(previews.iter().all(|preview| preview.finish() == Ok(false)));
        }
    }
}

#[test]
fn refusals_in_their_order_leave_every_value_as_it_was() {
    let (source, target) = (size(5, 4), size(2, 7));
    let (fits, empty, beyond) = (Rect::new(1, 2, 3, 2), Rect::new(9, 0, 0, 1), Rect::new(3, 0, 3, 1));
    let mut work = [9; 13];
    for lanes in [0, 5, 255, u32::MAX] {
        let why = Error::InvalidLanes { value: lanes };
        assert_eq!(Job::start_plane(source, lanes, empty, target, &mut []), Err(empty.fits(source).unwrap_err()));
        assert_eq!(Job::start_plane(source, lanes, beyond, target, &mut []), Err(why));
        assert_eq!(Job::start_plane(source, lanes, fits, target, &mut work), Err(why));
        assert_eq!(Preview::plane(source, lanes, fits, target).unwrap_err(), why);
        assert_eq!((why.number(), why.to_string()), (10, format!("there are {lanes} lanes: a plane has 1 to 4")));
    }
    for lanes in 1..=4 {
        let need = target.plane_work_len(lanes);
        let short = Error::WorkLength { expected: need, found: need.min(12) - 1 };
        assert_eq!(Job::start_plane(source, lanes, empty, target, &mut []), Err(empty.fits(source).unwrap_err()));
        assert_eq!(Job::start_plane(source, lanes, beyond, target, &mut []), Err(beyond.fits(source).unwrap_err()));
        assert_eq!(Job::start_plane(source, lanes, fits, target, &mut work[..need.min(12) - 1]), Err(short));
        assert_eq!(Preview::plane(source, lanes, beyond, target).unwrap_err(), beyond.fits(source).unwrap_err());
    }
    assert_eq!(work, [9; 13]);

    let mut job = Job::start_plane(source, 3, fits, target, &mut work).unwrap();
    assert_eq!(work, [0, 0, 0, 0, 0, 0, 0, 0, 0, 0, 0, 0, 9]);
    assert_eq!(job.record(), [5, 4, 0, 1, 2, 3, 2, 2, 7, 0, 0, 0, 1, 3]);
    let (before, mut out) = (job.clone(), [8; 8]);
    for found in [0, 5, 14, 16, 20] {
        assert_eq!(job.offer(&vec![1; found], &mut work), Err(Error::PixelBufferMismatch { expected: 15, found }));
    }
    assert_eq!(job.offer(&[1; 15], &mut work[..11]), Err(Error::WorkLength { expected: 12, found: 11 }));
    assert_eq!(job.take(&mut out, &mut work), Err(Error::OutputLength { expected: 6, found: 8 }));
    assert_eq!(job.take(&mut out[..6], &mut work[..11]), Err(Error::WorkLength { expected: 12, found: 11 }));
    assert_eq!(job.take(&mut out[..6], &mut work), Err(Error::NoneReady));
    assert_eq!((job, work, out), (before, [0, 0, 0, 0, 0, 0, 0, 0, 0, 0, 0, 0, 9], [8; 8]));
}

#[test]
fn three_planes_start_together_or_not_at_all() {
    let (source, target) = (size(5, 4), size(3, 7));
    for (lengths, expected, found) in [([5, 4, 4], 6, 5), ([6, 3, 4], 4, 3), ([6, 4, 3], 4, 3), ([0, 0, 0], 6, 0), ([6, 0, 3], 4, 0)] {
        let mut works = lengths.map(|length| vec![9; length]);
        let [luma, cb, cr] = &mut works;
        assert_eq!(Planes::start(source, target, [luma, cb, cr]), Err(Error::WorkLength { expected, found }));
        assert!(works.iter().flatten().all(|&value| value == 9));
    }
    let mut works = [6, 4, 4].map(|length| vec![9; length]);
    let [luma, cb, cr] = &mut works;
    let planes = Planes::start(source, target, [luma, cb, cr]).unwrap();
    assert!(works.iter().flatten().all(|&value| value == 0));
    assert_eq!(planes.luma.record(), [5, 4, 0, 0, 0, 5, 4, 3, 7, 0, 0, 0, 1, 1]);
    assert_eq!(planes.cb.record(), [3, 2, 0, 0, 0, 3, 2, 2, 4, 0, 0, 0, 1, 1]);
    assert_eq!(planes.cr, planes.cb);
}

#[test]
fn records_of_either_kind() {
    let words = [0, 1, 2, 3, 4, 5, u32::MAX];
    for (kind, lanes) in words.iter().flat_map(|&kind| words.map(|lanes| (kind, lanes))) {
        for (layout, flag) in words.iter().flat_map(|&layout| words.map(|flag| (layout, flag))) {
            let record = [1, 2, layout, 0, 0, 1, 2, 1, 2, 1, 1, flag, kind, lanes];
            let picture = kind == 0 && lanes == 4 && layout < 3 && flag < 2;
            let plane = kind == 1 && (1..=4).contains(&lanes) && layout == 0 && flag == 0;
            match Job::from_record(record) {
                Ok(job) => {
                    assert!(picture || plane, "{record:?}");
                    assert_eq!((job.record(), job.lanes(), job.has_alpha()), (record, lanes, flag == 1));
                    assert_eq!(job.kind(), if plane { Kind::Plane } else { Kind::Picture });
                }
                Err(why) => assert!(!picture && !plane && why == Error::InvalidRecord, "{record:?}"),
            }
        }
    }
}
