//! What needs no heap, without the feature `std` too: jobs, groups and pictures over lent buffers, PAM pictures among them.

use jonquilsaw::{Dimensions, Error, GROUP_LIMIT, Group, ImageRef, Job, Kind, PixelLayout, Plan, Planes, Rect, apply_alpha_plane, pam};

const PICTURE: [u8; 24] = [10, 20, 30, 255, 40, 50, 60, 255, 70, 80, 90, 255, 15, 25, 35, 255, 45, 55, 65, 255, 75, 85, 95, 255];

#[test]
fn a_job_and_a_whole_picture_give_the_same_bytes() -> Result<(), Error> {
    let (source, target) = (Dimensions::new(2, 3)?, Dimensions::new(3, 2)?);
    let (mut whole, mut rows, mut work) = ([7; 24], [9; 24], [0; 24]);
    assert_eq!(ImageRef::new(source, PixelLayout::Bgra8, &PICTURE)?.resize_into(target, &mut whole, &mut work), Ok(false));

    let mut job = Job::start(source, PixelLayout::Bgra8, Rect::of(source), target, &mut work)?;
    for row in PICTURE.chunks_exact(source.row_len()) {
        assert_eq!(job.offer(row, &mut work), Ok(1));
        let at = job.taken() as usize * target.row_len();
        match job.take(&mut rows[at..at + target.row_len()], &mut work) {
            Ok(()) => assert_eq!(job.take(&mut [0; 12], &mut work), Err(Error::NoneReady)),
            Err(why) => assert_eq!(why, Error::NoneReady),
        }
    }
    assert!(job.is_done());
    assert_eq!(rows, whole);
    Ok(())
}

#[test]
fn a_crop_and_a_plane_in_place() -> Result<(), Error> {
    let size = Dimensions::new(2, 3)?;
    let mut pixels = PICTURE;
    assert_eq!(apply_alpha_plane(size, PixelLayout::Rgba8, &mut pixels, &[1, 2, 3]), Err(Error::PixelBufferMismatch { expected: 6, found: 3 }));
    assert_eq!(apply_alpha_plane(size, PixelLayout::Rgba8, &mut pixels[..8], &[1; 6]), Err(Error::PixelBufferMismatch { expected: 24, found: 8 }));
    assert_eq!(pixels, PICTURE);
    assert_eq!(apply_alpha_plane(size, PixelLayout::Rgba8, &mut pixels, &[255, 255, 255, 254, 255, 255]), Ok(true));
    let mut window = [0; 4];
    assert_eq!(ImageRef::new(size, PixelLayout::Rgba8, &pixels)?.crop_into(Rect::new(1, 1, 1, 1), &mut window), Ok(true));
    assert_eq!(window, [15, 25, 35, 254]);
    Ok(())
}

#[test]
fn planes_over_lent_buffers() -> Result<(), Error> {
    let (source, target) = (Dimensions::new(3, 2)?, Dimensions::new(2, 1)?);
    // Three lanes: the first two are those of a trial of docs/SCOPE.md and its reverse, the last is one value.
    let mut work = [9; 14];
    let mut job = Job::start_plane(source, 3, Rect::of(source), target, &mut work)?;
    assert_eq!((job.kind(), job.lanes(), job.row_len(), job.out_len(), job.work_len()), (Kind::Plane, 3, 9, 6, 12));
    assert_eq!(work, [0, 0, 0, 0, 0, 0, 0, 0, 0, 0, 0, 0, 9, 9]);
    let row = [10, 30, 7, 21, 21, 7, 30, 10, 7];
    let mut out = [0; 6];
    assert_eq!(job.offer(&row, &mut work), Ok(1));
    assert_eq!(job.take(&mut out, &mut work), Err(Error::NoneReady));
    assert_eq!(job.offer(&row, &mut work), Ok(1));
    job.take(&mut out, &mut work)?;
    assert_eq!((out, job.has_alpha(), job.is_done()), ([14, 27, 7, 27, 14, 7], false, true));

    let (mut luma, mut cb, mut cr) = ([9; 4], [9; 2], [9; 2]);
    let mut planes = Planes::start(source, target, [&mut luma, &mut cb, &mut cr])?;
    assert_eq!((planes.luma.source(), planes.cb.source(), planes.cr.target()), (source, source.chroma(), target.chroma()));
    assert_eq!(planes.luma.offer(&[10, 21, 30, 10, 21, 30], &mut luma), Ok(2));
    planes.luma.take(&mut out[..2], &mut luma)?;
    for (job, work, value) in [(&mut planes.cb, &mut cb, 100), (&mut planes.cr, &mut cr, 200)] {
        assert_eq!(job.offer(&[value, value + 20], work), Ok(1));
        job.take(&mut out[2..3], work)?;
        assert_eq!(out[..3], [14, 27, value + 10]);
    }
    Ok(())
}

#[test]
fn a_group_over_lent_buffers() -> Result<(), Error> {
    let source = Dimensions::new(2, 3)?;
    let targets = [Dimensions::new(3, 2)?, Dimensions::new(1, 1)?, source];
    let plans = targets.map(|target| Plan::picture(source, PixelLayout::Bgra8, Rect::of(source), target));
    let mut work = [9; 24 + 8 + 16];
    assert_eq!(Group::work_len_of(&plans), work.len());
    let mut group = Group::start(&plans, &mut work)?;
    let mut made = [[7; 24]; 3];
    while !group.is_done() {
        let at = group.accepted() as usize * group.row_len();
        assert!(group.offer(&PICTURE[at..], &mut work)? > 0);
        for (job, rows) in made.iter_mut().enumerate() {
            while let Some(told) = group.job(job).filter(|told| told.ready() > 0) {
                let at = told.taken() as usize * told.out_len();
                group.take(job, &mut rows[at..at + told.out_len()], &mut work)?;
            }
        }
    }
    for (target, made) in targets.into_iter().zip(made) {
        let mut whole = [7; 24];
        assert_eq!(ImageRef::new(source, PixelLayout::Bgra8, &PICTURE)?.resize_into(target, &mut whole[..target.byte_len()], &mut work), Ok(false));
        assert_eq!(made, whole);
    }
    assert_eq!(Group::start(&[plans[0]; GROUP_LIMIT + 1], &mut work), Err(Error::GroupTooLarge { jobs: GROUP_LIMIT + 1 }));
    assert_eq!(Group::start(&[], &mut work), Err(Error::InvalidGroup));
    Ok(())
}

#[test]
fn a_pam_picture_in_lent_buffers() -> Result<(), Error> {
    let size = Dimensions::new(2, 3)?;
    let mut file = [0; 65 + 24];
    pam::write(size, &PICTURE, &mut file)?;
    let picture = pam::read(&file)?;
    assert_eq!((picture.dimensions(), picture.as_bytes(), pam::file_len(size)), (size, &PICTURE[..], file.len()));
    let (mut out, mut work) = ([0; 4], [0; 8]);
    assert_eq!(picture.resize_into(Dimensions::new(1, 1)?, &mut out, &mut work), Ok(false));
    assert_eq!(pam::read_header(&file[..64]), Ok(None));
    assert_eq!(pam::read_header(&file[..65]), Ok(Some(pam::Header { size, start: 65 })));
    assert_eq!(pam::write_header(size, &mut [0; pam::MAX_HEADER_LEN]), &file[..65]);
    Ok(())
}
