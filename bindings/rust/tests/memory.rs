//! A preview allocates its source row, its work rows and its preview row, and nothing while it runs.
#![cfg(feature = "std")]
#![allow(unsafe_code)]

use jonquilsaw::{Dimensions, Error, GROUP_LIMIT, GroupPreview, PixelLayout, Plan, Preview, Rect};
use std::alloc::{GlobalAlloc, Layout, System};
use std::cell::Cell;

struct Counting;

thread_local! {
    static ALLOCATED: Cell<usize> = const { Cell::new(0) };
}

// SAFETY: every call is handed on to the system's allocator as it came.
unsafe impl GlobalAlloc for Counting {
    unsafe fn alloc(&self, layout: Layout) -> *mut u8 {
        ALLOCATED.with(|bytes| bytes.set(bytes.get() + layout.size()));
        // SAFETY: the caller keeps the allocator's rules.
        unsafe { System.alloc(layout) }
    }

    unsafe fn dealloc(&self, at: *mut u8, layout: Layout) {
        // SAFETY: the caller keeps the allocator's rules.
        unsafe { System.dealloc(at, layout) }
    }
}

#[global_allocator]
static COUNTING: Counting = Counting;

fn allocated() -> usize {
    ALLOCATED.with(Cell::get)
}

#[test]
fn one_source_row_the_work_rows_and_one_preview_row() {
    let (source, target) = (Dimensions::new(16384, 300).unwrap(), Dimensions::new(500, 9).unwrap());
    let piece = vec![77; 5 * source.row_len() / 2 + 1];
    let before = allocated();
    let mut preview = Preview::new(source, PixelLayout::Rgba8, Rect::of(source), target).unwrap();
    assert_eq!(allocated() - before, source.row_len() + 4 * target.work_len() + target.row_len());
    let before = allocated();
    let mut rows = 0;
    while preview.missing() > 0 {
        let length = piece.len().min(preview.missing());
        preview.feed(&piece[..length], |_| rows += 1).unwrap();
    }
    assert_eq!((rows, allocated() - before), (9, 0));
}

#[test]
fn a_stretch_is_not_copied() {
    let (source, target) = (Dimensions::new(1000, 300).unwrap(), Dimensions::new(500, 9).unwrap());
    let stretch = vec![77; 33 * source.row_len()];
    let mut preview = Preview::new(source, PixelLayout::Rgba8, Rect::of(source), target).unwrap();
    let before = allocated();
    let mut rows = 0;
    while !preview.stretch().is_empty() {
        preview.push_stretch(&stretch[..preview.stretch().len() * source.row_len()]).unwrap();
        while preview.next_row().is_some() {
            rows += 1;
        }
    }
    assert_eq!((rows, preview.finish(), allocated() - before), (9, Ok(true), 0));
}

#[test]
fn a_plane_takes_its_own_lanes() {
    let (source, target) = (Dimensions::new(16384, 30).unwrap(), Dimensions::new(500, 9).unwrap());
    for lanes in 1..=4 {
        let before = allocated();
        let preview = Preview::plane(source, lanes, Rect::of(source), target).unwrap();
        assert_eq!(allocated() - before, source.plane_row_len(lanes) + 4 * target.plane_work_len(lanes) + target.plane_row_len(lanes));
        assert_eq!(preview.missing(), source.plane_byte_len(lanes));
    }
    // What is refused takes no more than four lanes would.
    let before = allocated();
    assert_eq!(Preview::plane(source, u32::MAX, Rect::of(source), target).unwrap_err(), Error::InvalidLanes { value: u32::MAX });
    assert_eq!(allocated() - before, 4 * target.work_len());
}

#[test]
fn a_group_takes_one_source_row_the_work_rows_of_all_and_the_widest_preview_row() {
    let source = Dimensions::new(16384, 300).unwrap();
    let targets = [(500, 9), (1280, 7), (160, 2)].map(|(width, height)| Dimensions::new(width, height).unwrap());
    let plans = targets.map(|target| Plan::picture(source, PixelLayout::Rgba8, Rect::of(source), target));
    let piece = vec![77; 5 * source.row_len() / 2 + 1];
    let before = allocated();
    let mut previews = GroupPreview::new(&plans).unwrap();
    let work: usize = targets.iter().map(|target| target.work_len()).sum();
    assert_eq!(allocated() - before, source.row_len() + 4 * work + targets[1].row_len());
    let before = allocated();
    let mut rows = [0; 3];
    while previews.missing() > 0 {
        let length = piece.len().min(previews.missing());
        previews.feed(&piece[..length], |job, _| rows[job] += 1).unwrap();
    }
    assert_eq!((rows, allocated() - before), ([9, 7, 2], 0));
    // What is refused takes no more than a group of the limit and four lanes would.
    let before = allocated();
    let wide = Plan::plane(source, u32::MAX, Rect::of(source), targets[1]);
    assert_eq!(GroupPreview::new(&[wide; 2 * GROUP_LIMIT]).unwrap_err(), Error::InvalidLanes { value: u32::MAX });
    assert_eq!(allocated() - before, 4 * GROUP_LIMIT * targets[1].work_len());
}
