//! The C boundary (`include/jonquilsaw.h`) behind safe functions: all of the crate's `unsafe` is here.
//!
//! Each function takes slices and hands the library a pointer and a count for each, so the library's one demand holds by Rust's own rules: live memory for so many
//! elements, aligned, and shared with no other slice of the call that is written. The library touches nothing else, keeps no pointer and never
//! unwinds; that is proved of it. The counts of 14 words, of a group's words and of one, two or four answer words are fixed here by array types.
#![allow(unsafe_code)]

use crate::group::GROUP_LIMIT;

/// The words of a job's record.
pub type Record = [u32; 14];

/// The words of a group's record, the longest: how many jobs, then those of each job's record.
pub type GroupRecord = [u32; 1 + 14 * GROUP_LIMIT];

/// The words of a plan: those of a record without rows accepted, rows taken and the flag.
pub type PlanWords = [u32; 11];

mod raw {
    // Raw pointers and counts, never slices: a slice in an extern declaration is not passed as the library takes it, and the call crashes.
    unsafe extern "C" {
        pub fn jonquilsaw_start(
            source_width: u32,
            source_height: u32,
            layout: u32,
            crop_x: u32,
            crop_y: u32,
            crop_width: u32,
            crop_height: u32,
            target_width: u32,
            target_height: u32,
            work: *mut u32,
            work_count: usize,
            record: *mut u32,
            record_count: usize,
        ) -> u32;
        pub fn jonquilsaw_start_plane(
            source_width: u32,
            source_height: u32,
            lanes: u32,
            crop_x: u32,
            crop_y: u32,
            crop_width: u32,
            crop_height: u32,
            target_width: u32,
            target_height: u32,
            work: *mut u32,
            work_count: usize,
            record: *mut u32,
            record_count: usize,
        ) -> u32;
        pub fn jonquilsaw_start_planes(
            source_width: u32,
            source_height: u32,
            target_width: u32,
            target_height: u32,
            luma_work: *mut u32,
            luma_work_count: usize,
            cb_work: *mut u32,
            cb_work_count: usize,
            cr_work: *mut u32,
            cr_work_count: usize,
            luma: *mut u32,
            luma_count: usize,
            cb: *mut u32,
            cb_count: usize,
            cr: *mut u32,
            cr_count: usize,
        ) -> u32;
        pub fn jonquilsaw_offer(
            record: *mut u32,
            record_count: usize,
            rows: *const u8,
            rows_count: usize,
            work: *mut u32,
            work_count: usize,
            count: *mut u32,
            count_count: usize,
        ) -> u32;
        pub fn jonquilsaw_band_count(record: *const u32, record_count: usize, count: *mut u32, count_count: usize) -> u32;
        pub fn jonquilsaw_band_offer(
            record: *mut u32,
            record_count: usize,
            rows: *const u8,
            rows_count: usize,
            work: *mut u32,
            work_count: usize,
            count: *mut u32,
            count_count: usize,
        ) -> u32;
        pub fn jonquilsaw_take(record: *mut u32, record_count: usize, out: *mut u8, out_count: usize, work: *mut u32, work_count: usize) -> u32;
        pub fn jonquilsaw_start_group(
            plans: *const u32,
            plans_count: usize,
            count: u32,
            work: *mut u32,
            work_count: usize,
            record: *mut u32,
            record_count: usize,
        ) -> u32;
        pub fn jonquilsaw_offer_group(
            record: *mut u32,
            record_count: usize,
            rows: *const u8,
            rows_count: usize,
            work: *mut u32,
            work_count: usize,
            accepted: *mut u32,
            accepted_count: usize,
        ) -> u32;
        pub fn jonquilsaw_take_group(
            record: *mut u32,
            record_count: usize,
            job: u32,
            out: *mut u8,
            out_count: usize,
            work: *mut u32,
            work_count: usize,
        ) -> u32;
        pub fn jonquilsaw_crop(
            source_width: u32,
            source_height: u32,
            layout: u32,
            crop_x: u32,
            crop_y: u32,
            crop_width: u32,
            crop_height: u32,
            pixels: *const u8,
            pixels_count: usize,
            out: *mut u8,
            out_count: usize,
            flag: *mut u32,
            flag_count: usize,
        ) -> u32;
        pub fn jonquilsaw_resize(
            source_width: u32,
            source_height: u32,
            layout: u32,
            target_width: u32,
            target_height: u32,
            pixels: *const u8,
            pixels_count: usize,
            out: *mut u8,
            out_count: usize,
            work: *mut u32,
            work_count: usize,
            flag: *mut u32,
            flag_count: usize,
        ) -> u32;
        pub fn jonquilsaw_has_alpha(
            width: u32,
            height: u32,
            layout: u32,
            pixels: *const u8,
            pixels_count: usize,
            flag: *mut u32,
            flag_count: usize,
        ) -> u32;
        pub fn jonquilsaw_apply_alpha_plane(
            width: u32,
            height: u32,
            layout: u32,
            pixels: *mut u8,
            pixels_count: usize,
            plane: *const u8,
            plane_count: usize,
            flag: *mut u32,
            flag_count: usize,
        ) -> u32;
        pub fn jonquilsaw_badge_lay(
            width: u32,
            height: u32,
            layout: u32,
            pixels: *mut u8,
            pixels_count: usize,
            badge_width: u32,
            badge_height: u32,
            badge_layout: u32,
            badge: *const u8,
            badge_count: usize,
        ) -> u32;
        pub fn jonquilsaw_scaled(width: u32, height: u32, target_width: u32, target_height: u32, size: *mut u32, size_count: usize) -> u32;
        pub fn jonquilsaw_read_pam_header(input: *const u8, input_count: usize, answer: *mut u32, answer_count: usize) -> u32;
        pub fn jonquilsaw_pam_unfinished(input: *const u8, input_count: usize, flag: *mut u32, flag_count: usize) -> u32;
        pub fn jonquilsaw_read_pam(input: *const u8, input_count: usize, size: *mut u32, size_count: usize) -> u32;
        pub fn jonquilsaw_pam_header_length(width: u32, height: u32, bytes: *mut u32, bytes_count: usize) -> u32;
        pub fn jonquilsaw_pam_length(width: u32, height: u32, bytes: *mut u32, bytes_count: usize) -> u32;
        pub fn jonquilsaw_write_pam_header(width: u32, height: u32, out: *mut u8, out_count: usize) -> u32;
        pub fn jonquilsaw_write_pam(width: u32, height: u32, pixels: *const u8, pixels_count: usize, out: *mut u8, out_count: usize) -> u32;
    }
}

/// An answer of the library: 0, or the number that says why not.
fn answered(number: u32) -> Result<(), u32> {
    if number == 0 { Ok(()) } else { Err(number) }
}

pub fn start(source: [u32; 2], layout: u32, crop: [u32; 4], target: [u32; 2], work: &mut [u32]) -> Result<Record, u32> {
    let mut record: Record = [0; 14];
    // SAFETY: `work` and `record` are exclusive borrows, so live, aligned and apart, each passed with its own length.
    let number = unsafe {
        raw::jonquilsaw_start(
            source[0],
            source[1],
            layout,
            crop[0],
            crop[1],
            crop[2],
            crop[3],
            target[0],
            target[1],
            work.as_mut_ptr(),
            work.len(),
            record.as_mut_ptr(),
            record.len(),
        )
    };
    answered(number).map(|()| record)
}

pub fn start_plane(source: [u32; 2], lanes: u32, crop: [u32; 4], target: [u32; 2], work: &mut [u32]) -> Result<Record, u32> {
    let mut record: Record = [0; 14];
    // SAFETY: `work` and `record` are exclusive borrows, so live, aligned and apart, each passed with its own length.
    let number = unsafe {
        raw::jonquilsaw_start_plane(
            source[0],
            source[1],
            lanes,
            crop[0],
            crop[1],
            crop[2],
            crop[3],
            target[0],
            target[1],
            work.as_mut_ptr(),
            work.len(),
            record.as_mut_ptr(),
            record.len(),
        )
    };
    answered(number).map(|()| record)
}

/// The records of luma, cb and cr.
pub fn start_planes(source: [u32; 2], target: [u32; 2], work: [&mut [u32]; 3]) -> Result<[Record; 3], u32> {
    let mut records: [Record; 3] = [[0; 14]; 3];
    let lent = work.map(|values| (values.as_mut_ptr(), values.len()));
    let answer = records.each_mut().map(|words| (words.as_mut_ptr(), words.len()));
    // SAFETY: `work` and `records` are six exclusive borrows that last for the call, so live, aligned and apart, each passed with its own length.
    let number = unsafe {
        raw::jonquilsaw_start_planes(
            source[0],
            source[1],
            target[0],
            target[1],
            lent[0].0,
            lent[0].1,
            lent[1].0,
            lent[1].1,
            lent[2].0,
            lent[2].1,
            answer[0].0,
            answer[0].1,
            answer[1].0,
            answer[1].1,
            answer[2].0,
            answer[2].1,
        )
    };
    answered(number).map(|()| records)
}

/// How many rows were accepted.
pub fn offer(record: &mut Record, rows: &[u8], work: &mut [u32]) -> Result<u32, u32> {
    let mut count = [0];
    // SAFETY: `record`, `work` and `count` are exclusive borrows and `rows` is a shared one, so all are live, aligned and apart, each with its own length.
    let number = unsafe {
        raw::jonquilsaw_offer(
            record.as_mut_ptr(),
            record.len(),
            rows.as_ptr(),
            rows.len(),
            work.as_mut_ptr(),
            work.len(),
            count.as_mut_ptr(),
            count.len(),
        )
    };
    answered(number).map(|()| count[0])
}

/// How many rows the next band has, 0 where there is none.
pub fn band_count(record: &Record) -> Result<u32, u32> {
    let mut count = [0];
    // SAFETY: `count` is an exclusive borrow and `record` a shared one, so both are live, aligned and apart, each with its own length.
    let number = unsafe { raw::jonquilsaw_band_count(record.as_ptr(), record.len(), count.as_mut_ptr(), count.len()) };
    answered(number).map(|()| count[0])
}

/// How many rows were accepted: those of the band.
pub fn band_offer(record: &mut Record, rows: &[u8], work: &mut [u32]) -> Result<u32, u32> {
    let mut count = [0];
    // SAFETY: `record`, `work` and `count` are exclusive borrows and `rows` is a shared one, so all are live, aligned and apart, each with its own length.
    let number = unsafe {
        raw::jonquilsaw_band_offer(
            record.as_mut_ptr(),
            record.len(),
            rows.as_ptr(),
            rows.len(),
            work.as_mut_ptr(),
            work.len(),
            count.as_mut_ptr(),
            count.len(),
        )
    };
    answered(number).map(|()| count[0])
}

pub fn take(record: &mut Record, out: &mut [u8], work: &mut [u32]) -> Result<(), u32> {
    // SAFETY: three exclusive borrows, so live, aligned and apart, each with its own length.
    let number = unsafe { raw::jonquilsaw_take(record.as_mut_ptr(), record.len(), out.as_mut_ptr(), out.len(), work.as_mut_ptr(), work.len()) };
    answered(number)
}

/// The record of a group of `count` jobs. The library looks at no plan beyond the limit, so these need not be there.
pub fn start_group(plans: &[PlanWords], count: u32, work: &mut [u32]) -> Result<GroupRecord, u32> {
    let mut record: GroupRecord = [0; 1 + 14 * GROUP_LIMIT];
    let words = plans.as_flattened();
    // SAFETY: `work` and `record` are exclusive borrows and `words` is a shared one, so all are live, aligned and apart, each with its own length.
    let number =
        unsafe { raw::jonquilsaw_start_group(words.as_ptr(), words.len(), count, work.as_mut_ptr(), work.len(), record.as_mut_ptr(), record.len()) };
    answered(number).map(|()| record)
}

/// How many rows were accepted, by every job.
pub fn offer_group(record: &mut GroupRecord, rows: &[u8], work: &mut [u32]) -> Result<u32, u32> {
    let mut accepted = [0];
    // SAFETY: `record`, `work` and `accepted` are exclusive borrows and `rows` is a shared one, so all are live, aligned and apart, each with its own length.
    let number = unsafe {
        raw::jonquilsaw_offer_group(
            record.as_mut_ptr(),
            record.len(),
            rows.as_ptr(),
            rows.len(),
            work.as_mut_ptr(),
            work.len(),
            accepted.as_mut_ptr(),
            accepted.len(),
        )
    };
    answered(number).map(|()| accepted[0])
}

pub fn take_group(record: &mut GroupRecord, job: u32, out: &mut [u8], work: &mut [u32]) -> Result<(), u32> {
    // SAFETY: three exclusive borrows, so live, aligned and apart, each with its own length.
    let number =
        unsafe { raw::jonquilsaw_take_group(record.as_mut_ptr(), record.len(), job, out.as_mut_ptr(), out.len(), work.as_mut_ptr(), work.len()) };
    answered(number)
}

/// The alpha flag of what was copied.
pub fn crop(source: [u32; 2], layout: u32, crop: [u32; 4], pixels: &[u8], out: &mut [u8]) -> Result<bool, u32> {
    let mut flag = [0];
    // SAFETY: `out` and `flag` are exclusive borrows and `pixels` is a shared one, so all are live, aligned and apart, each with its own length.
    let number = unsafe {
        raw::jonquilsaw_crop(
            source[0],
            source[1],
            layout,
            crop[0],
            crop[1],
            crop[2],
            crop[3],
            pixels.as_ptr(),
            pixels.len(),
            out.as_mut_ptr(),
            out.len(),
            flag.as_mut_ptr(),
            flag.len(),
        )
    };
    answered(number).map(|()| flag[0] != 0)
}

/// The alpha flag of the result.
pub fn resize(source: [u32; 2], layout: u32, target: [u32; 2], pixels: &[u8], out: &mut [u8], work: &mut [u32]) -> Result<bool, u32> {
    let mut flag = [0];
    // SAFETY: `out`, `work` and `flag` are exclusive borrows and `pixels` is a shared one, so all are live, aligned and apart, each with its own length.
    let number = unsafe {
        raw::jonquilsaw_resize(
            source[0],
            source[1],
            layout,
            target[0],
            target[1],
            pixels.as_ptr(),
            pixels.len(),
            out.as_mut_ptr(),
            out.len(),
            work.as_mut_ptr(),
            work.len(),
            flag.as_mut_ptr(),
            flag.len(),
        )
    };
    answered(number).map(|()| flag[0] != 0)
}

pub fn has_alpha(size: [u32; 2], layout: u32, pixels: &[u8]) -> Result<bool, u32> {
    let mut flag = [0];
    // SAFETY: `flag` is an exclusive borrow and `pixels` a shared one, so both are live, aligned and apart, each with its own length.
    let number = unsafe { raw::jonquilsaw_has_alpha(size[0], size[1], layout, pixels.as_ptr(), pixels.len(), flag.as_mut_ptr(), flag.len()) };
    answered(number).map(|()| flag[0] != 0)
}

/// The alpha flag of the picture so made.
pub fn apply_alpha_plane(size: [u32; 2], layout: u32, pixels: &mut [u8], plane: &[u8]) -> Result<bool, u32> {
    let mut flag = [0];
    // SAFETY: `pixels` and `flag` are exclusive borrows and `plane` is a shared one, so all are live, aligned and apart, each with its own length.
    let number = unsafe {
        raw::jonquilsaw_apply_alpha_plane(
            size[0],
            size[1],
            layout,
            pixels.as_mut_ptr(),
            pixels.len(),
            plane.as_ptr(),
            plane.len(),
            flag.as_mut_ptr(),
            flag.len(),
        )
    };
    answered(number).map(|()| flag[0] != 0)
}

pub fn badge_lay(size: [u32; 2], layout: u32, pixels: &mut [u8], badge_size: [u32; 2], badge_layout: u32, badge: &[u8]) -> Result<(), u32> {
    // SAFETY: `pixels` is an exclusive borrow and `badge` a shared one, so both are live, aligned and apart, each with its own length.
    let number = unsafe {
        raw::jonquilsaw_badge_lay(
            size[0],
            size[1],
            layout,
            pixels.as_mut_ptr(),
            pixels.len(),
            badge_size[0],
            badge_size[1],
            badge_layout,
            badge.as_ptr(),
            badge.len(),
        )
    };
    answered(number)
}

pub fn scaled(size: [u32; 2], target: [u32; 2]) -> Result<[u32; 2], u32> {
    let mut answer = [0; 2];
    // SAFETY: `answer` is an exclusive borrow, so live and aligned, with its own length.
    let number = unsafe { raw::jonquilsaw_scaled(size[0], size[1], target[0], target[1], answer.as_mut_ptr(), answer.len()) };
    answered(number).map(|()| answer)
}

/// Width, height, and the place where the pixels begin as a low and a high word.
pub fn read_pam_header(input: &[u8]) -> Result<[u32; 4], u32> {
    let mut answer = [0; 4];
    // SAFETY: `answer` is an exclusive borrow and `input` a shared one, so both are live, aligned and apart, each with its own length.
    let number = unsafe { raw::jonquilsaw_read_pam_header(input.as_ptr(), input.len(), answer.as_mut_ptr(), answer.len()) };
    answered(number).map(|()| answer)
}

pub fn pam_unfinished(input: &[u8]) -> Result<bool, u32> {
    let mut flag = [0];
    // SAFETY: `flag` is an exclusive borrow and `input` a shared one, so both are live, aligned and apart, each with its own length.
    let number = unsafe { raw::jonquilsaw_pam_unfinished(input.as_ptr(), input.len(), flag.as_mut_ptr(), flag.len()) };
    answered(number).map(|()| flag[0] != 0)
}

pub fn read_pam(input: &[u8]) -> Result<[u32; 2], u32> {
    let mut size = [0; 2];
    // SAFETY: `size` is an exclusive borrow and `input` a shared one, so both are live, aligned and apart, each with its own length.
    let number = unsafe { raw::jonquilsaw_read_pam(input.as_ptr(), input.len(), size.as_mut_ptr(), size.len()) };
    answered(number).map(|()| size)
}

pub fn pam_header_length(size: [u32; 2]) -> Result<u32, u32> {
    let mut bytes = [0];
    // SAFETY: `bytes` is an exclusive borrow, so live and aligned, with its own length.
    let number = unsafe { raw::jonquilsaw_pam_header_length(size[0], size[1], bytes.as_mut_ptr(), bytes.len()) };
    answered(number).map(|()| bytes[0])
}

pub fn pam_length(size: [u32; 2]) -> Result<u32, u32> {
    let mut bytes = [0];
    // SAFETY: `bytes` is an exclusive borrow, so live and aligned, with its own length.
    let number = unsafe { raw::jonquilsaw_pam_length(size[0], size[1], bytes.as_mut_ptr(), bytes.len()) };
    answered(number).map(|()| bytes[0])
}

pub fn write_pam_header(size: [u32; 2], out: &mut [u8]) -> Result<(), u32> {
    // SAFETY: `out` is an exclusive borrow, so live and aligned, with its own length.
    let number = unsafe { raw::jonquilsaw_write_pam_header(size[0], size[1], out.as_mut_ptr(), out.len()) };
    answered(number)
}

pub fn write_pam(size: [u32; 2], pixels: &[u8], out: &mut [u8]) -> Result<(), u32> {
    // SAFETY: `out` is an exclusive borrow and `pixels` a shared one, so both are live, aligned and apart, each with its own length.
    let number = unsafe { raw::jonquilsaw_write_pam(size[0], size[1], pixels.as_ptr(), pixels.len(), out.as_mut_ptr(), out.len()) };
    answered(number)
}
