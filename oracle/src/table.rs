//! SCOPE's "Why a call is turned away" and "The job": which number a call gets, and how many rows are ready.
//! The original cannot express most of these calls (its pictures always have whole buffers, and it has no record),
//! so this table judges them; where it can, original.rs holds the table against it.
use crate::job::{FLAG, GROUP_LIMIT, K, LAYOUT, PICTURE, PLANE, Record, Sizes, T, group_words, planes};

pub const MAX_SIDE: u32 = 16384;

fn side_ok(s: u32) -> bool {
    (1..=MAX_SIDE).contains(&s)
}

fn pixels_of(w: u32, h: u32) -> usize {
    w as usize * h as usize
}

fn bad_sides(s: &Sizes, target: bool) -> bool {
    let sides = side_ok(s.w) && side_ok(s.h) && (!target || side_ok(s.tw) && side_ok(s.th));
    !sides || s.cw == 0 || s.ch == 0
}

fn crop_beyond(s: &Sizes) -> bool {
    let beyond = |at: u32, len: u32, side: u32| u64::from(at) + u64::from(len) > u64::from(side);
    beyond(s.x, s.cw, s.w) || beyond(s.y, s.ch, s.h)
}

/// 0, 1 or 2 for a source, a crop and, where there is one, a target.
pub fn sizes(s: &Sizes, target: bool) -> u32 {
    first(&[(bad_sides(s, target), 1), (crop_beyond(s), 2)])
}

/// The first cause that applies, in ascending order.
fn first(causes: &[(bool, u32)]) -> u32 {
    causes.iter().find(|c| c.0).map_or(0, |c| c.1)
}

pub fn resize(s: &Sizes, pixels: usize, out: usize, work: usize) -> u32 {
    match sizes(s, true) {
        0 => first(&[(pixels != 4 * pixels_of(s.w, s.h), 3), (out != 4 * pixels_of(s.tw, s.th), 4), (work < s.need(), 5)]),
        n => n,
    }
}

pub fn crop(s: &Sizes, pixels: usize, out: usize) -> u32 {
    match sizes(s, false) {
        0 => first(&[(pixels != 4 * pixels_of(s.w, s.h), 3), (out != 4 * pixels_of(s.cw, s.ch), 4)]),
        n => n,
    }
}

/// A picture alone, as the alpha flag takes it.
pub fn picture(w: u32, h: u32, pixels: usize) -> u32 {
    if !(side_ok(w) && side_ok(h)) {
        return 1;
    }
    first(&[(pixels != 4 * pixels_of(w, h), 3)])
}

pub fn plane(w: u32, h: u32, pixels: usize, plane: usize) -> u32 {
    match picture(w, h, pixels) {
        0 => first(&[(plane != pixels_of(w, h), 3)]),
        n => n,
    }
}

fn bad_lanes(s: &Sizes) -> bool {
    s.kind == PLANE && !(1..=4).contains(&s.lanes)
}

/// Order 1, 2, 5; of a plane 1, 10, 2, 5.
pub fn start(s: &Sizes, work: usize) -> u32 {
    first(&[(bad_sides(s, true), 1), (bad_lanes(s), 10), (crop_beyond(s), 2), (work < s.need(), 5)])
}

/// Order 1, 5, each over all three planes before the next.
pub fn three((w, h, tw, th): (u32, u32, u32, u32), work: &[usize; 3]) -> u32 {
    let all = planes(w, h, tw, th);
    let short = all.iter().zip(work).any(|(s, &lent)| lent < s.need());
    first(&[(all.iter().any(|s| bad_sides(s, true)), 1), (short, 5)])
}

/// How many of the crop's rows the first k source rows hold.
pub fn used(s: &Sizes, k: u32) -> u32 {
    k.saturating_sub(s.y).min(s.ch)
}

/// R(k): the output rows that k accepted rows make ready in all.
pub fn made(s: &Sizes, k: u32) -> u32 {
    let (u, h, g) = (used(s, k), s.ch, s.th);
    if g <= h {
        u * g / h
    } else if u == 0 {
        0
    } else if h == 1 {
        g
    } else {
        1 + (u - 1) * (g - 1) / (h - 1)
    }
}

pub fn record_ok(r: &Record) -> bool {
    let s = Sizes::of(r);
    let form = match s.kind {
        PICTURE => s.lanes == 4 && s.layout <= 2 && r[FLAG] <= 1,
        PLANE => (1..=4).contains(&s.lanes) && r[LAYOUT] == 0 && r[FLAG] == 0,
        _ => false,
    };
    if !form || sizes(&s, true) != 0 || r[K] > s.h {
        return false;
    }
    let least = if r[K] == 0 { 0 } else { made(&s, r[K] - 1) };
    let most = if r[K] == 0 { 0 } else { made(&s, r[K]) };
    least <= r[T] && r[T] <= most && !(r[FLAG] == 1 && r[T] == 0)
}

fn ready(r: &Record) -> bool {
    made(&Sizes::of(r), r[K]) > r[T]
}

/// Order 6, 3, 5, 7, 8.
pub fn offer(r: &Record, len: usize, work: usize) -> u32 {
    if !record_ok(r) {
        return 6;
    }
    let s = Sizes::of(r);
    first(&[(len == 0 || len % s.row(s.w) != 0, 3), (work < s.need(), 5), (ready(r), 7), (r[K] == s.h, 8)])
}

/// Order 6, 4, 5, 9.
pub fn take(r: &Record, out: usize, work: usize) -> u32 {
    if !record_ok(r) {
        return 6;
    }
    let s = Sizes::of(r);
    first(&[(out != s.row(s.tw), 4), (work < s.need(), 5), (!ready(r), 9)])
}

// ---- bands: request 9, in its own words

/// "the source rows from the next one due up to, but without, the first at which R rises above R(k)": how many. Source row s brings R to R(s + 1).
pub fn stretch(s: &Sizes, k: u32) -> u32 {
    (k..s.h).find(|&row| made(s, row + 1) > made(s, k)).unwrap_or(s.h) - k
}

/// "while rows above the crop are still due, once R stands at the target height, or for a height that grows"
fn no_band(s: &Sizes, k: u32) -> bool {
    k < s.y || made(s, k) == s.th || s.th > s.ch
}

/// How many rows the next band has; 0 where there is none.
pub fn band_rows(s: &Sizes, k: u32) -> u32 {
    if no_band(s, k) { 0 } else { stretch(s, k) }
}

/// Order 6, 17, 5, 7, 8: "A stretch that is empty or isn't exactly those rows is 17, in the place that 3 has for an offer".
pub fn band(r: &Record, len: usize, work: usize) -> u32 {
    if !record_ok(r) {
        return 6;
    }
    let s = Sizes::of(r);
    let other = len != s.row(s.w) * stretch(&s, r[K]) as usize;
    first(&[(len == 0 || other || no_band(&s, r[K]), 17), (work < s.need(), 5), (ready(r), 7), (r[K] == s.h, 8)])
}

// ---- groups: each number over all jobs before the next

/// No jobs, or jobs whose source sizes, layouts, kinds or lane counts differ.
fn differing(jobs: &[Sizes]) -> bool {
    let source = |s: &Sizes| (s.w, s.h, s.layout, s.kind, s.lanes);
    jobs.first().is_none_or(|one| jobs.iter().any(|s| source(s) != source(one)))
}

/// The work values that these jobs take together: where the part of the next would start.
pub fn total(jobs: &[Sizes]) -> usize {
    jobs.iter().map(Sizes::need).fold(0, usize::saturating_add)
}

/// Order 1, 10, 2, 13, 14, 5, of the jobs that are looked at, as they are formed.
pub fn group_start(jobs: &[Sizes], count: u32, work: usize) -> u32 {
    let some = |bad: &dyn Fn(&Sizes) -> bool| jobs.iter().any(bad);
    first(&[
        (some(&|s| bad_sides(s, true)), 1),
        (some(&bad_lanes), 10),
        (some(&crop_beyond), 2),
        (differing(jobs), 13),
        (count as usize > GROUP_LIMIT, 14),
        (work < total(jobs), 5),
    ])
}

/// The jobs' records in the words of a group's, where it keeps the rules.
pub fn group_records(words: &[u32]) -> Option<Vec<Record>> {
    let count = words[0] as usize;
    if count > GROUP_LIMIT || words.len() < group_words(count) {
        return None;
    }
    let records: Vec<Record> = words[1..group_words(count)].as_chunks().0.to_vec();
    let jobs: Vec<Sizes> = records.iter().map(Sizes::of).collect();
    let ok = !differing(&jobs) && records.iter().all(|r| record_ok(r) && r[K] == records[0][K]);
    ok.then_some(records)
}

/// Some job has a row ready.
pub fn some_ready(records: &[Record]) -> bool {
    records.iter().any(ready)
}

fn group_need(records: &[Record]) -> usize {
    total(&records.iter().map(Sizes::of).collect::<Vec<_>>())
}

/// Order 6, 3, 5, 7, 8.
pub fn group_offer(words: &[u32], len: usize, work: usize) -> u32 {
    let Some(records) = group_records(words) else { return 6 };
    let (s, k) = (Sizes::of(&records[0]), records[0][K]);
    first(&[(len == 0 || len % s.row(s.w) != 0, 3), (work < group_need(&records), 5), (some_ready(&records), 7), (k == s.h, 8)])
}

/// Order 6, 13, 4, 5, 9.
pub fn group_take(words: &[u32], job: usize, out: usize, work: usize) -> u32 {
    let Some(records) = group_records(words) else { return 6 };
    let Some(r) = records.get(job) else { return 13 };
    let s = Sizes::of(r);
    first(&[(out != s.row(s.tw), 4), (work < group_need(&records), 5), (!ready(r), 9)])
}

/// "A row goes out" by its formulas, with request 4: the lanes, and whether a value reaches 2^31. The original casts values to i32 before it cuts
/// them at 255, so it takes such a one for negative; work values that rows made never bring one, a caller's own may.
pub fn row_out(s: &Sizes, work: &[u32], t: u32, u: u32) -> (Vec<u8>, bool) {
    let half = s.row(s.tw);
    let (n, m, h, g) = (u64::from(s.cw), u64::from(s.tw), u64::from(s.ch), u64::from(s.th));
    let (t, u) = (u64::from(t), u64::from(u));
    let span = if m <= n { n } else { m - 1 };
    let frac = |a: u64, d: u64| u64::from(((a << 32) / d) as u32);
    let mult = |a: u64, b: u64| ((u128::from(a) * u128::from(b) + (1 << 31)) >> 32) as u64;
    let lane = |x: usize| -> u64 {
        let (first, second) = (work[x], work[half + x]);
        if g <= h {
            let d = u * g - (t + 1) * h;
            let q = (g << 32) / (span * h);
            let f = u64::from(second) * (frac(1, g) * d % (1 << 32)) >> 32;
            if q == 1 << 32 { u64::from(first) % 256 } else { mult(u64::from(first.wrapping_sub(f as u32)), q) }
        } else {
            let d = (u - 1) * (g - 1) - t * (h - 1);
            let b = frac(d, g - 1);
            let (newer, older) = if (u - 1) % 2 == 0 { (second, first) } else { (first, second) };
            let blend = u128::from((1 << 32) - b) * u128::from(newer) + u128::from(b) * u128::from(older);
            let j = if d == 0 { u64::from(newer) } else { ((blend + (1 << 31)) >> 32) as u64 };
            if s.divider() { j } else { mult(j, frac(1, span)) }
        }
    };
    let values: Vec<u64> = (0..half).map(lane).collect();
    (values.iter().map(|&v| v.min(255) as u8).collect(), values.iter().any(|&v| v >= 1 << 31))
}
