//! Makes jobs: exhaustively for small sides, at random around every boundary. The same seed makes the same jobs.
use crate::job::{Call, FLAG, Job, K, KIND, LANES, LAYOUT, PICTURE, PLANE, Pixels, Record, Sizes, T, planes};
use crate::picture::{ONE_PIXEL, PATTERNS};
use crate::{bands, groups, table};

/// splitmix64.
pub struct Random(pub u64);

impl Random {
    pub fn next(&mut self) -> u64 {
        self.0 = self.0.wrapping_add(0x9e3779b97f4a7c15);
        let z = (self.0 ^ self.0 >> 30).wrapping_mul(0xbf58476d1ce4e5b9);
        let z = (z ^ z >> 27).wrapping_mul(0x94d049bb133111eb);
        z ^ z >> 31
    }
    /// 0 to n - 1.
    pub fn below(&mut self, n: u32) -> u32 {
        ((self.next() >> 32) * u64::from(n) >> 32) as u32
    }
    /// a to b.
    pub fn within(&mut self, a: u32, b: u32) -> u32 {
        a + self.below(b - a + 1)
    }
    pub fn one_in(&mut self, n: u32) -> bool {
        self.below(n) == 0
    }
    pub fn of<V: Copy>(&mut self, values: &[V]) -> V {
        values[self.below(values.len() as u32) as usize]
    }
    pub fn pixels(&mut self) -> Pixels {
        Pixels { pattern: self.below(PATTERNS), seed: self.next() as u32 }
    }
}

/// The sets of jobs, and how many of each a gate's run and a long run have; of pictures, of planes, of groups, then of bands.
pub const SETS: [(&str, u64, u64); 30] = [
    ("small", 12288, 80 * 12288),
    ("small-rows", 12288, 80 * 12288),
    ("edges", 3000, 60_000),
    ("edges-rows", 1000, 10_000),
    ("crops", 6000, 600_000),
    ("calls", 12000, 1_000_000),
    ("records", 4000, 400_000),
    ("bad", 8000, 400_000),
    ("bad-start", 4000, 400_000),
    ("alphas", 300, 6000),
    ("beside", 8000, 400_000),
    ("wraps", 16, 300),
    ("strips", 6, 30),
    ("dividers", DIVIDERS + 1200, DIVIDERS + 100_000),
    ("spills", SPILLS + 1200, SPILLS + 100_000),
    ("lanes-small", 4096, 80 * 4096),
    ("lanes-edges", 800, 8000),
    ("lanes-crops", 1000, 100_000),
    ("lanes-calls", 1200, 100_000),
    ("lanes-records", 500, 50_000),
    ("lanes-kinds", 4 * FORMS, 80 * FORMS),
    ("lanes-start", STARTS, 20 * STARTS),
    ("lanes-three", 800, 60_000),
    ("lanes-wraps", 10, 100),
    ("lanes-strips", 8, 40),
    ("lanes-dividers", DIVIDERS + 1200, DIVIDERS + 100_000),
    ("groups", 2000, 100_000),
    ("groups-calls", 2400, 100_000),
    ("bands", 2000, 100_000),
    ("bands-calls", 2400, 100_000),
];

/// The sets of planes.
pub fn of_planes(set: &str) -> bool {
    set.starts_with("lanes-")
}

/// Job number i of a set.
pub fn make(set: &str, i: u64, r: &mut Random) -> Job {
    match set {
        "small" => whole(&small(i), r),
        "small-rows" => rows(&small(i), 0, r),
        "edges" => whole(&edges(r, true), r),
        "edges-rows" => rows(&edges(r, false), 0, r),
        "crops" => rows(&crops(r), 0, r),
        "calls" => {
            let sizes = calls(r);
            rows(&sizes, 4, r)
        }
        "records" => {
            let sizes = calls(r);
            records(&sizes, r)
        }
        "bad" => bad(r),
        "bad-start" => bad_start(r),
        "alphas" => alphas(i, r),
        "beside" => beside(r),
        "wraps" => wraps(r),
        "strips" => strips(i, r),
        "dividers" => dividers(i, r),
        "spills" => spills(i, r),
        "lanes-small" => rows(&small_plane(i), 0, r),
        "lanes-edges" => {
            let sizes = edges(r, false);
            rows(&any_plane(sizes, r), 0, r)
        }
        "lanes-crops" => {
            let sizes = crops(r);
            rows(&any_plane(sizes, r), 0, r)
        }
        "lanes-calls" => {
            let sizes = calls(r);
            rows(&any_plane(sizes, r), 4, r)
        }
        "lanes-records" => {
            let sizes = calls(r);
            records(&any_plane(sizes, r), r)
        }
        "lanes-kinds" => kinds(i, r),
        "lanes-start" => plane_start(i, r),
        "lanes-three" => three(i, r),
        "lanes-wraps" => {
            let (sizes, px) = wrapping(r);
            rows_of(&any_plane(sizes, r), px, 0, r)
        }
        "lanes-strips" => {
            let (sizes, px) = strip(i, r);
            rows_of(&plane_of(sizes, 1 + (i % 4) as u32), px, 0, r)
        }
        "lanes-dividers" => plane_dividers(i, r),
        "groups" => groups::right(r),
        "groups-calls" => groups::wrong(i, r),
        "bands" => bands::right(i, r),
        "bands-calls" => bands::wrong(i, r),
        _ => panic!("no set {set}"),
    }
}

pub fn full(layout: u32, w: u32, h: u32, tw: u32, th: u32) -> Sizes {
    Sizes { layout, w, h, cw: w, ch: h, tw, th, ..Sizes::PICTURE }
}

fn plane_of(s: Sizes, lanes: u32) -> Sizes {
    Sizes { layout: 0, kind: PLANE, lanes, ..s }
}

pub fn any_plane(s: Sizes, r: &mut Random) -> Sizes {
    plane_of(s, r.within(1, 4))
}

fn whole_with(s: &Sizes, px: Pixels, extra: usize) -> Job {
    Job::Resize {
        layout: s.layout,
        w: s.w,
        h: s.h,
        tw: s.tw,
        th: s.th,
        pixels: 4 * s.w as usize * s.h as usize,
        out: 4 * s.tw as usize * s.th as usize,
        work: s.need() + extra,
        px,
    }
}

fn whole(s: &Sizes, r: &mut Random) -> Job {
    whole_with(s, r.pixels(), r.below(4) as usize)
}

/// Every source and target side from 1 to 8, in every layout.
fn small(i: u64) -> Sizes {
    let digit = |k: u32| (i / 3 >> (3 * k) & 7) as u32 + 1;
    full((i % 3) as u32, digit(0), digit(1), digit(2), digit(3))
}

/// Every source and target side from 1 to 8; every count of lanes with every pair of widths and every pair of heights, and in four rounds with
/// every size.
fn small_plane(i: u64) -> Sizes {
    let digit = |k: u32| (i >> (3 * k) & 7) as u32 + 1;
    let (w, h, tw, th) = (digit(0), digit(1), digit(2), digit(3));
    plane_of(full(0, w, h, tw, th), 1 + (w + h + tw + th + (i / 4096) as u32) % 4)
}

const SIDES: [u32; 8] = [1, 2, 3, 255, 256, 257, 16383, 16384];

pub fn side(r: &mut Random) -> u32 {
    if r.one_in(2) { r.of(&SIDES) } else { r.within(1, 40) }
}

/// Steps that a job takes: pixels in, values for each row in, pixels out.
fn cost(s: &Sizes) -> u64 {
    let by = |a: u32, b: u32| u64::from(a) * u64::from(b);
    by(s.w, s.h) + by(s.ch, s.tw) + by(s.th, s.tw)
}

/// Sides at the boundaries: span 1, equal sizes, heights that grow and shrink.
fn edges(r: &mut Random, uncropped: bool) -> Sizes {
    loop {
        let (w, h) = (side(r), side(r));
        let (tw, th) = match r.below(8) {
            0 => (w, h),
            1 => (w, side(r)),
            2 => (side(r), h),
            3 => (r.of(&[w.saturating_sub(1).max(1), w, w + 1]).min(16384), r.of(&[h.saturating_sub(1).max(1), h, h + 1]).min(16384)),
            4 => (r.within(1, 2), side(r)),
            _ => (side(r), side(r)),
        };
        let mut s = full(r.below(3), w, h, tw, th);
        if !uncropped {
            crop_at_edge(&mut s, r);
        }
        if r.one_in(8) {
            (s.w, s.cw, s.x) = (1, 1, 0);
            s.tw = r.within(1, 3);
        }
        if cost(&s) <= 300_000 {
            return s;
        }
    }
}

/// A crop that touches any of the four edges, or none.
pub fn crop_at_edge(s: &mut Sizes, r: &mut Random) {
    let mut axis = |side: u32| -> (u32, u32) {
        let len = if r.one_in(3) { side } else { r.within(1, side) };
        let at = match r.below(3) {
            0 => 0,
            1 => side - len,
            _ => r.within(0, side - len),
        };
        (at, len)
    };
    (s.x, s.cw) = axis(s.w);
    (s.y, s.ch) = axis(s.h);
}

fn crops(r: &mut Random) -> Sizes {
    let mut s = full(r.below(3), r.within(1, 12), r.within(1, 14), r.within(1, 12), r.within(1, 16));
    crop_at_edge(&mut s, r);
    if r.one_in(6) {
        (s.tw, s.th) = (s.cw, s.ch);
    }
    s
}

fn calls(r: &mut Random) -> Sizes {
    let mut s = full(r.below(3), r.within(1, 5), r.within(1, 7), r.within(1, 5), r.within(1, 9));
    crop_at_edge(&mut s, r);
    s
}

/// A job by rows, cut at random; one call in `bad` is a wrong one (none if 0).
fn rows(s: &Sizes, bad: u32, r: &mut Random) -> Job {
    let px = r.pixels();
    rows_of(s, px, bad, r)
}

fn rows_of(s: &Sizes, px: Pixels, bad: u32, r: &mut Random) -> Job {
    let work = s.need() + r.below(4) as usize;
    Job::Rows { sizes: *s, work, px, calls: calls_of(s, work, bad, r) }
}

fn calls_of(s: &Sizes, work: usize, bad: u32, r: &mut Random) -> Vec<Call> {
    let mut record = s.record();
    let mut list = Vec::new();
    let (row, out) = (s.row(s.w), s.row(s.tw));
    let least = s.h / 100;
    let most = least + r.of(&[1, 2, 3, 5, s.h + 2]);
    let left = |record: &Record| record[K] < s.h || record[T] < s.th;
    let mut over = if bad == 0 { 0 } else { r.below(4) };
    while left(&record) || over > 0 {
        if !left(&record) {
            over -= 1;
        }
        let ready = table::made(s, record[K]) > record[T];
        let from = record[K] as usize * row;
        if bad > 0 && (r.one_in(bad) || !left(&record)) {
            wrong_call(s, &record, (from, row, out, work), &mut list, r);
        } else if ready {
            list.push(Call::Take { out, work: r.of(&[work, s.need()]) });
            record[T] += 1;
        } else {
            let n = r.within(1 + least, most).min(s.h + 2 - record[K]);
            list.push(Call::Offer { from, len: n as usize * row, work });
            for _ in 0..n {
                record[K] += 1;
                if record[K] == s.h || table::made(s, record[K]) > record[T] {
                    break;
                }
            }
        }
    }
    list
}

/// A record that the caller filled: rows accepted, rows taken and flag become others that pass the rules, and calls go on.
fn records(sizes: &Sizes, r: &mut Random) -> Job {
    let Job::Rows { sizes: s, work, px, calls } = rows(sizes, 0, r) else { unreachable!() };
    let mut list: Vec<Call> = calls.iter().copied().take(r.below(calls.len() as u32 + 1) as usize).collect();
    let k = r.within(0, s.h);
    let (least, most) = if k == 0 { (0, 0) } else { (table::made(&s, k - 1), table::made(&s, k)) };
    let mut t = r.within(least, most);
    let flag = u32::from(s.kind != PLANE && t > 0 && r.one_in(2));
    for (field, value) in [(K, k), (T, t), (FLAG, flag)] {
        list.push(Call::Set { field, value });
    }
    while t < most {
        list.push(Call::Take { out: s.row(s.tw), work });
        t += 1;
    }
    if k < s.h {
        let row = s.row(s.w);
        list.push(Call::Offer { from: k as usize * row, len: row, work });
        list.push(Call::Take { out: s.row(s.tw), work });
    }
    Job::Rows { sizes: s, work, px, calls: list }
}

/// A call that some rule may turn away, or two rules at once.
fn wrong_call(s: &Sizes, record: &Record, (from, row, out, work): (usize, usize, usize, usize), list: &mut Vec<Call>, r: &mut Random) {
    let short = s.need() - 1;
    let lent = r.of(&[work, work, s.need(), short, 0]);
    let off = |len: usize, r: &mut Random| r.of(&[len, len, 0, len + 1, len - 1, len + 4, 2 * len]);
    let call = |list: &mut Vec<Call>, r: &mut Random| {
        list.push(if r.one_in(2) {
            let len = off(row, r);
            // Bytes of another place: only where the call is sure to be turned away.
            let sure = table::made(s, record[K]) > record[T] || record[K] == s.h || lent <= short || len == 0 || len % row != 0;
            Call::Offer { from: if sure { 0 } else { from }, len: if sure { len } else { 0 }, work: lent }
        } else {
            let ready = table::made(s, record[K]) > record[T];
            let len = off(out, r);
            Call::Take { out: if ready && lent > short && len == out { out + 1 } else { len }, work: lent }
        });
    };
    if !r.one_in(3) {
        call(list, r);
        return;
    }
    // The record is changed for one call; where the change still passes the rules, number 5 or 3 turns the call away.
    let plane = s.kind == PLANE;
    let field = r.below(if plane { 14 } else { 12 }) as usize;
    let held = record[field];
    let value = match field {
        LAYOUT if plane => r.of(&[1, 2, 3]),
        LAYOUT => held,
        FLAG => 1 - held,
        KIND => r.of(&[0, 2, u32::MAX]),
        LANES => r.of(&[0, 1, 2, 3, 4, 5, u32::MAX]),
        _ => r.of(&[0, held.wrapping_add(1), held.wrapping_sub(1), 16384, 16385, u32::MAX, held]),
    };
    list.push(Call::Set { field, value });
    let mut changed = *record;
    changed[field] = value;
    if table::record_ok(&changed) && changed != *record {
        list.push(if r.one_in(2) { Call::Offer { from: 0, len: 0, work: 0 } } else { Call::Take { out: 0, work: 0 } });
    } else {
        call(list, r);
    }
    list.push(Call::Set { field, value: held });
}

fn wrong_side(s: u32, r: &mut Random) -> u32 {
    if r.one_in(7) { r.of(&[0, 1, 16384, 16385, 65536, 1 << 31, u32::MAX]) } else { s }
}

fn off_length(len: usize, r: &mut Random) -> usize {
    let len = len.min(1 << 16);
    if r.one_in(3) { r.of(&[0, len + 1, len.saturating_sub(1), len + 4, len.saturating_sub(4), len / 2, 2 * len]) } else { len }
}

fn bytes_of(w: u32, h: u32) -> usize {
    (u64::from(w) * u64::from(h)).min(1 << 18) as usize * 4
}

/// Whole-picture calls with one or several causes to be turned away; a few have none.
fn bad(r: &mut Random) -> Job {
    let layout = r.below(3);
    let px = r.pixels();
    let (w0, h0, tw0, th0) = (r.within(1, 6), r.within(1, 6), r.within(1, 6), r.within(1, 6));
    let (w, h) = (wrong_side(w0, r), wrong_side(h0, r));
    let pixels = off_length(bytes_of(w, h), r);
    match r.below(9) {
        0..=2 => {
            let (tw, th) = (wrong_side(tw0, r), wrong_side(th0, r));
            let out = off_length(bytes_of(tw, th), r);
            let work = off_length(8 * tw.min(4096) as usize, r);
            Job::Resize { layout, w, h, tw, th, pixels, out, work, px }
        }
        3..=5 => {
            let (x, y) = (r.of(&[0, 0, 1, w.wrapping_sub(1), w, 16384, u32::MAX]), r.of(&[0, 0, 1, h.wrapping_sub(1), h, 16384, u32::MAX]));
            let cw = r.of(&[0, 1, w.saturating_sub(x), w, w.wrapping_add(1), u32::MAX]);
            let ch = r.of(&[0, 1, h.saturating_sub(y), h, h.wrapping_add(1), u32::MAX]);
            let out = off_length(bytes_of(cw, ch), r);
            Job::Crop { layout, w, h, x, y, cw, ch, pixels, out, px }
        }
        6 => {
            let plane = off_length(bytes_of(w, h) / 4, r);
            Job::Plane { layout, w, h, pixels, plane, px }
        }
        7 => Job::Flag { layout, w, h, pixels, px },
        _ => Job::Scaled { w, h, tw: wrong_side(tw0, r), th: wrong_side(th0, r) },
    }
}

/// Starts with sizes, crops and work values that may be wrong.
fn bad_start(r: &mut Random) -> Job {
    let mut s = full(r.below(3), r.within(1, 6), r.within(1, 6), r.within(1, 6), r.within(1, 6));
    crop_at_edge(&mut s, r);
    for _ in 0..r.below(3) {
        match r.below(8) {
            0 => s.w = r.of(&[0, 16385, u32::MAX]),
            1 => s.h = r.of(&[0, 16385, u32::MAX]),
            2 => s.x = r.of(&[s.x.wrapping_add(1), s.w, u32::MAX]),
            3 => s.y = r.of(&[s.y.wrapping_add(1), s.h, u32::MAX]),
            4 => s.cw = r.of(&[0, s.cw.wrapping_add(1), 16385, u32::MAX]),
            5 => s.ch = r.of(&[0, s.ch.wrapping_add(1), 16385, u32::MAX]),
            6 => s.tw = r.of(&[0, 16385, u32::MAX]),
            _ => s.th = r.of(&[0, 16385, u32::MAX]),
        }
    }
    let need = 8 * s.tw.min(64) as usize;
    let work = r.of(&[need, need, need + 1, need.saturating_sub(1), 0]);
    if table::start(&s, work) == 0 {
        // Large sides may have got through: keep to those that can be run.
        if cost(&s) > 300_000 || work < s.need() {
            return bad_start(r);
        }
        return rows(&s, 0, r);
    }
    Job::Rows { sizes: s, work, px: r.pixels(), calls: Vec::new() }
}

/// Every alpha from 0 to 255, and every pair of an alpha and a colour.
fn alphas(i: u64, r: &mut Random) -> Job {
    let layout = (i % 3) as u32;
    let seed = r.next() as u32;
    match i / 3 {
        0 => whole_with(&full(layout, 256, 256, 256, 256), Pixels { pattern: 8, seed }, 0),
        1 => whole_with(&full(layout, 256, 256, 128, 256), Pixels { pattern: 8, seed }, 0),
        2 => whole_with(&full(layout, 256, 256, 256, 511), Pixels { pattern: 8, seed }, 0),
        _ => {
            let (tw, th) = (r.of(&[1, 16, 100, 255, 256, 257, 300]), r.of(&[1, 1, 2, 3]));
            whole_with(&full(layout, 256, r.within(1, 3), tw, th), Pixels { pattern: 7, seed }, 0)
        }
    }
}

/// The functions beside the job, called rightly.
fn beside(r: &mut Random) -> Job {
    let layout = r.below(3);
    let px = r.pixels();
    let (w, h) = (r.within(1, 20), r.within(1, 20));
    let pixels = 4 * w as usize * h as usize;
    match r.below(6) {
        0 => {
            let mut s = full(layout, w, h, 1, 1);
            crop_at_edge(&mut s, r);
            let out = 4 * s.cw as usize * s.ch as usize;
            Job::Crop { layout, w, h, x: s.x, y: s.y, cw: s.cw, ch: s.ch, pixels, out, px }
        }
        1 => Job::Plane { layout, w, h, pixels, plane: pixels / 4, px },
        2 => Job::Flag { layout, w, h, pixels, px },
        3 => {
            let bytes = r.below(200) as usize;
            let out = if r.one_in(5) { bytes / 4 + 1 } else { bytes / 4 };
            Job::Unpack { layout, bytes, out, px }
        }
        4 => {
            let count = r.below(60) as usize;
            let out = if r.one_in(5) { 4 * count + 4 } else { 4 * count };
            Job::Pack { layout, count, out, px }
        }
        _ => {
            let mut asked = || if r.one_in(2) { 0 } else { side(r) };
            let (tw, th) = (asked(), asked());
            Job::Scaled { w: side(r), h: side(r), tw, th }
        }
    }
}

/// Sums that wrap: few columns become many, over many rows.
fn wrapping(r: &mut Random) -> (Sizes, Pixels) {
    let tw = r.of(&[16384, 16384, 16383, 12000, 9000]);
    let th = r.of(&[1, 1, 1, 2, 3]);
    let edge = ((u64::from(th) << 32) / (255 * u64::from(tw - 1))) as u32;
    let h = (edge + r.of(&[0, 1, 2, 3, 50, 400])).min(16384);
    let s = full(r.below(3), r.within(1, 3), h, tw, th);
    (s, Pixels { pattern: r.of(&[0, 1, 2, 4, 6, 9, 9]), seed: r.next() as u32 })
}

fn wraps(r: &mut Random) -> Job {
    let (s, px) = wrapping(r);
    if r.one_in(2) { whole_with(&s, px, 0) } else { at_once(&s, px) }
}

/// By rows, with as few offers as there can be.
fn at_once(s: &Sizes, px: Pixels) -> Job {
    let (row, out, work) = (s.row(s.w), s.row(s.tw), s.need());
    let mut calls = Vec::new();
    let (mut k, mut t) = (0, 0);
    while t < s.th {
        if table::made(s, k) > t {
            calls.push(Call::Take { out, work });
            t += 1;
        } else {
            let n = s.h - k;
            calls.push(Call::Offer { from: k as usize * row, len: n as usize * row, work });
            while k < s.h && table::made(s, k) <= t {
                k += 1;
            }
        }
    }
    Job::Rows { sizes: *s, work, px, calls }
}

/// The widest strips, around the height at which white sums wrap, and taller.
fn strip(i: u64, r: &mut Random) -> (Sizes, Pixels) {
    let white = Pixels { pattern: 6, seed: 0 };
    let (h, tw, th, px) = match i {
        0 => (1028, 1, 1, white),
        1 => (1029, 1, 1, white),
        2 => (256, 3, 5, r.pixels()),
        3 => (1028, 1, 1, r.pixels()),
        4 => (1029, 2, 1, Pixels { pattern: 4, seed: 7 }),
        5 => (1100, 7, 1, r.pixels()),
        6 => (1500, 1, 1, Pixels { pattern: 6, seed: 0 }),
        7 => (2058, 5, 2, Pixels { pattern: 5, seed: 3 }),
        _ => (r.within(1020, 1400), r.within(1, 40), r.within(1, 2), r.pixels()),
    };
    let w = if i < 8 { 16384 } else { r.within(12000, 16384) };
    (full((i % 3) as u32, w, h, tw, th), px)
}

fn strips(i: u64, r: &mut Random) -> Job {
    let (s, px) = strip(i, r);
    whole_with(&s, px, 1)
}

// ---- the corner that request 4 changed: the height grows and span is 1

/// The jobs of `dividers` and `lanes-dividers` that are not made at random.
const DIVIDERS: u64 = SMALL_DIVIDERS + 8 + 8;
const SMALL_DIVIDERS: u64 = 1024;

/// Every height from 1 to 8 to each of the eight above it, one and two wide; the rest of the number is what is left of i.
fn small_divider(i: u64) -> (Sizes, u32) {
    let h = 1 + (i & 7) as u32;
    (full(0, 1, h, 1 + (i >> 6 & 1) as u32, h + 1 + (i >> 3 & 7) as u32), (i >> 7) as u32)
}

/// All pairs of an alpha and a colour, each in a row where d is 0 and in two that are blended: a column of a picture 8 wide, by rows.
fn pairs(i: u64, r: &mut Random) -> (Sizes, Pixels) {
    let s = Sizes { x: i as u32, cw: 1, ..full((i % 3) as u32, 8, 8192, r.within(1, 2), 16383) };
    (s, Pixels { pattern: 8, seed: 0 })
}

/// The largest heights.
fn tall_divider(i: u64) -> Sizes {
    let h = [1, 2, 8192, 16383][(i / 2) as usize % 4];
    full((i % 3) as u32, 1, h, 1 + (i % 2) as u32, 16384)
}

/// Somewhere in a picture, at any of its edges.
fn any_divider(r: &mut Random) -> Sizes {
    let mut s = full(r.below(3), r.within(1, 5), r.within(1, 9), r.within(1, 2), 1);
    crop_at_edge(&mut s, r);
    (s.x, s.cw) = (r.below(s.w), 1);
    s.th = s.ch + if r.one_in(3) { r.within(1, 300) } else { r.within(1, 9) };
    s
}

/// A whole column.
fn column(r: &mut Random) -> Sizes {
    let h = r.within(1, 60);
    full(r.below(3), 1, h, r.within(1, 2), h + r.within(1, 200))
}

fn dividers(i: u64, r: &mut Random) -> Job {
    const TALL: u64 = SMALL_DIVIDERS + 8;
    match i {
        0..SMALL_DIVIDERS => {
            let (s, rest) = small_divider(i);
            let s = Sizes { layout: rest % 3, ..s };
            if rest < 3 { whole(&s, r) } else { rows(&s, 0, r) }
        }
        SMALL_DIVIDERS..TALL => {
            let (s, px) = pairs(i - SMALL_DIVIDERS, r);
            rows_of(&s, px, 0, r)
        }
        TALL..DIVIDERS => {
            let s = tall_divider(i - TALL);
            if i % 2 == 0 { whole(&s, r) } else { rows(&s, 0, r) }
        }
        _ => match r.below(6) {
            0 => whole(&column(r), r),
            1 => rows(&any_divider(r), 4, r),
            2 => records(&any_divider(r), r),
            3 => forged(&any_divider(r), r),
            _ => rows(&any_divider(r), 0, r),
        },
    }
}

fn plane_dividers(i: u64, r: &mut Random) -> Job {
    const TALL: u64 = SMALL_DIVIDERS + 8;
    match i {
        0..SMALL_DIVIDERS => {
            let (s, rest) = small_divider(i);
            rows(&plane_of(s, 1 + rest % 4), 0, r)
        }
        SMALL_DIVIDERS..TALL => {
            let (s, px) = pairs(i - SMALL_DIVIDERS, r);
            rows_of(&plane_of(s, 4), px, 0, r)
        }
        TALL..DIVIDERS => rows(&plane_of(tall_divider(i - TALL), 1 + (i % 4) as u32), 0, r),
        _ => {
            let s = any_divider(r);
            let s = any_plane(s, r);
            match r.below(6) {
                0 => {
                    // Luma, both chroma planes, or all three.
                    let (w, h) = (r.within(1, 2), r.within(1, 9));
                    let sides = [w, h, r.within(1, 4), h + r.within(1, 9)];
                    let work = planes(sides[0], sides[1], sides[2], sides[3]).map(|s| s.need() + r.below(4) as usize);
                    three_of(sides, work, r)
                }
                1 => rows(&s, 4, r),
                2 => records(&s, r),
                3 => forged(&s, r),
                _ => rows(&s, 0, r),
            }
        }
    }
}

/// Somewhere in a job the record becomes one of another kind or count that no rule forbids: the halves stand elsewhere then, and hold what no row
/// brought, so that j may pass 255.
fn forged(s: &Sizes, r: &mut Random) -> Job {
    let work = 8 * s.tw as usize + r.below(4) as usize;
    let mut list = calls_of(s, work, 0, r);
    list.truncate(1 + r.below(list.len() as u32) as usize);
    let other = if r.one_in(3) { Sizes { layout: r.below(3), kind: Sizes::PICTURE.kind, lanes: 4, ..*s } } else { any_plane(*s, r) };
    list.extend([(KIND, other.kind), (LANES, other.lanes), (LAYOUT, other.layout), (FLAG, 0)].map(|(field, value)| Call::Set { field, value }));
    list.push(Call::Take { out: other.row(s.tw), work });
    list.push(Call::Offer { from: 0, len: other.row(s.w), work });
    list.push(Call::Take { out: other.row(s.tw), work });
    Job::Rows { sizes: *s, work, px: r.pixels(), calls: list }
}

// ---- the corner that request 7 changed: a scaled colour above its alpha

/// The jobs of `spills` that are not made at random.
const SPILLS: u64 = 5;

/// The example of docs/DIFFERENCES.md, whole and by rows; then planes of four lanes whose rows are taken as a picture's, first with
/// all pairs of an alpha and a colour, in each layout.
fn spills(i: u64, r: &mut Random) -> Job {
    if i < 2 {
        let (s, px) = (full(0, 1, 1031, 16384, 1), Pixels { pattern: ONE_PIXEL, seed: u32::from_le_bytes([0, 0, 2, 255]) });
        return if i == 0 { whole_with(&s, px, 0) } else { at_once(&s, px) };
    }
    if i < SPILLS {
        let (s, px) = (plane_of(full(0, 256, 256, 256, 256), 4), Pixels { pattern: 8, seed: 0 });
        let work = s.need();
        let calls = taken_as_pictures(&calls_of(&s, work, 0, r), &[0], i as u32 - 2, false);
        return Job::Rows { sizes: s, work, px, calls };
    }
    // Patterns with an alpha below 255.
    let px = Pixels { pattern: r.of(&[0, 2, 3, 5, 7, 8]), seed: r.next() as u32 };
    let layout = r.below(3);
    let stays = r.one_in(4);
    let s = match r.below(8) {
        0 | 1 => return groups::spilling(px, layout, stays, r),
        2 => any_divider(r),
        3 => calls(r),
        _ => crops(r),
    };
    let s = plane_of(s, 4);
    let work = s.need() + r.below(4) as usize;
    let calls = taken_as_pictures(&calls_of(&s, work, 0, r), &[0], layout, stays);
    Job::Rows { sizes: s, work, px, calls }
}

/// The calls of planes of four lanes, whose records, starting at these words, are a picture's for takes: what came in unmatted is restored, so that any colour
/// may stand above its alpha. For offers they are a plane's again, if they do not stay a picture's.
pub fn taken_as_pictures(calls: &[Call], records: &[usize], layout: u32, stays: bool) -> Vec<Call> {
    let mut list = Vec::new();
    let mut picture = false;
    for &call in calls {
        let wanted = match call {
            Call::Take { .. } => true,
            Call::Offer { .. } => picture && stays,
            _ => picture,
        };
        if wanted != picture {
            picture = wanted;
            let form = if picture { [(KIND, PICTURE), (LAYOUT, layout), (FLAG, 0)] } else { [(KIND, PLANE), (LAYOUT, 0), (FLAG, 0)] };
            list.extend(records.iter().flat_map(|at| form.map(|(field, value)| Call::Set { field: at + field, value })));
        }
        list.push(call);
    }
    list
}

// ---- planes

const KINDS: [u32; 4] = [0, 1, 2, u32::MAX];
const COUNTS: [u32; 7] = [0, 1, 2, 3, 4, 5, u32::MAX];
/// Kinds, counts of lanes, layouts 0 to 3 and flags 0 to 2.
const FORMS: u64 = 4 * 7 * 4 * 3;

/// A record, somewhere in a job of a picture or of a plane, gets every combination of kind, count, layout and flag, those that no rule forbids
/// among them; after an offer and a take it gets its own again.
fn kinds(i: u64, r: &mut Random) -> Job {
    let place = |below: u64, count: usize| (i / below) as usize % count;
    let form = [(KIND, KINDS[place(1, 4)]), (LANES, COUNTS[place(4, 7)]), (LAYOUT, place(28, 4) as u32), (FLAG, place(112, 3) as u32)];
    let mut s = full(r.below(3), r.within(1, 4), r.within(2, 6), r.within(1, 4), r.within(1, 7));
    crop_at_edge(&mut s, r);
    if !r.one_in(4) {
        s = any_plane(s, r);
    }
    let px = r.pixels();
    let work = 8 * s.tw as usize + r.below(4) as usize;
    let mut list = calls_of(&s, work, 0, r);
    list.truncate(r.below(list.len() as u32) as usize);
    let both = |list: &mut Vec<Call>, s: &Sizes| {
        list.push(Call::Offer { from: 0, len: s.row(s.w), work });
        list.push(Call::Take { out: s.row(s.tw), work });
    };
    list.extend(form.map(|(field, value)| Call::Set { field, value }));
    let lanes = if (1..=4).contains(&form[1].1) { form[1].1 } else { s.lanes };
    both(&mut list, &Sizes { lanes, ..s });
    list.extend([(KIND, s.kind), (LANES, s.lanes), (LAYOUT, s.layout), (FLAG, 0)].map(|(field, value)| Call::Set { field, value }));
    both(&mut list, &s);
    Job::Rows { sizes: s, work, px, calls: list }
}

/// Causes of 1, 10, 2 and 5, none among each.
const STARTS: u64 = 15 * 5 * 10 * 3;

/// A start of a plane with every combination of a cause of 1, one of 10, one of 2 and one of 5, in every argument.
fn plane_start(i: u64, r: &mut Random) -> Job {
    const MAX: u32 = u32::MAX;
    let mut s = full(0, r.within(1, 6), r.within(1, 6), r.within(1, 6), r.within(1, 6));
    crop_at_edge(&mut s, r);
    s = any_plane(s, r);
    match i / 15 / 5 % 10 {
        1 => s.x = s.w - s.cw + 1,
        2 => s.y = s.h - s.ch + 1,
        3 => s.x = MAX,
        4 => s.y = MAX,
        5 => s.cw = s.w - s.x + 1,
        6 => s.ch = s.h - s.y + 1,
        7 => s.cw = MAX,
        8 => s.ch = MAX,
        9 => s.cw = 16385,
        _ => {}
    }
    match i % 15 {
        1 => s.w = 0,
        2 => s.w = 16385,
        3 => s.w = MAX,
        4 => s.h = 0,
        5 => s.h = 16385,
        6 => s.h = MAX,
        7 => s.tw = 0,
        8 => s.tw = 16385,
        9 => s.tw = MAX,
        10 => s.th = 0,
        11 => s.th = 16385,
        12 => s.th = MAX,
        13 => s.cw = 0,
        14 => s.ch = 0,
        _ => {}
    }
    // 257 is 1 in a byte
    s.lanes = [s.lanes, 0, 5, 257, MAX][(i / 15 % 5) as usize];
    let need = 2 * s.lanes.min(4) as usize * s.tw.min(64) as usize;
    let work = [need + r.below(4) as usize, need.saturating_sub(1), 0][(i / 15 / 5 / 10 % 3) as usize];
    if table::start(&s, work) == 0 {
        return Job::Rows { sizes: s, work, px: r.pixels(), calls: calls_of(&s, work, 0, r) };
    }
    Job::Rows { sizes: s, work, px: r.pixels(), calls: Vec::new() }
}

/// Three planes in one call: first every side wrong, with every combination of work slices too short or empty; then sizes that pass, the calls
/// of the three jobs mixed, some of them wrong.
fn three(i: u64, r: &mut Random) -> Job {
    const BAD: [u32; 3] = [0, 16385, u32::MAX];
    let mut sides = [r.within(1, 9), r.within(1, 9), r.within(1, 9), r.within(1, 9)];
    let (side, lengths) = (i as usize % 13, i / 13);
    if i >= 13 * 27 && r.one_in(10) {
        let s = edges(r, true);
        sides = [s.w, s.h, s.tw, s.th];
    } else if i < 13 * 27 && side > 0 {
        sides[(side - 1) / 3] = BAD[(side - 1) % 3];
    }
    let [w, h, tw, th] = sides;
    let all = planes(w, h, tw, th);
    let mut work = [0; 3];
    for (k, lent) in work.iter_mut().enumerate() {
        let need = 2 * all[k].tw.min(20_000) as usize;
        let choice = if i < 13 * 27 { lengths / 3u64.pow(k as u32) % 3 } else { 0 };
        *lent = [need + r.below(4) as usize, need.saturating_sub(1), 0][choice as usize];
    }
    three_of(sides, work, r)
}

/// The calls of the three jobs mixed.
fn three_of([w, h, tw, th]: [u32; 4], work: [usize; 3], r: &mut Random) -> Job {
    let all = planes(w, h, tw, th);
    let px = r.pixels();
    let mut calls = Vec::new();
    if table::three((w, h, tw, th), &work) == 0 {
        let bad = r.of(&[0, 0, 6]);
        let each = [0, 1, 2].map(|k| calls_of(&all[k], work[k], bad, r));
        calls = mixed(each, r);
    }
    Job::Three { w, h, tw, th, work, px, calls }
}

/// The calls of three planes' jobs in one list, each job's in its order.
pub fn mixed(lists: [Vec<Call>; 3], r: &mut Random) -> Vec<Call> {
    let mut each = lists.map(|list| list.into_iter().peekable());
    let (mut calls, mut at) = (Vec::new(), 0);
    while each.iter_mut().any(|list| list.peek().is_some()) {
        let next = r.below(3) as usize;
        if next != at {
            calls.push(Call::Which { which: next });
            at = next;
        }
        calls.extend(each[at].by_ref().take(r.of(&[1, 3, 50])));
    }
    calls
}
