//! Makes jobs fed by bands, single rows and longer offers, mixed at random; and bands that are wrong.
use crate::job::{Call, FLAG, Job, K, KIND, LANES, LAYOUT, PLANE, Pixels, Record, Sizes, T, planes};
use crate::jobs::{Random, any_plane, crop_at_edge, full, mixed};
use crate::table;

const MAX: u32 = u32::MAX;

/// Places in a record.
const CROP_Y: usize = 4;
const CROP_HEIGHT: usize = 6;
const TARGET_HEIGHT: usize = 8;

/// A crop somewhere in a picture or a plane, whose height mostly shrinks; now and then of a very wide or a very tall source.
fn sizes(r: &mut Random) -> Sizes {
    let mut s = full(r.below(3), r.within(1, 9), r.within(1, 30), r.within(1, 9), 1);
    let tall = r.one_in(60);
    if tall {
        (s.w, s.h, s.tw) = (r.within(1, 2), r.of(&[255, 257, 16383, 16384]), r.within(1, 3));
    } else if r.one_in(60) {
        (s.w, s.h) = (r.of(&[255, 256, 257, 16384]), r.within(1, 12));
    }
    crop_at_edge(&mut s, r);
    s.th = height(s.ch, tall, r);
    if r.one_in(2) { any_plane(s, r) } else { s }
}

/// A target height for a crop of this height; for one that is tall only few rows.
fn height(h: u32, tall: bool, r: &mut Random) -> u32 {
    match r.below(if tall { 10 } else { 14 }) {
        0 | 1 => 1,
        2..6 => r.within(1, h.min(40)),
        6..10 => r.within(1, h.div_ceil(3).min(40)),
        10 | 11 => h.max(2) - 1,
        12 => h,
        _ => h + r.within(1, 9),
    }
}

/// A job whose calls are all right; one in eight is of three planes. In the first two the sums of a band wrap.
pub fn right(i: u64, r: &mut Random) -> Job {
    if i < 2 { wrapping(i, r) } else { any(0, r) }
}

/// A white column made so wide that the sum of its rows wraps, of a plane and of a picture: a band of all but one.
fn wrapping(i: u64, r: &mut Random) -> Job {
    let s = full(0, 1, 1030, 16384, 1);
    let s = if i == 0 { Sizes { kind: PLANE, lanes: 1, ..s } } else { s };
    let mut run = Run::new(&s, r);
    let work = run.work;
    run.band(work);
    run.offer(1, work);
    run.take(work);
    Job::Rows { sizes: s, work, px: Pixels { pattern: 6, seed: 0 }, calls: run.list }
}

/// Jobs of which a third of the calls are wrong, and, one in four, records that the caller filled. In the first a band gets every number.
pub fn wrong(i: u64, r: &mut Random) -> Job {
    if i == 0 {
        return every_number(r);
    }
    if i % 4 == 1 {
        let s = sizes(r);
        return Run::new(&s, r).filled(r);
    }
    any(3, r)
}

/// One call in `bad` is wrong (none if 0).
fn any(bad: u32, r: &mut Random) -> Job {
    if r.one_in(8) {
        return three(bad, r);
    }
    let s = sizes(r);
    let mut run = Run::new(&s, r);
    run.go(bad, r);
    run.job(r)
}

/// Three planes, the calls of their jobs mixed.
fn three(bad: u32, r: &mut Random) -> Job {
    let (w, h, tw) = (r.within(1, 9), r.within(1, 24), r.within(1, 9));
    let th = height(h, false, r);
    let runs = planes(w, h, tw, th).map(|s| {
        let mut run = Run::new(&s, r);
        run.go(bad, r);
        run
    });
    let work = [runs[0].work, runs[1].work, runs[2].work];
    let calls = mixed(runs.map(|run| run.list), r);
    Job::Three { w, h, tw, th, work, px: r.pixels(), calls }
}

/// A band above the crop; of a record that breaks the rules; with a work value too few; right; and while a row is ready.
fn every_number(r: &mut Random) -> Job {
    // R over the crop's rows: 0 0 1 2 2 3 4
    let s = Sizes { y: 1, ch: 6, ..full(0, 2, 8, 1, 4) };
    let mut run = Run::new(&s, r);
    let row = s.row(s.w);
    let band = |run: &mut Run, work: usize| {
        run.list.push(Call::Count);
        run.list.push(Call::Band { from: run.record[K] as usize * row, len: row, work });
    };
    let work = run.work;
    band(&mut run, work);
    run.offer(1, work);
    run.set(T, 1);
    band(&mut run, work);
    run.set(T, 0);
    band(&mut run, s.need() - 1);
    run.band(work);
    run.offer(1, work);
    run.take(work);
    run.offer(1, work);
    band(&mut run, work);
    run.go(0, r);
    run.job(r)
}

/// A job as its calls go: what the rows make of its record, but for the flag.
struct Run {
    start: Sizes,
    record: Record,
    work: usize,
    list: Vec<Call>,
}

impl Run {
    fn new(s: &Sizes, r: &mut Random) -> Self {
        Run { start: *s, record: s.record(), work: s.need() + r.below(4) as usize, list: Vec::new() }
    }

    fn job(self, r: &mut Random) -> Job {
        Job::Rows { sizes: self.start, work: self.work, px: r.pixels(), calls: self.list }
    }

    fn sizes(&self) -> Sizes {
        Sizes::of(&self.record)
    }

    fn ready(&self) -> bool {
        table::made(&self.sizes(), self.record[K]) > self.record[T]
    }

    fn left(&self) -> bool {
        self.record[K] < self.start.h || self.record[T] < self.start.th
    }

    fn take(&mut self, work: usize) {
        let s = self.sizes();
        self.list.push(Call::Take { out: s.row(s.tw), work });
        self.record[T] += 1;
    }

    /// The next band, which there is.
    fn band(&mut self, work: usize) {
        let (s, k) = (self.sizes(), self.record[K]);
        let (row, rows) = (s.row(s.w), table::band_rows(&s, k));
        self.list.push(Call::Band { from: k as usize * row, len: rows as usize * row, work });
        self.record[K] += rows;
    }

    fn offer(&mut self, rows: u32, work: usize) {
        let (s, k) = (self.sizes(), self.record[K]);
        let row = s.row(s.w);
        self.list.push(Call::Offer { from: k as usize * row, len: rows as usize * row, work });
        for _ in 0..rows {
            self.record[K] += 1;
            if self.record[K] == s.h || self.ready() {
                break;
            }
        }
    }

    /// A right call: a row that is ready, a band, or an offer of one row, of a part of the band, of the band and the row after it, or of more.
    fn step(&mut self, r: &mut Random) {
        if r.one_in(4) {
            self.list.push(Call::Count);
        }
        let (s, k) = (self.sizes(), self.record[K]);
        let work = r.of(&[self.work, s.need()]);
        let band = table::band_rows(&s, k);
        if self.ready() {
            self.take(work);
        } else if band > 0 && !r.one_in(3) {
            self.band(work);
        } else if k < s.h {
            let rows = r.of(&[1, 1, 1, 2, 3, band / 2, band, band + 1, s.h]);
            self.offer(rows.max(1 + s.h / 100).min(s.h + 2 - k), work);
        }
    }

    /// All of the source's rows, and all rows of the preview.
    fn go(&mut self, bad: u32, r: &mut Random) {
        let mut over = if bad == 0 { 0 } else { r.below(4) };
        while self.left() || over > 0 {
            let left = self.left();
            if bad > 0 && (r.one_in(bad) || !left) {
                over -= u32::from(!left);
                self.wrong(r);
            } else {
                self.step(r);
            }
        }
        if r.one_in(2) {
            self.list.push(Call::Count);
        }
    }

    fn set(&mut self, field: usize, value: u32) {
        self.list.push(Call::Set { field, value });
        self.record[field] = value;
    }

    /// A band that some rule turns away, or several: of each the first counts. The record may be another for this call.
    fn wrong(&mut self, r: &mut Random) {
        let held = self.record;
        if r.one_in(3) {
            self.alter(r);
        }
        if r.one_in(2) {
            self.list.push(Call::Count);
        }
        let room = self.start.source_bytes();
        let row = self.sizes().row(self.record[0]).min(room);
        let (due, own) = (self.due(&self.record), self.due(&held));
        let right = if due == 0 { row } else { due };
        let other = r.of(&[right + row, right.saturating_sub(row), own, row, 0, right + 1, right.saturating_sub(1), 2 * right]);
        let len = if r.one_in(2) { right } else { other };
        let len = if len > room { 0 } else { len };
        let need = self.sizes().need();
        let lent = r.of(&[self.work, self.work, self.work, need, need.saturating_sub(1), 0]).min(self.work);
        // One that no rule turns away is lent too little.
        let lent = if table::band(&self.record, len, lent) == 0 { 0 } else { lent };
        let from = (held[K] as usize * row).min(room - len);
        self.list.push(Call::Band { from, len, work: lent });
        for (field, &value) in held.iter().enumerate() {
            if self.record[field] != value {
                self.set(field, value);
            }
        }
    }

    /// The bytes of a record's stretch, whether it is a band or not: rows above the crop belong to it, and all that are left where no output row is to come. One that
    /// breaks the rules has a row.
    fn due(&self, record: &Record) -> usize {
        let s = Sizes::of(record);
        if table::record_ok(record) { table::stretch(&s, record[K]) as usize * s.row(s.w) } else { self.start.row(self.start.w) }
    }

    /// The record becomes another: it breaks a rule, or has another band.
    fn alter(&mut self, r: &mut Random) {
        let (s, k, t) = (self.sizes(), self.record[K], self.record[T]);
        match r.below(5) {
            // Another height, to which it may grow, or another crop.
            0 => self.set(TARGET_HEIGHT, r.within(1, s.ch + 2)),
            1 => {
                let (field, held) = r.of(&[(CROP_Y, s.y), (CROP_HEIGHT, s.ch)]);
                self.set(field, r.of(&[held + 1, held.saturating_sub(1)]));
            }
            // Other rows accepted, and of the rows taken those that go with them, or not.
            2 => {
                let k = if k == 0 || k < s.h && r.one_in(2) { k + 1 } else { k - 1 };
                let (least, most) = taken_of(&s, k);
                self.set(K, k);
                self.set(T, r.of(&[least, most, t]));
            }
            3 => {
                let (field, value) = match r.below(5) {
                    0 => (LAYOUT, (s.layout + r.within(1, 3)) % 4),
                    1 => (KIND, r.of(&[1 - s.kind, 2, MAX])),
                    2 => (LANES, r.of(&[0, s.lanes % 4 + 1, 5, MAX])),
                    3 => (FLAG, r.of(&[1, 2])),
                    _ => (T, r.of(&[t + 1, t.saturating_sub(1), MAX])),
                };
                self.set(field, value);
            }
            _ => {
                let field = r.below(11) as usize;
                let held = self.record[field];
                self.set(field, r.of(&[0, held.wrapping_add(1), held.wrapping_sub(1), 16384, 16385, MAX]));
            }
        }
    }

    /// Somewhere in the calls the record becomes another that keeps the rules: other rows accepted and taken, another height. Calls go on.
    fn filled(mut self, r: &mut Random) -> Job {
        self.go(0, r);
        self.list.truncate(r.below(self.list.len() as u32 + 1) as usize);
        if r.one_in(2) {
            self.set(TARGET_HEIGHT, r.within(1, self.start.ch.min(40) + 1));
        }
        let s = self.sizes();
        let k = r.within(0, s.h);
        let (least, most) = taken_of(&s, k);
        let t = r.within(least, most);
        for (field, value) in [(K, k), (T, t), (FLAG, u32::from(s.kind != PLANE && t > 0 && r.one_in(2)))] {
            self.set(field, value);
        }
        for _ in 0..12 {
            self.step(r);
        }
        self.job(r)
    }
}

/// The fewest and the most rows taken of a job that has accepted k.
fn taken_of(s: &Sizes, k: u32) -> (u32, u32) {
    if k == 0 { (0, 0) } else { (table::made(s, k - 1), table::made(s, k)) }
}
