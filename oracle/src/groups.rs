//! Makes groups of jobs: over one source, rows cut at random, takes of random jobs; and starts, calls and records that are wrong.
use crate::job::{Call, FLAG, GROUP_LIMIT, Job, K, KIND, LANES, LAYOUT, PICTURE, PLANE, Pixels, Record, Sizes, T, group_words};
use crate::jobs::{Random, any_plane, crop_at_edge, full, side, taken_as_pictures};
use crate::picture::fill_words;
use crate::table;

const MAX: u32 = u32::MAX;

/// A picture or a plane, now and then of sides at the boundaries.
fn source(r: &mut Random) -> Sizes {
    let (mut w, mut h) = (r.within(1, 12), r.within(1, 14));
    if r.one_in(12) {
        loop {
            (w, h) = (side(r), side(r));
            if u64::from(w) * u64::from(h) <= 17_000 {
                break;
            }
        }
    }
    let s = full(r.below(3), w, h, 1, 1);
    if r.one_in(2) { any_plane(s, r) } else { s }
}

/// A crop and a target of it: smaller, larger, the same, or one column made taller.
fn job(source: &Sizes, r: &mut Random) -> Sizes {
    let mut s = *source;
    crop_at_edge(&mut s, r);
    let (cw, ch) = (s.cw.min(40), s.ch.min(40));
    (s.tw, s.th) = match r.below(14) {
        0 | 1 => (s.cw.min(300), s.ch.min(300)),
        2 | 3 => (r.within(1, cw), r.within(1, ch)),
        4 | 5 => (cw + r.within(1, 6), ch + r.within(1, 9)),
        6 => {
            (s.x, s.cw) = (r.below(s.w), 1);
            (r.within(1, 2), s.ch.min(200) + r.within(1, 9))
        }
        _ => (r.within(1, 12), r.within(1, 16)),
    };
    s
}

/// The plans of so many jobs; a picture's lanes and a plane's layout, which do not count, may be any.
fn plans(source: &Sizes, count: usize, r: &mut Random) -> Vec<Sizes> {
    let mut plans: Vec<Sizes> = Vec::new();
    for _ in 0..count {
        let mut s = if r.one_in(8) && !plans.is_empty() { r.of(&plans) } else { job(source, r) };
        if s.kind == PLANE {
            s.layout = r.of(&[0, 0, 1, 2]);
        } else {
            s.lanes = r.of(&[4, 4, 0, 1, 5, MAX]);
        }
        plans.push(s);
    }
    plans
}

/// A group whose calls are all right.
pub fn right(r: &mut Random) -> Job {
    let source = source(r);
    let count = r.within(1, GROUP_LIMIT as u32);
    let plans = plans(&source, count as usize, r);
    started(count, plans, 0, r)
}

/// Groups of which a quarter of the calls are wrong, starts, and records that the caller filled.
pub fn wrong(i: u64, r: &mut Random) -> Job {
    let source = source(r);
    let count = r.within(1, GROUP_LIMIT as u32);
    let mut plans = plans(&source, count as usize, r);
    if i % 4 == 0 {
        return wrong_start(i / 4, plans, r);
    }
    if i % 4 == 1 {
        return filled(plans, r);
    }
    if r.one_in(4) {
        // a plan that is not asked for
        plans.push(Sizes { w: 0, ..source });
    }
    started(count, plans, 4, r)
}

/// A group of planes of four lanes, whose rows are taken as pictures' (jobs::taken_as_pictures).
pub fn spilling(px: Pixels, layout: u32, stays: bool, r: &mut Random) -> Job {
    let source = Sizes { layout: 0, kind: PLANE, lanes: 4, ..source(r) };
    let count = r.within(1, GROUP_LIMIT as u32);
    let plans = plans(&source, count as usize, r);
    let mut run = Run { px, ..Run::new(&plans, r) };
    run.go(0, r);
    let records: Vec<usize> = (0..plans.len()).map(group_words).collect();
    run.list = taken_as_pictures(&run.list, &records, layout, stays);
    run.job(count, plans)
}

/// A start that is accepted, and calls, of which one in `bad` is wrong (none if 0).
fn started(count: u32, plans: Vec<Sizes>, bad: u32, r: &mut Random) -> Job {
    let mut run = Run::new(&plans[..count as usize], r);
    run.go(bad, r);
    run.job(count, plans)
}

/// Each cause of 1, 10, 2, 13, 14 and 5 alone, and every combination of them.
fn wrong_start(i: u64, mut plans: Vec<Sizes>, r: &mut Random) -> Job {
    let causes = if i % 2 == 0 { 1 << (i / 2 % 6) } else { i / 2 % 64 };
    let has = |cause: u32| causes >> cause & 1 == 1;
    let mut count = plans.len() as u32;
    if has(4) {
        let more = r.within(1, 3) as usize;
        while plans.len() < GROUP_LIMIT + more {
            let mut s = r.of(&plans);
            if plans.len() >= GROUP_LIMIT && !r.one_in(3) {
                // One job too many, and bad itself.
                match r.below(5) {
                    0 => s = Sizes { w: 0, h: 0, cw: 0, ch: 0, tw: 0, th: 0, ..s },
                    1 => s.tw = 0,
                    2 => s.x = MAX,
                    3 => s.lanes = MAX,
                    _ => s.w += 1,
                }
            }
            plans.push(s);
        }
        count = r.of(&[plans.len() as u32, GROUP_LIMIT as u32 + 1, MAX, 1 << 31]);
    }
    let looked = plans.len().min(GROUP_LIMIT) as u32;
    // The place of a job, each cause at its own; the last is the likeliest to be forgotten.
    let place = |r: &mut Random| if r.one_in(3) { looked as usize - 1 } else { r.below(looked) as usize };
    if has(2) {
        let s = &mut plans[place(r)];
        match r.below(4) {
            0 => s.x = r.of(&[s.w - s.cw + 1, MAX]),
            1 => s.y = r.of(&[s.h - s.ch + 1, MAX]),
            2 => s.cw = r.of(&[s.w - s.x + 1, MAX]),
            _ => s.ch = r.of(&[s.h - s.y + 1, MAX]),
        }
    }
    if has(3) {
        match r.below(6) {
            0 if !has(4) => count = 0,
            1 => plans[place(r)].w += 1,
            2 => plans[place(r)].h += 1,
            _ => {
                let s = &mut plans[place(r)];
                match (s.kind, r.below(2)) {
                    (PICTURE, 0) => s.layout = (s.layout + 1) % 3,
                    (PICTURE, _) => (s.kind, s.lanes) = (PLANE, r.within(1, 4)),
                    (_, 0) => s.lanes = s.lanes % 4 + 1,
                    _ => s.kind = PICTURE,
                }
            }
        }
    }
    if has(1) {
        // Of a plane; a picture's lanes may be any.
        plans[place(r)].lanes = r.of(&[0, 5, 257, MAX]);
    }
    if has(0) {
        let wrong = r.of(&[0, 16385, MAX]);
        let s = &mut plans[place(r)];
        match r.below(6) {
            0 => s.w = wrong,
            1 => s.h = wrong,
            2 => s.tw = wrong,
            3 => s.th = wrong,
            4 => s.cw = 0,
            _ => s.ch = 0,
        }
    }
    let formed: Vec<Sizes> = plans.iter().take(GROUP_LIMIT.min(count as usize)).map(Sizes::formed).collect();
    let total = table::total(&formed).min(1 << 14);
    let last = formed.last().map_or(0, |s| s.need().min(total));
    let work = if has(5) { r.of(&[total.saturating_sub(1), total.saturating_sub(1), total - last, last, 0]) } else { total + r.below(4) as usize };
    if table::group_start(&formed, count, work) == 0 {
        return started(count, plans, 4, r);
    }
    Job::Group { count, plans, record: group_words(formed.len()) + r.below(3) as usize, work, px: r.pixels(), calls: Vec::new() }
}

/// Somewhere in a group's calls its record becomes another that keeps the rules: other rows accepted and taken, another form of all jobs, fewer
/// jobs or more. Calls go on.
fn filled(plans: Vec<Sizes>, r: &mut Random) -> Job {
    let count = plans.len() as u32;
    let mut run = Run::new(&plans, r);
    let room = run.jobs.iter().map(|s| 8 * s.tw as usize).sum::<usize>();
    run.work += 2 * room;
    run.record.resize(group_words(plans.len() + 1), 0);
    run.go(0, r);
    run.list.truncate(r.below(run.list.len() as u32 + 1) as usize);
    run.named = usize::MAX;
    run.fill(r);
    for _ in 0..12 {
        if !run.step(r) {
            break;
        }
    }
    run.job(count, plans)
}

/// A group as its calls go: what the rows make of its record, but for the flags.
struct Run {
    jobs: Vec<Sizes>,
    /// The source's bytes.
    bytes: usize,
    record: Vec<u32>,
    work: usize,
    px: Pixels,
    named: usize,
    list: Vec<Call>,
}

impl Run {
    fn new(plans: &[Sizes], r: &mut Random) -> Self {
        let jobs: Vec<Sizes> = plans.iter().map(Sizes::formed).collect();
        let mut record = fill_words(group_words(jobs.len()) + r.of(&[0, 0, 1, 14, 30]));
        record[0] = jobs.len() as u32;
        for (i, s) in jobs.iter().enumerate() {
            record[group_words(i)..group_words(i + 1)].copy_from_slice(&s.record());
        }
        let work = table::total(&jobs) + r.below(4) as usize;
        Run { bytes: jobs[0].source_bytes(), jobs, record, work, px: r.pixels(), named: 0, list: Vec::new() }
    }

    fn job(self, count: u32, plans: Vec<Sizes>) -> Job {
        Job::Group { count, plans, record: self.record.len(), work: self.work, px: self.px, calls: self.list }
    }

    fn get(&self, job: usize, field: usize) -> u32 {
        self.record[group_words(job) + field]
    }

    /// How many output rows of a job are ready.
    fn ready(&self, job: usize) -> u32 {
        table::made(&self.jobs[job], self.get(job, K)) - self.get(job, T)
    }

    fn source(&self) -> (u32, usize) {
        (self.jobs[0].h, self.jobs[0].row(self.jobs[0].w))
    }

    fn left(&self) -> bool {
        (0..self.jobs.len()).any(|i| self.get(i, K) < self.jobs[i].h || self.get(i, T) < self.jobs[i].th)
    }

    fn name(&mut self, job: usize) {
        if self.named != job {
            self.list.push(Call::Which { which: job });
            self.named = job;
        }
    }

    /// All of the source's rows, and all rows of all jobs.
    fn go(&mut self, bad: u32, r: &mut Random) {
        let mut over = if bad == 0 { 0 } else { r.below(4) };
        while self.left() || over > 0 {
            let left = self.left();
            if bad > 0 && (r.one_in(bad) || !left) {
                over -= u32::from(!left);
                self.wrong(r);
            } else {
                self.step(r);
            }
        }
    }

    /// A right call: some rows of a job that has any ready, or else an offer. False where there is none.
    fn step(&mut self, r: &mut Random) -> bool {
        let ready: Vec<usize> = (0..self.jobs.len()).filter(|&i| self.ready(i) > 0).collect();
        let (h, row) = self.source();
        let k = self.get(0, K);
        let work = r.of(&[self.work, table::total(&self.jobs)]);
        if !ready.is_empty() {
            let i = r.of(&ready);
            self.name(i);
            let s = self.jobs[i];
            for _ in 0..r.of(&[1, 1, 2, MAX]).min(self.ready(i)) {
                self.list.push(Call::Take { out: s.row(s.tw), work });
                self.record[group_words(i) + T] += 1;
            }
        } else if k < h {
            let n = r.of(&[1, 1, 2, 3, 5, h]).max(h / 100).min(h + 2 - k).min((self.bytes / row) as u32);
            let len = n as usize * row;
            // Rows of another form may be longer than the source's.
            self.list.push(Call::Offer { from: (k as usize * row).min(self.bytes - len), len, work });
            for _ in 0..n {
                (0..self.jobs.len()).for_each(|i| self.record[group_words(i) + K] += 1);
                if self.get(0, K) == h || (0..self.jobs.len()).any(|i| self.ready(i) > 0) {
                    break;
                }
            }
        } else {
            return false;
        }
        true
    }

    fn set(&mut self, field: usize, value: u32) {
        self.list.push(Call::Set { field, value });
        self.record[field] = value;
    }

    fn set_in(&mut self, job: usize, field: usize, value: u32) {
        self.set(group_words(job) + field, value);
    }

    /// A call that some rule turns away, or several: of each the first counts.
    fn wrong(&mut self, r: &mut Random) {
        let held = self.record.clone();
        if r.one_in(3) {
            self.alter(r);
        }
        let (total, count) = (table::total(&self.jobs), self.jobs.len());
        let own = r.of(&self.jobs);
        // The whole, one value less, or as much as one job takes.
        let work = r.of(&[self.work, self.work, total, total - 1, total - 1, own.need(), total - own.need(), 0]);
        let call = if r.one_in(2) {
            let (_, row) = self.source();
            let len = r.of(&[row, row, row, 0, row + 1, row - 1, 2 * row]);
            Call::Offer { from: 0, len: if table::group_offer(&self.record, len, work) == 0 { 0 } else { len }, work }
        } else {
            let name = r.below(count as u32) as usize;
            let name = if r.one_in(4) { r.of(&[count, count + 1, GROUP_LIMIT, GROUP_LIMIT + 1, MAX as usize]) } else { name };
            self.name(name);
            let row = |s: &Sizes| s.row(s.tw);
            let right = row(self.jobs.get(name).unwrap_or(&own));
            let out = r.of(&[right, right, right, row(&own), 0, right + 1, right - 1, 2 * right]);
            Call::Take { out: if table::group_take(&self.record, name, out, work) == 0 { out + 1 } else { out }, work }
        };
        self.list.push(call);
        for (field, &value) in held.iter().enumerate() {
            if self.record[field] != value {
                self.set(field, value);
            }
        }
    }

    /// The record is another for one call: a field of one job, a job that has accepted other rows, or another count.
    fn alter(&mut self, r: &mut Random) {
        let i = r.below(self.jobs.len() as u32) as usize;
        let s = self.jobs[i];
        let (k, count) = (self.get(i, K), self.record[0]);
        match r.below(4) {
            0 => {
                let value = r.of(&[0, count + 1, count - 1, GROUP_LIMIT as u32, GROUP_LIMIT as u32 + 1, 1 << 31, MAX]);
                self.set(0, value);
            }
            1 => {
                // It keeps the rules of its own.
                let k = if k == 0 || k < s.h && r.one_in(2) { k + 1 } else { k - 1 };
                let rows = rows_of(&s, k);
                self.set_in(i, K, k);
                self.set_in(i, T, r.within(rows.0, rows.1));
            }
            2 => {
                let held = self.get(i, LANES);
                let (field, value) = match r.below(5) {
                    0 => (LAYOUT, (self.get(i, LAYOUT) + r.within(1, 3)) % 4),
                    1 => (KIND, r.of(&[1 - s.kind, 2, MAX])),
                    2 => (LANES, r.of(&[0, held % 4 + 1, 5, MAX])),
                    3 => (0, self.get(i, 0) + 1),
                    _ => (1, self.get(i, 1) + 1),
                };
                self.set_in(i, field, value);
            }
            _ => {
                let field = r.below(11) as usize;
                let held = self.get(i, field);
                let value = r.of(&[0, held.wrapping_add(1), held.wrapping_sub(1), 16384, 16385, MAX]);
                self.set_in(i, field, value);
            }
        }
    }

    /// Another record that keeps the rules.
    fn fill(&mut self, r: &mut Random) {
        let mut count = self.jobs.len();
        if r.one_in(3) {
            count = r.within(1, count as u32) as usize;
            self.set(0, count as u32);
            self.jobs.truncate(count);
        } else if r.one_in(3) && count < GROUP_LIMIT {
            let one: Record = self.jobs[r.below(count as u32) as usize].record();
            (0..one.len()).for_each(|field| self.set_in(count, field, one[field]));
            self.jobs.push(Sizes::of(&one));
            count += 1;
            self.set(0, count as u32);
        }
        if r.one_in(3) && self.jobs[0].h > 1 && self.jobs[0].w < 9 {
            let s = if r.one_in(2) { Sizes { layout: r.below(3), kind: PICTURE, lanes: 4, ..self.jobs[0] } } else { any_plane(self.jobs[0], r) };
            for i in 0..count {
                for (field, value) in [(KIND, s.kind), (LANES, s.lanes), (LAYOUT, s.layout)] {
                    self.set_in(i, field, value);
                }
                self.jobs[i] = Sizes { kind: s.kind, lanes: s.lanes, layout: s.layout, ..self.jobs[i] };
            }
        }
        let k = r.within(0, self.jobs[0].h);
        for i in 0..count {
            let (least, most) = rows_of(&self.jobs[i], k);
            let t = r.within(least, most);
            let flag = u32::from(self.jobs[i].kind == PICTURE && t > 0 && r.one_in(2));
            for (field, value) in [(K, k), (T, t), (FLAG, flag)] {
                self.set_in(i, field, value);
            }
        }
    }
}

/// The fewest and the most rows taken of a job that has accepted k.
fn rows_of(s: &Sizes, k: u32) -> (u32, u32) {
    if k == 0 { (0, 0) } else { (table::made(s, k - 1), table::made(s, k)) }
}
