//! A job is one line of words; README.md has the format.
use std::fmt;

/// The numbers of a record: source width and height, layout, crop x, y, width and height, target width and height, rows accepted, rows taken, flag,
/// kind, lanes.
pub type Record = [u32; 14];
pub const LAYOUT: usize = 2;
pub const K: usize = 9;
pub const T: usize = 10;
pub const FLAG: usize = 11;
pub const KIND: usize = 12;
pub const LANES: usize = 13;

/// The kinds of a record.
pub const PICTURE: u32 = 0;
pub const PLANE: u32 = 1;

/// The most jobs of a group, the words of a plan, and the words of the record of a group of so many jobs: their count, then the record of each.
pub const GROUP_LIMIT: usize = 6;
pub const PLAN_WORDS: usize = 11;
pub fn group_words(jobs: usize) -> usize {
    1 + size_of::<Record>() / size_of::<u32>() * jobs
}

#[derive(Clone, Copy, Debug, PartialEq)]
pub enum Call {
    /// Bytes `from .. from + len` of the picture without end, and so many work values.
    Offer { from: usize, len: usize, work: usize },
    /// The same, of the next band.
    Band { from: usize, len: usize, work: usize },
    /// How many rows the next band has.
    Count,
    /// An output buffer of so many bytes, and so many work values.
    Take { out: usize, work: usize },
    /// The record's field becomes the value.
    Set { field: usize, value: u32 },
    /// The calls after it are those of luma, of the first or of the second chroma plane (0 to 2); of a group, the takes after it name this job.
    Which { which: usize },
}

#[derive(Clone, Copy, Debug, PartialEq)]
pub struct Sizes {
    pub layout: u32,
    pub w: u32,
    pub h: u32,
    pub x: u32,
    pub y: u32,
    pub cw: u32,
    pub ch: u32,
    pub tw: u32,
    pub th: u32,
    pub kind: u32,
    pub lanes: u32,
}

impl Sizes {
    /// A picture; its sides are for the caller to fill in.
    pub const PICTURE: Sizes = Sizes { layout: 0, w: 0, h: 0, x: 0, y: 0, cw: 0, ch: 0, tw: 0, th: 0, kind: PICTURE, lanes: 4 };

    pub fn record(&self) -> Record {
        let s = self;
        [s.w, s.h, s.layout, s.x, s.y, s.cw, s.ch, s.tw, s.th, 0, 0, 0, s.kind, s.lanes]
    }
    pub fn of(r: &Record) -> Self {
        Sizes { layout: r[LAYOUT], w: r[0], h: r[1], x: r[3], y: r[4], cw: r[5], ch: r[6], tw: r[7], th: r[8], kind: r[KIND], lanes: r[LANES] }
    }
    /// The plan's words.
    pub fn plan(&self) -> [u32; PLAN_WORDS] {
        let s = self;
        [s.w, s.h, s.layout, s.x, s.y, s.cw, s.ch, s.tw, s.th, s.kind, s.lanes]
    }
    pub fn planned(p: &[u32; PLAN_WORDS]) -> Self {
        Sizes { w: p[0], h: p[1], layout: p[2], x: p[3], y: p[4], cw: p[5], ch: p[6], tw: p[7], th: p[8], kind: p[9], lanes: p[10] }
    }
    /// The plan as its own start would form it: a picture has four lanes and a plane layout 0, whatever its words say.
    pub fn formed(&self) -> Self {
        if self.kind == PLANE { Sizes { layout: 0, ..*self } } else { Sizes { lanes: 4, ..*self } }
    }
    /// So many pixels, in bytes of a row or in values of a work row.
    pub fn row(&self, pixels: u32) -> usize {
        self.lanes as usize * pixels as usize
    }
    /// The work values that a job takes.
    pub fn need(&self) -> usize {
        self.row(self.tw).saturating_mul(2)
    }
    /// Whether the height grows and span is 1: the corner that request 4 changed, where the original and libwebp do not judge (divider.rs).
    pub fn divider(&self) -> bool {
        self.th > self.ch && self.cw == 1 && (1..=2).contains(&self.tw)
    }
    /// The source's bytes that a job's calls may be lent: two rows and some bytes more than it has.
    pub fn source_bytes(&self) -> usize {
        self.row(self.w) * (self.h as usize + 2) + 8
    }
}

/// The three planes of a picture: luma as given, both chroma planes in half the size, rounded up.
pub fn planes(w: u32, h: u32, tw: u32, th: u32) -> [Sizes; 3] {
    let plane = |w, h, tw, th| Sizes { w, h, cw: w, ch: h, tw, th, kind: PLANE, lanes: 1, ..Sizes::PICTURE };
    let half = |side: u32| side.div_ceil(2);
    let chroma = plane(half(w), half(h), half(tw), half(th));
    [plane(w, h, tw, th), chroma, chroma]
}

/// Which pixels.
#[derive(Clone, Copy, Debug, PartialEq)]
pub struct Pixels {
    pub pattern: u32,
    pub seed: u32,
}

#[derive(Clone, Debug, PartialEq)]
pub enum Job {
    Resize { layout: u32, w: u32, h: u32, tw: u32, th: u32, pixels: usize, out: usize, work: usize, px: Pixels },
    Crop { layout: u32, w: u32, h: u32, x: u32, y: u32, cw: u32, ch: u32, pixels: usize, out: usize, px: Pixels },
    Plane { layout: u32, w: u32, h: u32, pixels: usize, plane: usize, px: Pixels },
    Flag { layout: u32, w: u32, h: u32, pixels: usize, px: Pixels },
    Unpack { layout: u32, bytes: usize, out: usize, px: Pixels },
    Pack { layout: u32, count: usize, out: usize, px: Pixels },
    Scaled { w: u32, h: u32, tw: u32, th: u32 },
    Rows { sizes: Sizes, work: usize, px: Pixels, calls: Vec<Call> },
    Three { w: u32, h: u32, tw: u32, th: u32, work: [usize; 3], px: Pixels, calls: Vec<Call> },
    Group { count: u32, plans: Vec<Sizes>, record: usize, work: usize, px: Pixels, calls: Vec<Call> },
}

fn put_calls(f: &mut fmt::Formatter, calls: &[Call]) -> fmt::Result {
    for call in calls {
        match call {
            Call::Offer { from, len, work } => write!(f, " o {from} {len} {work}")?,
            Call::Band { from, len, work } => write!(f, " b {from} {len} {work}")?,
            Call::Count => write!(f, " c")?,
            Call::Take { out, work } => write!(f, " t {out} {work}")?,
            Call::Set { field, value } => write!(f, " s {field} {value}")?,
            Call::Which { which } => write!(f, " p {which}")?,
        }
    }
    Ok(())
}

impl fmt::Display for Job {
    fn fmt(&self, f: &mut fmt::Formatter) -> fmt::Result {
        match self {
            Job::Resize { layout, w, h, tw, th, pixels, out, work, px } => {
                write!(f, "resize {layout} {w} {h} {tw} {th} {pixels} {out} {work} {} {}", px.pattern, px.seed)
            }
            Job::Crop { layout, w, h, x, y, cw, ch, pixels, out, px } => {
                write!(f, "crop {layout} {w} {h} {x} {y} {cw} {ch} {pixels} {out} {} {}", px.pattern, px.seed)
            }
            Job::Plane { layout, w, h, pixels, plane, px } => write!(f, "plane {layout} {w} {h} {pixels} {plane} {} {}", px.pattern, px.seed),
            Job::Flag { layout, w, h, pixels, px } => write!(f, "flag {layout} {w} {h} {pixels} {} {}", px.pattern, px.seed),
            Job::Unpack { layout, bytes, out, px } => write!(f, "unpack {layout} {bytes} {out} {} {}", px.pattern, px.seed),
            Job::Pack { layout, count, out, px } => write!(f, "pack {layout} {count} {out} {} {}", px.pattern, px.seed),
            Job::Scaled { w, h, tw, th } => write!(f, "scaled {w} {h} {tw} {th}"),
            Job::Rows { sizes: s, work, px, calls } => {
                let (name, first) = if s.kind == PLANE { ("lanes", s.lanes) } else { ("job", s.layout) };
                write!(f, "{name} {first} {} {} {} {} {} {} {} {}", s.w, s.h, s.x, s.y, s.cw, s.ch, s.tw, s.th)?;
                write!(f, " {work} {} {}", px.pattern, px.seed)?;
                put_calls(f, calls)
            }
            Job::Three { w, h, tw, th, work: [y, cb, cr], px, calls } => {
                write!(f, "three {w} {h} {tw} {th} {y} {cb} {cr} {} {}", px.pattern, px.seed)?;
                put_calls(f, calls)
            }
            Job::Group { count, plans, record, work, px, calls } => {
                write!(f, "group {count} {} {record} {work} {} {}", plans.len(), px.pattern, px.seed)?;
                for word in plans.iter().flat_map(Sizes::plan) {
                    write!(f, " {word}")?;
                }
                put_calls(f, calls)
            }
        }
    }
}

struct Words<'a>(std::str::SplitAsciiWhitespace<'a>);

impl Words<'_> {
    fn size(&mut self) -> Option<usize> {
        self.0.next()?.parse().ok()
    }
    fn num(&mut self) -> Option<u32> {
        self.0.next()?.parse().ok()
    }
    fn plan(&mut self) -> Option<Sizes> {
        let mut words = [0; PLAN_WORDS];
        for word in &mut words {
            *word = self.num()?;
        }
        Some(Sizes::planned(&words))
    }
    fn px(&mut self) -> Option<Pixels> {
        Some(Pixels { pattern: self.num()?, seed: self.num()? })
    }
    /// All that are left.
    fn calls(&mut self) -> Option<Vec<Call>> {
        let mut calls = Vec::new();
        while let Some(word) = self.0.next() {
            calls.push(match word {
                "o" => Call::Offer { from: self.size()?, len: self.size()?, work: self.size()? },
                "b" => Call::Band { from: self.size()?, len: self.size()?, work: self.size()? },
                "c" => Call::Count,
                "t" => Call::Take { out: self.size()?, work: self.size()? },
                "s" => Call::Set { field: self.size()?, value: self.num()? },
                "p" => Call::Which { which: self.size()? },
                _ => return None,
            });
        }
        Some(calls)
    }
}

impl Job {
    pub fn parse(line: &str) -> Option<Job> {
        let mut all = Words(line.split_ascii_whitespace());
        let kind = all.0.next()?;
        let v = &mut all;
        let job = match kind {
            "resize" => Job::Resize {
                layout: v.num()?,
                w: v.num()?,
                h: v.num()?,
                tw: v.num()?,
                th: v.num()?,
                pixels: v.size()?,
                out: v.size()?,
                work: v.size()?,
                px: v.px()?,
            },
            "crop" => Job::Crop {
                layout: v.num()?,
                w: v.num()?,
                h: v.num()?,
                x: v.num()?,
                y: v.num()?,
                cw: v.num()?,
                ch: v.num()?,
                pixels: v.size()?,
                out: v.size()?,
                px: v.px()?,
            },
            "plane" => Job::Plane { layout: v.num()?, w: v.num()?, h: v.num()?, pixels: v.size()?, plane: v.size()?, px: v.px()? },
            "flag" => Job::Flag { layout: v.num()?, w: v.num()?, h: v.num()?, pixels: v.size()?, px: v.px()? },
            "unpack" => Job::Unpack { layout: v.num()?, bytes: v.size()?, out: v.size()?, px: v.px()? },
            "pack" => Job::Pack { layout: v.num()?, count: v.size()?, out: v.size()?, px: v.px()? },
            "scaled" => Job::Scaled { w: v.num()?, h: v.num()?, tw: v.num()?, th: v.num()? },
            "job" | "lanes" => {
                let first = v.num()?;
                let form =
                    if kind == "lanes" { Sizes { kind: PLANE, lanes: first, ..Sizes::PICTURE } } else { Sizes { layout: first, ..Sizes::PICTURE } };
                let sizes =
                    Sizes { w: v.num()?, h: v.num()?, x: v.num()?, y: v.num()?, cw: v.num()?, ch: v.num()?, tw: v.num()?, th: v.num()?, ..form };
                return Some(Job::Rows { sizes, work: v.size()?, px: v.px()?, calls: v.calls()? });
            }
            "three" => {
                let (w, h, tw, th) = (v.num()?, v.num()?, v.num()?, v.num()?);
                return Some(Job::Three { w, h, tw, th, work: [v.size()?, v.size()?, v.size()?], px: v.px()?, calls: v.calls()? });
            }
            "group" => {
                let (count, plans, record, work, px) = (v.num()?, v.size()?, v.size()?, v.size()?, v.px()?);
                let plans = (0..plans).map(|_| v.plan()).collect::<Option<_>>()?;
                return Some(Job::Group { count, plans, record, work, px, calls: v.calls()? });
            }
            _ => return None,
        };
        if v.0.next().is_some() { None } else { Some(job) }
    }

    /// How large the job is, to order differences by.
    pub fn weight(&self) -> u64 {
        match self {
            Job::Resize { w, h, tw, th, pixels, .. } => *pixels as u64 / 4 + area(*tw, *th) + side(*w) + side(*h),
            Job::Crop { w, h, cw, ch, pixels, .. } => *pixels as u64 / 4 + area(*cw, *ch) + side(*w) + side(*h),
            Job::Plane { pixels, .. } | Job::Flag { pixels, .. } => *pixels as u64 / 4,
            Job::Unpack { bytes, .. } => *bytes as u64 / 4,
            Job::Pack { count, .. } => *count as u64,
            Job::Scaled { w, h, tw, th } => side(*w) + side(*h) + side(*tw) + side(*th),
            Job::Rows { sizes: s, calls, .. } => area(s.w, s.h) + area(s.tw, s.th) + calls.len() as u64,
            Job::Three { w, h, tw, th, calls, .. } => area(*w, *h) + area(*tw, *th) + calls.len() as u64,
            Job::Group { plans, calls, .. } => plans.iter().map(|s| area(s.w, s.h) + area(s.tw, s.th)).sum::<u64>() + calls.len() as u64,
        }
    }

    /// Whether it is a job of planes: libwebp's rescaler is asked, and not its pictures.
    pub fn of_planes(&self) -> bool {
        matches!(self, Job::Rows { sizes: Sizes { kind: PLANE, .. }, .. } | Job::Three { .. })
    }

    /// Whether 255 × span × h is at least 2^32 × g: sums may wrap so far that libwebp's restore is another.
    pub fn may_wrap(&self) -> bool {
        let (n, h, m, g) = match self {
            Job::Resize { w, h, tw, th, .. } | Job::Three { w, h, tw, th, .. } => (*w, *h, *tw, *th),
            Job::Rows { sizes: s, .. } => (s.cw, s.ch, s.tw, s.th),
            _ => return false,
        };
        let span = u64::from(if m <= n { n } else { m - 1 });
        255 * span * u64::from(h) >= u64::from(g) << 32
    }
}

fn side(s: u32) -> u64 {
    u64::from(s.min(1 << 20))
}
fn area(w: u32, h: u32) -> u64 {
    side(w) * side(h)
}
