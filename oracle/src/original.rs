//! The original's answers, as lines (README.md has the format).
//!
//! Whole pictures are asked of the public functions. A job by rows is run by the original's own Rescaler, its state set
//! from the record and the work values before each row, and each row taken is held against the public crop and resize; of a
//! plane, which the original has no public function for, against its private rescale_plane.
//! Where the height grows and span is 1 the original gives 0, which is seen to be so, and the bytes and flags are those of request 4: divider.rs's, to which
//! the original's Rescaler with its factor counted as one must come, too. All else in such an answer is the original's. So it is where a scaled colour stands
//! above its alpha: the original's restore is seen to be its public function's, and the bytes and flags are those of request 7, by spill.rs.
//! Numbers come from table.rs and are held against the original wherever it can be asked; a line that begins with `!`
//! says that the original disagrees with itself or with the table, and the comparison fails.
use crate::divider::{self, Corner};
use crate::geometry::Rect;
use crate::image::{Dimensions, Image, PixelLayout, argb_has_alpha, pack_pixels, unpack_pixels};
use crate::job::{Call, FLAG, GROUP_LIMIT, Job, K, PLANE, Pixels, Record, Sizes, T, group_words, planes};
use crate::picture::{bytes, fill_bytes, fill_words, fnv_words, hex, plane};
use crate::probe::open::{Scaler, alpha_scale, mult_argb, rescale_plane};
use crate::spill::{self, Spill};
use crate::{error, table};
use std::fmt::Write;

pub fn layout(k: u32) -> PixelLayout {
    [PixelLayout::Rgba8, PixelLayout::Argb8, PixelLayout::Bgra8][k as usize]
}

/// What a whole-picture call leaves: number, flag, output buffer, work values.
struct Whole {
    number: u32,
    flag: bool,
    out: Vec<u8>,
    work: Option<Vec<u32>>,
}

impl Whole {
    fn line(&self) -> String {
        let mut s = format!("{} {} ", self.number, u8::from(self.flag));
        hex(&mut s, &self.out);
        match &self.work {
            Some(w) => write!(s, " {:016x} 1", fnv_words(w)).unwrap(),
            None => s.push_str(" - 1"),
        }
        s
    }
}

/// The original's crop and then resize, or its error's number. It is asked in SCOPE's order.
pub fn cropped(s: &Sizes, pixels: Vec<u8>, target: bool) -> Result<Image, u32> {
    let number = |e: error::Error| e as u32;
    let dims = Dimensions::new(s.w, s.h).map_err(number)?;
    let to = if target { Some(Dimensions::new(s.tw, s.th).map_err(number)?) } else { None };
    let image = Image::new(dims, layout(s.layout), pixels).map_err(number)?;
    let whole = (s.x, s.y, s.cw, s.ch) == (0, 0, s.w, s.h);
    let part = if whole && target { image } else { image.crop(Rect::new(s.x, s.y, s.cw, s.ch)).map_err(number)? };
    Ok(if let Some(to) = to { part.resize(to) } else { part })
}

/// The matted lanes B, G, R, A of packed pixels; a plane's lanes are its bytes.
fn lanes(s: &Sizes, packed: &[u8]) -> Vec<u8> {
    if s.kind == PLANE {
        return packed.to_vec();
    }
    unpack_pixels(layout(s.layout), packed).iter().flat_map(|&p| mult_argb(p, false).to_le_bytes()).collect()
}

/// The crop of a source, whose sizes pass.
fn window(s: &Sizes, source: &[u8]) -> Vec<u8> {
    let row = |y: u32| y as usize * s.row(s.w) + s.row(s.x);
    (s.y..s.y + s.ch).flat_map(|y| &source[row(y)..row(y) + s.row(s.cw)]).copied().collect()
}

/// A row of lanes, restored and packed.
fn restored(layout_: u32, row: &[u8], restore: fn(u32) -> u32) -> Vec<u8> {
    let argb: Vec<u32> = row.as_chunks::<4>().0.iter().map(|&c| restore(u32::from_le_bytes(c))).collect();
    pack_pixels(layout(layout_), &argb)
}

fn rust_restore(p: u32) -> u32 {
    mult_argb(p, true)
}

/// Request 7's restore.
fn cut_restore(p: u32) -> u32 {
    u32::from_le_bytes(spill::restored(p.to_le_bytes()))
}

/// What a row of a picture is to be, of its lanes and of the original's row: another one where a colour is above its alpha, and only in those pixels.
fn without_spill(l: u32, row: &[u8], original: Vec<u8>, spill: &mut Spill) -> Result<Vec<u8>, String> {
    let pixels = row.as_chunks::<4>().0;
    if !pixels.iter().any(spill::above) {
        return Ok(original);
    }
    let ours = restored(l, row, cut_restore);
    let mut places = pixels.iter().zip(ours.chunks(4).zip(original.chunks(4)));
    if places.any(|(pixel, (a, b))| !spill::above(pixel) && a != b) {
        return Err("! no colour is above its alpha, and the original's restore is not request 7's".into());
    }
    spill.rows += 1;
    spill.others += u64::from(ours != original);
    Ok(ours)
}

/// libwebp's restore: the product is taken in 32 bits, so a colour above its alpha wraps in its own lane.
fn c_restore(p: u32) -> u32 {
    let a = p >> 24;
    if a == 255 || a == 0 {
        return if a == 0 { 0 } else { p };
    }
    let k = alpha_scale(a, true);
    let lane = |s: u32| ((p >> s & 255).wrapping_mul(k).wrapping_add(1 << 23) >> 24) << s;
    a << 24 | lane(0) | lane(8) | lane(16)
}

/// The Rescaler over a whole crop: its output lanes, and the two halves of the work values at the end.
fn scaled_lanes(s: &Sizes, part: &[u8]) -> (Vec<u8>, Vec<u32>) {
    let mut scaler = Scaler::new(s.cw, s.ch, s.tw, s.th, s.lanes, s.th);
    scaler.set_phase(0, 0);
    let mut t = 0;
    for row in lanes(s, part).chunks(s.row(s.cw)) {
        scaler.import_one(row);
        while scaler.pending() {
            scaler.export_at(t);
            t += 1;
        }
    }
    let dst = scaler.dst().to_vec();
    let (irow, frow) = scaler.rows();
    let (first, second) = if newer_is_first(s, s.ch) { (&*frow, &*irow) } else { (&*irow, &*frow) };
    (dst, [first, second].concat())
}

/// Whether a scaled colour of a picture stands above its alpha, so that the original does not judge it (spill.rs).
pub fn some_above(s: &Sizes, source: &[u8]) -> bool {
    scaled_lanes(s, &window(s, source)).0.as_chunks::<4>().0.iter().any(spill::above)
}

/// Whether the newest of u rows stands in the first half: the height grows and crop row u - 1 is odd (with no row yet, row 0 is to
/// go to the second half).
fn newer_is_first(s: &Sizes, u: u32) -> bool {
    s.th > s.ch && u % 2 == 0
}

/// libwebp's answer as the original explains it: the same, but for the restore.
pub fn with_c_restore(job: &Job) -> Option<String> {
    let (s, px) = picture_of(job)?;
    let source = bytes(s.layout, px.pattern, px.seed, 4 * s.w as usize * s.h as usize);
    let whole = Sizes { tw: s.cw, th: s.ch, ..s };
    let part = cropped(&whole, source, false).ok()?.into_pixels();
    let out = restored(s.layout, &scaled_lanes(&s, &part).0, c_restore);
    let mut line = format!("0 {} ", u8::from(flag_of(s.layout, &out)));
    hex(&mut line, &out);
    Some(line)
}

/// The picture, crop and target of a job that scales, where its sizes pass.
fn picture_of(job: &Job) -> Option<(Sizes, Pixels)> {
    let (s, px) = match job {
        Job::Resize { layout, w, h, tw, th, px, .. } => {
            (Sizes { layout: *layout, w: *w, h: *h, cw: *w, ch: *h, tw: *tw, th: *th, ..Sizes::PICTURE }, *px)
        }
        Job::Rows { sizes, px, .. } => (*sizes, *px),
        _ => return None,
    };
    (table::sizes(&s, true) == 0).then_some((s, px))
}

/// The answer's line, what libwebp's must be (the original's first three words, or for a job by rows what the whole picture or plane gives), and which of
/// the line is not the original's.
pub struct Told {
    pub line: String,
    pub libwebp: String,
    pub corner: Corner,
    pub spill: Spill,
}

pub fn answer(job: &Job) -> Told {
    match job {
        Job::Rows { sizes, work, px, calls } => {
            let mut rows = Rows::new(sizes, *work, px, table::start(sizes, *work));
            let line = rows.run(calls).unwrap_or_else(|e| e);
            Told { line, libwebp: rows.whole, corner: rows.corner, spill: rows.spill }
        }
        Job::Three { w, h, tw, th, work, px, calls } => {
            let number = table::three((*w, *h, *tw, *th), work);
            // each plane has bytes of its own
            let seed = |i: u32| Pixels { seed: px.seed.wrapping_add(i), ..*px };
            let mut rows = (0..3).map(|i| Rows::new(&planes(*w, *h, *tw, *th)[i], work[i], &seed(i as u32), number));
            let mut three = Three { rows: [rows.next().unwrap(), rows.next().unwrap(), rows.next().unwrap()] };
            let line = three.run(calls).unwrap_or_else(|e| e);
            let (corner, spill) = left_out(&three.rows);
            Told { line, libwebp: three.rows.map(|r| r.whole).join(" "), corner, spill }
        }
        Job::Group { count, plans, record, work, px, calls } => {
            let mut group = Group::new(*count, plans, *record, *work, px);
            let line = group.run(calls).unwrap_or_else(|e| e);
            let (corner, spill) = left_out(&group.jobs);
            Told { line, libwebp: String::new(), corner, spill }
        }
        Job::Resize { layout, w, h, tw, th, pixels, out, work, px } => {
            let s = Sizes { layout: *layout, w: *w, h: *h, cw: *w, ch: *h, tw: *tw, th: *th, ..Sizes::PICTURE };
            resize(&s, *pixels, *out, *work, px)
        }
        _ => Told::of(whole_answer(job)),
    }
}

impl Told {
    /// The original's whole line.
    fn of(line: String) -> Told {
        let end = line.match_indices(' ').nth(2).map_or(line.len(), |m| m.0);
        Told { libwebp: line[..end].to_owned(), line, corner: Corner::NONE, spill: Spill::default() }
    }
}

/// What is not the original's of several jobs together.
fn left_out(jobs: &[Rows]) -> (Corner, Spill) {
    let (mut corner, mut spill) = (Corner::NONE, Spill::default());
    for rows in jobs {
        corner.add(rows.corner);
        spill.add(rows.spill);
    }
    (corner, spill)
}

fn whole_answer(job: &Job) -> String {
    match job {
        Job::Crop { layout, w, h, x, y, cw, ch, pixels, out, px } => {
            let s = Sizes { layout: *layout, w: *w, h: *h, x: *x, y: *y, cw: *cw, ch: *ch, ..Sizes::PICTURE };
            crop(&s, *pixels, *out, px)
        }
        Job::Plane { layout, w, h, pixels, plane, px } => apply_plane(*layout, (*w, *h), *pixels, *plane, px),
        Job::Flag { layout: l, w, h, pixels, px } => {
            let number = table::picture(*w, *h, *pixels);
            let all = bytes(*l, px.pattern, px.seed, *pixels);
            let asked = Dimensions::new(*w, *h).and_then(|d| Image::new(d, layout(*l), all));
            let said = asked.as_ref().map_or_else(|e| *e as u32, |_| 0);
            if said != number {
                return format!("! the table says {number}, the original {said}");
            }
            Whole { number, flag: asked.is_ok_and(|image| image.has_alpha()), out: Vec::new(), work: None }.line()
        }
        Job::Unpack { layout: l, bytes: len, out, px } => {
            let words = unpack_pixels(layout(*l), &bytes(*l, px.pattern, px.seed, *len));
            let fits = words.len() == *out;
            let after = if fits { words } else { fill_words(*out) };
            let out = after.iter().flat_map(|w| w.to_le_bytes()).collect();
            Whole { number: if fits { 0 } else { 4 }, flag: false, out, work: None }.line()
        }
        Job::Pack { layout: l, count, out, px } => {
            let words: Vec<u32> = bytes(2, px.pattern, px.seed, 4 * count).as_chunks::<4>().0.iter().map(|&c| u32::from_le_bytes(c)).collect();
            let fits = *out == 4 * words.len();
            let out = if fits { pack_pixels(layout(*l), &words) } else { fill_bytes(*out) };
            Whole { number: if fits { 0 } else { 4 }, flag: fits && argb_has_alpha(&words), out, work: None }.line()
        }
        Job::Scaled { w, h, tw, th } => match Dimensions::new(*w, *h).and_then(|d| d.scaled(*tw, *th)) {
            Ok(d) => format!("0 {} {}", d.width(), d.height()),
            Err(e) => format!("{} 0 0", e as u32),
        },
        Job::Resize { .. } | Job::Rows { .. } | Job::Three { .. } | Job::Group { .. } => unreachable!(),
    }
}

/// A pixel buffer too large to make is never right for sizes that pass, so the table answers it.
fn too_large(len: usize) -> bool {
    len > 1 << 28
}

/// The crop's own rows in the corner, by divider.rs: restored and packed, if it is a picture.
fn divided(s: &Sizes, part: &[u8], corner: &mut Corner) -> Vec<u8> {
    let out = divider::scaled(s, &lanes(s, part), corner);
    if s.kind == PLANE { out } else { restored(s.layout, &out, rust_restore) }
}

/// Where the original's bytes in the corner are not all 0, that is said.
fn not_zero(s: &Sizes, original: &[u8]) -> Option<String> {
    (s.divider() && original.iter().any(|&b| b != 0)).then(|| "! the height grows, span is 1, and the original does not give 0".into())
}

fn flag_of(l: u32, packed: &[u8]) -> bool {
    unpack_pixels(layout(l), packed).iter().any(|p| p >> 24 != 255)
}

fn resize(s: &Sizes, pixels: usize, out: usize, work: usize, px: &Pixels) -> Told {
    let (whole, source, lanes) = match resized(s, pixels, out, work, px) {
        Ok(all) => all,
        Err(wrong) => return Told::of(wrong),
    };
    let mut told = Told::of(whole.line());
    if whole.number != 0 {
        return told;
    }
    let out = if s.divider() {
        told.corner.rows = u64::from(s.th);
        divided(s, &source, &mut told.corner)
    } else {
        let row = s.row(s.tw);
        let rows = lanes.chunks(row).zip(whole.out.chunks(row));
        match rows.map(|(lanes, original)| without_spill(s.layout, lanes, original.to_vec(), &mut told.spill)).collect::<Result<Vec<_>, _>>() {
            Ok(rows) => rows.concat(),
            Err(wrong) => return Told::of(wrong),
        }
    };
    if out != whole.out {
        told.line = Whole { flag: flag_of(s.layout, &out), out, ..whole }.line();
    }
    told
}

/// The original's answer, the source, and the lanes that its Rescaler makes.
fn resized(s: &Sizes, pixels: usize, out: usize, work: usize, px: &Pixels) -> Result<(Whole, Vec<u8>, Vec<u8>), String> {
    let number = table::resize(s, pixels, out, work);
    let mut whole = Whole { number, flag: false, out: Vec::new(), work: Some(fill_words(work)) };
    let (mut source, mut lanes) = (Vec::new(), Vec::new());
    if number <= 3 && !too_large(pixels) {
        source = bytes(s.layout, px.pattern, px.seed, pixels);
        let asked = cropped(s, source.clone(), true);
        match asked {
            Err(n) if n != number => return Err(format!("! the table says {number}, the original {n}")),
            Ok(_) if number != 0 => return Err(format!("! the table says {number}, the original accepts")),
            Ok(image) => {
                let halves;
                (lanes, halves) = scaled_lanes(s, &source);
                if restored(s.layout, &lanes, rust_restore) != image.as_bytes() {
                    return Err("! the original's Rescaler and its resize differ".into());
                }
                if let Some(wrong) = not_zero(s, image.as_bytes()) {
                    return Err(wrong);
                }
                whole.work.as_mut().unwrap()[..halves.len()].copy_from_slice(&halves);
                whole.flag = image.has_alpha();
                whole.out = image.into_pixels();
            }
            Err(_) => {}
        }
    }
    if number != 0 {
        whole.out = fill_bytes(out);
    }
    Ok((whole, source, lanes))
}

fn crop(s: &Sizes, pixels: usize, out: usize, px: &Pixels) -> String {
    let number = table::crop(s, pixels, out);
    let mut whole = Whole { number, flag: false, out: fill_bytes(out), work: None };
    // With a wrong buffer the original has no picture to crop: it says 3 where the table may say 1 or 2.
    let sides = Dimensions::new(s.w, s.h);
    let askable = sides.map_or(true, |d| number == 3 || pixels as u64 == 4 * d.pixel_count());
    if !too_large(pixels) && number <= 3 && askable {
        match cropped(s, bytes(s.layout, px.pattern, px.seed, pixels), false) {
            Err(n) if n != number => return format!("! the table says {number}, the original {n}"),
            Ok(_) if number != 0 => return format!("! the table says {number}, the original accepts"),
            Ok(image) => {
                whole.flag = image.has_alpha();
                whole.out = image.into_pixels();
            }
            Err(_) => {}
        }
    }
    whole.line()
}

fn apply_plane(l: u32, (w, h): (u32, u32), pixels: usize, len: usize, px: &Pixels) -> String {
    let number = table::plane(w, h, pixels, len);
    let mut out = bytes(l, px.pattern, px.seed, pixels);
    let mut flag = false;
    let asked = Dimensions::new(w, h).and_then(|d| Image::new(d, layout(l), out.clone())).and_then(|mut image| {
        image.apply_alpha_plane(&plane(px.pattern, px.seed, len))?;
        Ok(image)
    });
    match asked {
        Err(e) if e as u32 != number => return format!("! the table says {number}, the original {e:?}"),
        Ok(_) if number != 0 => return format!("! the table says {number}, the original accepts"),
        Ok(image) => {
            flag = image.has_alpha();
            out = image.into_pixels();
        }
        Err(_) => {}
    }
    Whole { number, flag, out, work: None }.line()
}

/// What a call answers, or a line that begins with `!`.
type Answer = Result<String, String>;

/// A job by rows.
struct Rows {
    record: Record,
    work: Vec<u32>,
    started: u32,
    /// The picture or the plane, with two rows and some bytes more than the source has.
    source: Vec<u8>,
    /// The original's crop and resize of it, in the corner divider.rs's; and the record as the source's own rows made it, if they alone did.
    public: Vec<u8>,
    natural: Option<Record>,
    scaler: Option<(Sizes, Scaler)>,
    /// What libwebp's answer must be.
    whole: String,
    /// Where the original disagrees with itself or with the table.
    wrong: Option<String>,
    /// The rows whose bytes are divider.rs's, and those whose bytes are spill.rs's.
    corner: Corner,
    spill: Spill,
}

impl Rows {
    /// Without a source.
    fn empty(s: &Sizes, work: usize, started: u32) -> Self {
        Rows {
            record: s.record(),
            work: fill_words(work),
            started,
            source: Vec::new(),
            public: Vec::new(),
            natural: Some(s.record()),
            scaler: None,
            whole: String::new(),
            wrong: None,
            corner: Corner::NONE,
            spill: Spill::default(),
        }
    }

    fn new(s: &Sizes, work: usize, px: &Pixels, started: u32) -> Self {
        let mut rows = Rows::empty(s, work, started);
        let sizes = table::sizes(s, true);
        if sizes != 0 {
            rows.wrong = sizes_asked(s).filter(|&n| n != sizes).map(|n| format!("! the table says {sizes}, the original {n}"));
        } else if s.kind != PLANE || started == 0 {
            rows.source = bytes(s.layout, px.pattern, px.seed, s.source_bytes());
            rows.ask(s);
            if s.divider() {
                rows.wrong = rows.wrong.take().or(not_zero(s, &rows.public));
                let part = window(s, &rows.source);
                rows.public = divided(s, &part, &mut rows.corner);
            }
        }
        rows
    }

    /// The whole picture or plane of the original.
    fn ask(&mut self, s: &Sizes) {
        let source = &self.source[..s.row(s.w) * s.h as usize];
        if s.kind == PLANE {
            let part = window(s, source);
            let (dst, halves) = scaled_lanes(s, &part);
            self.public = rescale_plane(&part, s.cw, s.ch, s.tw, s.th, s.lanes);
            if dst != self.public {
                self.wrong = Some("! the original's Rescaler, a row at a time, and its rescale_plane differ".into());
            }
            self.whole = "0 ".into();
            hex(&mut self.whole, &self.public);
            write!(self.whole, " {:016x}", fnv_words(&halves)).unwrap();
            return;
        }
        match cropped(s, source.to_vec(), true) {
            Ok(image) => {
                self.whole = format!("0 {} ", u8::from(image.has_alpha()));
                hex(&mut self.whole, image.as_bytes());
                self.public = image.into_pixels();
            }
            Err(n) => self.wrong = Some(format!("! the table says 0, the original {n}")),
        }
    }

    /// The work values, as start leaves them.
    fn start(&mut self) -> Answer {
        if let Some(wrong) = self.wrong.take() {
            return Err(wrong);
        }
        if self.started == 0 {
            let clear = Sizes::of(&self.record).need();
            self.work[..clear].fill(0);
        }
        Ok(format!("{:016x}", fnv_words(&self.work)))
    }

    fn call(&mut self, call: Call) -> Answer {
        let said = match call {
            Call::Set { field, value } => {
                self.record[field] = value;
                return Ok(String::new());
            }
            Call::Count => {
                let rows = if table::record_ok(&self.record) { format!("0 {}", self.next_band()?) } else { "6 0".into() };
                return Ok(format!(" {rows}"));
            }
            Call::Offer { from, len, work } => self.offer(from, len, work)?,
            Call::Band { from, len, work } => self.band(from, len, work)?,
            Call::Take { out, work } => self.take(out, work)?,
            Call::Which { .. } => return Err("! no call of one job".into()),
        };
        Ok(format!(" {said} {} {:016x}", record_line(&self.record), fnv_words(&self.work)))
    }

    fn run(&mut self, calls: &[Call]) -> Answer {
        let work = self.start()?;
        let mut line = format!("{} {work}", self.started);
        if self.started == 0 {
            for &call in calls {
                line += &self.call(call)?;
            }
        }
        Ok(line + " 1")
    }

    /// The Rescaler in the state that the record and the work values say.
    fn loaded(&mut self) -> &mut Scaler {
        let s = Sizes::of(&self.record);
        if self.scaler.as_ref().is_none_or(|c| c.0 != s) {
            let mut scaler = Scaler::new(s.cw, s.ch, s.tw, s.th, s.lanes, 1);
            if s.divider() {
                scaler.count_the_factor_as_one();
            }
            self.scaler = Some((s, scaler));
        }
        let (u, t) = (table::used(&s, self.record[K]), self.record[T]);
        let scaler = &mut self.scaler.as_mut().unwrap().1;
        scaler.set_phase(u, t);
        let (irow, frow) = scaler.rows();
        let (first, second) = self.work[..s.need()].split_at(s.row(s.tw));
        let swap = newer_is_first(&s, u);
        irow.copy_from_slice(if swap { second } else { first });
        frow.copy_from_slice(if swap { first } else { second });
        scaler
    }

    fn store(&mut self) {
        let s = Sizes::of(&self.record);
        let swap = newer_is_first(&s, table::used(&s, self.record[K]));
        let (irow, frow) = self.scaler.as_mut().unwrap().1.rows();
        let (first, second) = self.work[..s.need()].split_at_mut(s.row(s.tw));
        first.copy_from_slice(if swap { frow } else { irow });
        second.copy_from_slice(if swap { irow } else { frow });
    }

    fn offer(&mut self, from: usize, len: usize, work: usize) -> Answer {
        let number = table::offer(&self.record, len, work);
        let mut count = 0;
        if number == 0 {
            let s = Sizes::of(&self.record);
            let row = s.row(s.w);
            let natural = self.natural == Some(self.record) && from == self.record[K] as usize * row;
            for i in 0..len / row {
                let c = self.record[K];
                count += 1;
                let mut pending = false;
                if c >= s.y && c - s.y < s.ch {
                    let at = from + i * row + s.row(s.x);
                    let part = lanes(&s, &self.source[at..at + s.row(s.cw)]);
                    let scaler = self.loaded();
                    if !scaler.import_one(&part) {
                        return Err("! the original has a row ready where the table has none".into());
                    }
                    pending = scaler.pending();
                    self.record[K] += 1;
                    self.store();
                } else {
                    self.record[K] += 1;
                }
                if pending != (table::made(&s, self.record[K]) > self.record[T]) {
                    return Err("! the original's schedule and the table's differ".into());
                }
                if pending || self.record[K] == s.h {
                    break;
                }
            }
            self.natural = natural.then_some(self.record);
        }
        Ok(format!("{number} {count}"))
    }

    /// How many rows the next band has, of a record that keeps the rules: by the table, and by the original's counters.
    fn next_band(&self) -> Result<u32, String> {
        let (s, k) = (Sizes::of(&self.record), self.record[K]);
        let rows = table::band_rows(&s, k);
        // What is above the crop never reaches a Rescaler.
        if k >= s.y && rows != rows_before_pending(&s, table::used(&s, k), self.record[T]) {
            return Err("! the original's counters make another band than the table".into());
        }
        Ok(rows)
    }

    /// Its rows are offered in order.
    fn band(&mut self, from: usize, len: usize, work: usize) -> Answer {
        let number = table::band(&self.record, len, work);
        if number == 6 {
            return Ok("6 0".into());
        }
        let rows = self.next_band()?;
        if number != 0 {
            return Ok(format!("{number} 0"));
        }
        let said = self.offer(from, len, work)?;
        if said != format!("0 {rows}") {
            return Err("! the rows of a band are not all accepted where they are offered".into());
        }
        Ok(said)
    }

    fn take(&mut self, out: usize, work: usize) -> Answer {
        let number = table::take(&self.record, out, work);
        let mut row = fill_bytes(out);
        if number == 0 {
            let s = Sizes::of(&self.record);
            let natural = self.natural == Some(self.record);
            let (stated, beyond) = table::row_out(&s, &self.work, self.record[T], table::used(&s, self.record[K]));
            let scaler = self.loaded();
            scaler.export_at(0);
            if scaler.dst() != stated && (natural || !beyond) {
                return Err("! the original's export and SCOPE's formula differ".into());
            }
            row = if s.kind == PLANE { stated.clone() } else { restored(s.layout, &stated, rust_restore) };
            self.store();
            let t = self.record[T] as usize;
            if natural && self.public[t * row.len()..(t + 1) * row.len()] != row {
                return Err("! the original's Rescaler and its resize, in the corner divider.rs, differ".into());
            }
            self.record[T] += 1;
            if s.kind != PLANE {
                row = without_spill(s.layout, &stated, row, &mut self.spill)?;
                self.record[FLAG] |= u32::from(flag_of(s.layout, &row));
            }
            self.corner.rows += u64::from(s.divider());
            self.natural = natural.then_some(self.record);
        }
        let mut said = format!("{number} ");
        hex(&mut said, &row);
        Ok(said)
    }
}

/// How many rows the original's Rescaler takes after u rows in and t out, once all that is pending has gone out, before the one that makes an output row pending; none
/// where no output row is left or the height grows. It is one pixel wide: its counters are those of any width.
fn rows_before_pending(s: &Sizes, u: u32, t: u32) -> u32 {
    let mut scaler = Scaler::new(1, s.ch, 1, s.th, 1, 1);
    scaler.set_phase(u, t);
    while scaler.pending() {
        scaler.export_at(0);
    }
    if scaler.done() || scaler.grows() {
        return 0;
    }
    let mut rows = 0;
    loop {
        scaler.import_one(&[0]);
        if scaler.pending() {
            return rows;
        }
        rows += 1;
    }
}

fn record_line(record: &[u32]) -> String {
    record.iter().map(u32::to_string).collect::<Vec<_>>().join(",")
}

/// The jobs of three planes, started together: each is a job of its own.
struct Three {
    rows: [Rows; 3],
}

impl Three {
    fn run(&mut self, calls: &[Call]) -> Answer {
        let number = self.rows[0].started;
        let mut line = number.to_string();
        for rows in &mut self.rows {
            line = line + " " + &rows.start()?;
        }
        if number == 0 {
            for rows in &self.rows {
                line = line + " " + &record_line(&rows.record);
            }
            let mut at = 0;
            for &call in calls {
                match call {
                    Call::Which { which } => at = which,
                    _ => line += &self.rows[at].call(call)?,
                }
            }
        }
        Ok(line + " 1")
    }
}

/// A group of jobs. Each is a job of its own, over its part of the work values, and is offered row after row until one of them has a row ready.
struct Group {
    started: u32,
    /// All words and values lent.
    record: Vec<u32>,
    work: Vec<u32>,
    jobs: Vec<Rows>,
    /// The record as the source's own rows made it, if they alone did.
    natural: Option<Vec<u32>>,
    /// The job that takes name.
    named: usize,
    wrong: Option<String>,
}

impl Group {
    fn new(count: u32, plans: &[Sizes], record: usize, work: usize, px: &Pixels) -> Self {
        let looked = GROUP_LIMIT.min(count as usize);
        let plans: Vec<Sizes> = plans.iter().take(looked).map(Sizes::formed).collect();
        let started = table::group_start(&plans, count, work);
        // A plan that its group does not start is still asked for its sizes.
        let jobs: Vec<Rows> = plans.iter().map(|s| Rows::new(s, if started == 0 { s.need() } else { 0 }, px, started)).collect();
        let wrong = (plans.len() < looked || record < group_words(looked)).then(|| "! fewer plans or words than the count asks for".to_owned());
        let wrong = wrong.or(jobs.iter().find_map(|rows| rows.wrong.clone()));
        Group { started, record: fill_words(record), work: fill_words(work), jobs, natural: None, named: 0, wrong }
    }

    /// Where the part of each job starts, and at last where the last one ends.
    fn parts(&self) -> Vec<usize> {
        let ends = self.jobs[..self.count()].iter().scan(0, |at, rows| {
            *at += Sizes::of(&rows.record).need();
            Some(*at)
        });
        std::iter::once(0).chain(ends).collect()
    }

    fn count(&self) -> usize {
        self.record[0] as usize
    }

    /// Hands each job its record and its part.
    fn load(&mut self) {
        let natural = self.natural.as_ref() == Some(&self.record);
        let records = table::group_records(&self.record).unwrap();
        while self.jobs.len() < records.len() {
            // One that the caller put there.
            self.jobs.push(Rows { source: self.jobs[0].source.clone(), ..Rows::empty(&Sizes::of(&records[0]), 0, 0) });
        }
        for (rows, record) in self.jobs.iter_mut().zip(&records) {
            rows.record = *record;
            rows.natural = natural.then_some(*record);
        }
        let parts = self.parts();
        for (rows, part) in self.jobs.iter_mut().zip(parts.windows(2)) {
            rows.work = self.work[part[0]..part[1]].to_vec();
        }
    }

    /// Puts together what the jobs have.
    fn store(&mut self) {
        let (count, parts) = (self.count(), self.parts());
        for (i, rows) in self.jobs[..count].iter().enumerate() {
            self.record[group_words(i)..group_words(i + 1)].copy_from_slice(&rows.record);
            self.work[parts[i]..parts[i + 1]].copy_from_slice(&rows.work);
        }
        let natural = self.jobs[..count].iter().all(|rows| rows.natural == Some(rows.record));
        self.natural = natural.then(|| self.record.clone());
    }

    fn start(&mut self) -> Answer {
        if let Some(wrong) = self.wrong.take() {
            return Err(wrong);
        }
        if self.started == 0 {
            self.record[0] = self.jobs.len() as u32;
            for rows in &mut self.jobs {
                rows.start()?;
            }
            self.store();
        }
        Ok(self.line(&self.started.to_string()))
    }

    fn line(&self, said: &str) -> String {
        format!("{said} {} {:016x}", record_line(&self.record), fnv_words(&self.work))
    }

    fn run(&mut self, calls: &[Call]) -> Answer {
        let mut line = self.start()?;
        if self.started == 0 {
            for &call in calls {
                let said = match call {
                    Call::Set { field, value } => {
                        self.record[field] = value;
                        continue;
                    }
                    Call::Which { which } => {
                        self.named = which;
                        continue;
                    }
                    Call::Offer { from, len, work } => self.offer(from, len, work)?,
                    Call::Take { out, work } => self.take(out, work)?,
                    Call::Band { .. } | Call::Count => return Err("! a group has no bands".into()),
                };
                line = line + " " + &self.line(&said);
            }
        }
        Ok(line + " 1")
    }

    fn offer(&mut self, from: usize, len: usize, work: usize) -> Answer {
        let number = table::group_offer(&self.record, len, work);
        let mut count = 0;
        if number == 0 {
            self.load();
            let jobs = self.count();
            let s = Sizes::of(&self.jobs[0].record);
            let row = s.row(s.w);
            for at in (from..from + len).step_by(row) {
                for rows in &mut self.jobs[..jobs] {
                    let need = rows.work.len();
                    if rows.offer(at, row, need)? != "0 1" {
                        return Err("! a job alone does not accept the row that its group accepts".into());
                    }
                }
                count += 1;
                // Each job has held this against the original's counters.
                let records: Vec<Record> = self.jobs[..jobs].iter().map(|rows| rows.record).collect();
                if table::some_ready(&records) || records[0][K] == s.h {
                    break;
                }
            }
            self.store();
        }
        Ok(format!("{number} {count}"))
    }

    fn take(&mut self, out: usize, work: usize) -> Answer {
        let number = table::group_take(&self.record, self.named, out, work);
        let mut said = format!("{number} ");
        if number == 0 {
            self.load();
            let rows = &mut self.jobs[self.named];
            let need = rows.work.len();
            said = rows.take(out, need)?;
            if !said.starts_with("0 ") {
                return Err("! a job alone does not hand out the row that its group hands out".into());
            }
            self.store();
        } else {
            hex(&mut said, &fill_bytes(out));
        }
        Ok(said)
    }
}

/// The number that the original gives for sizes alone, asked over a blank picture where that is small.
fn sizes_asked(s: &Sizes) -> Option<u32> {
    let (Ok(dims), Ok(_)) = (Dimensions::new(s.w, s.h), Dimensions::new(s.tw, s.th)) else {
        return Some(1);
    };
    if dims.pixel_count() > 1 << 16 {
        return None;
    }
    let blank = Image::new(dims, layout(s.layout), vec![0; 4 * dims.pixel_count() as usize]).ok()?;
    Some(blank.crop(Rect::new(s.x, s.y, s.cw, s.ch)).map_or_else(|e| e as u32, |_| 0))
}
