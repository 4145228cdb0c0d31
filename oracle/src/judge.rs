//! Sends the same jobs to every side and holds each answer against the original's.
//!
//! The original judges everywhere. libwebp's pictures must agree where no sum can wrap; elsewhere its differences are counted,
//! and each must be the one that its 32-bit restore explains. Its rescaler in plain C is asked for planes, which nobody restores,
//! and must agree everywhere. Where the height grows and span is 1 the original and libwebp give 0 and the port does not: its bytes and
//! flags there are left out of what the original judges, divider.rs judges them, and the run says how many. So it is with rows in which a scaled
//! colour stands above its alpha, which spill.rs judges.
use crate::divider::Corner;
use crate::job::{Call, Job};
use crate::spill::Spill;
use crate::{jobs, original};
use std::collections::BTreeMap;
use std::io::{BufRead, BufReader, BufWriter, Write};
use std::process::{Child, Command, Stdio};
use std::sync::Arc;
use std::sync::mpsc::{Receiver, RecvError, SyncSender, sync_channel};
use std::thread::JoinHandle;
use std::time::Instant;

/// A job with the original's answer, and what libwebp's is to be.
struct Judged {
    job: Job,
    line: String,
    answer: String,
    libwebp: String,
}

#[derive(Clone, Copy, PartialEq)]
enum Side {
    Libwebp,
    Rescaler,
    Ours,
}

impl Side {
    fn name(self) -> &'static str {
        match self {
            Side::Libwebp => "libwebp",
            Side::Rescaler => "libwebp's rescaler",
            Side::Ours => "ours",
        }
    }
    /// Whether it is sent jobs of this kind.
    fn takes(self, job: &Job) -> bool {
        self == Side::Ours || !matches!(job, Job::Group { .. }) && (self == Side::Rescaler) == job.of_planes()
    }
}

#[derive(Default)]
struct Count {
    sent: u64,
    asked: u64,
    left_out: BTreeMap<String, u64>,
    explained: u64,
    wrapping: u64,
    differ: u64,
    smallest: Vec<(u64, String, String, String)>,
}

impl Count {
    fn differs(&mut self, j: &Judged, want: &str, got: &str) {
        self.differ += 1;
        if self.differ == 1 {
            // The rest, smallest first, at the end: a long run says at once that there is one.
            eprintln!("a difference: {}", cut(&j.line));
        }
        self.smallest.push((j.job.weight(), j.line.clone(), want.to_owned(), got.to_owned()));
        self.smallest.sort_by_key(|s| (s.0, s.1.len()));
        self.smallest.truncate(5);
    }
}

struct Driver {
    side: Side,
    child: Child,
    to_writer: SyncSender<Option<Arc<Judged>>>,
    to_reader: SyncSender<Option<Arc<Judged>>>,
    writer: JoinHandle<()>,
    reader: JoinHandle<Count>,
}

fn hold(side: Side, j: &Judged, got: &str, count: &mut Count) {
    count.sent += 1;
    // libwebp has no counterpart of some calls; the port has one of each
    if side != Side::Ours && got == "-" {
        *count.left_out.entry(j.line.split(' ').next().unwrap().to_owned()).or_default() += 1;
        return;
    }
    count.asked += 1;
    if side == Side::Ours {
        if got != j.answer {
            count.differs(j, &j.answer, got);
        }
        return;
    }
    let wrapping = j.job.may_wrap();
    count.wrapping += u64::from(wrapping);
    if got == j.libwebp {
        return;
    }
    if side == Side::Libwebp && wrapping && original::with_c_restore(&j.job).as_deref() == Some(got) {
        count.explained += 1;
    } else {
        count.differs(j, &j.libwebp, got);
    }
}

fn read_answers(side: Side, input: impl std::io::Read, jobs: Receiver<Option<Arc<Judged>>>) -> Count {
    let mut lines = BufReader::with_capacity(1 << 20, input);
    let mut count = Count::default();
    let mut got = String::new();
    while let Ok(Some(j)) = jobs.recv() {
        got.clear();
        match lines.read_line(&mut got) {
            Ok(n) if n > 0 => hold(side, &j, got.trim_end_matches('\n'), &mut count),
            _ => {
                count.differs(&j, &j.answer, "(no answer: the driver ended)");
                while let Ok(Some(_)) = jobs.recv() {}
                return count;
            }
        }
    }
    got.clear();
    if lines.read_line(&mut got).is_ok_and(|n| n > 0) {
        count.differ += 1;
        count.smallest.push((0, "(after the last job)".into(), String::new(), got));
    }
    count
}

impl Driver {
    fn start(side: Side, command: &str) -> Driver {
        let mut child = Command::new("sh")
            .args(["-c", &format!("exec {command}")])
            .stdin(Stdio::piped())
            .stdout(Stdio::piped())
            .spawn()
            .unwrap_or_else(|e| panic!("{command}: {e}"));
        let mut input = BufWriter::with_capacity(1 << 16, child.stdin.take().unwrap());
        let output = child.stdout.take().unwrap();
        let (to_writer, work) = sync_channel::<Option<Arc<Judged>>>(64);
        let (to_reader, due) = sync_channel::<Option<Arc<Judged>>>(64);
        let writer = std::thread::spawn(move || {
            // What is written is flushed before each wait, as a driver flushes each answer: neither side waits for the other.
            while let Ok(Some(j)) = work.try_recv().or_else(|_| input.flush().map_err(|_| RecvError).and_then(|()| work.recv())) {
                if writeln!(input, "{}", j.line).is_err() {
                    break;
                }
            }
            let _ = input.flush();
            drop(input);
            while let Ok(Some(_)) = work.recv() {}
        });
        let reader = std::thread::spawn(move || read_answers(side, output, due));
        Driver { side, child, to_writer, to_reader, writer, reader }
    }

    fn finish(mut self) -> (Side, Count) {
        let _ = self.to_writer.send(None);
        drop(self.to_writer);
        let _ = self.to_reader.send(None);
        self.writer.join().unwrap();
        let mut count = self.reader.join().unwrap();
        let status = self.child.wait().unwrap();
        if !status.success() {
            count.differ += 1;
            count.smallest.push((0, format!("(the driver ended with {status})"), String::new(), String::new()));
        }
        (self.side, count)
    }
}

fn cut(s: &str) -> String {
    if s.len() > 300 { format!("{} .. ({} bytes)", &s[..300], s.len()) } else { s.to_owned() }
}

/// The commands that answer jobs, where they are at hand.
#[derive(Default)]
pub struct Commands<'a> {
    pub libwebp: Option<&'a str>,
    pub rescaler: Option<&'a str>,
    pub ours: Option<&'a str>,
}

/// Runs `sets` (name and count); true where all agree.
pub fn run(sets: &[(&str, u64)], seed: u64, commands: Commands) -> bool {
    let sides = [(Side::Libwebp, commands.libwebp), (Side::Rescaler, commands.rescaler), (Side::Ours, commands.ours)];
    let drivers: Vec<_> = sides.iter().filter_map(|&(side, command)| Some(Driver::start(side, command?))).collect();
    let (mut total, mut own) = (0, 0);
    let (mut left_out, mut corner) = (0, Corner::NONE);
    let (mut spilling, mut spill) = (0, Spill::default());
    let mut bands = Bands::default();
    let begun = Instant::now();
    for &(set, count) in sets {
        let since = Instant::now();
        let mut random = jobs::Random(seed);
        random.0 = random.next() ^ set.bytes().fold(0, |h: u64, b| h.wrapping_mul(31).wrapping_add(u64::from(b)));
        let mut numbers = [0u64; NUMBERS];
        let (mut in_corner, mut in_spill) = (0, 0);
        for i in 0..count {
            let job = jobs::make(set, i, &mut random);
            let (line, told) = (job.to_string(), original::answer(&job));
            let (answer, libwebp) = (told.line, told.libwebp);
            in_corner += u64::from(told.corner.rows > 0);
            corner.add(told.corner);
            in_spill += u64::from(told.spill.rows > 0);
            spill.add(told.spill);
            if answer.starts_with('!') {
                own += 1;
                println!("original: {}\n  {answer}", cut(&line));
            } else {
                tally(&job, &answer, &mut numbers, &mut bands);
            }
            let judged = Arc::new(Judged { job, line, answer, libwebp });
            for d in drivers.iter().filter(|d| d.side.takes(&judged.job)) {
                let _ = d.to_writer.send(Some(judged.clone()));
                let _ = d.to_reader.send(Some(judged.clone()));
            }
        }
        total += count;
        left_out += in_corner;
        spilling += in_spill;
        let seconds = since.elapsed().as_secs_f64();
        println!(
            "{set:>14} {count:>8} jobs {seconds:>6.1} s  left out in {in_corner:>5} for span 1, {in_spill:>5} for a colour  calls by number 0 to {}: {numbers:?}",
            NUMBERS - 1
        );
    }
    let (part, of) = corner.worst;
    println!(
        "left out, for the height grows and span is 1: the bytes and flags of {} rows of {left_out} jobs; the original and libwebp give 0 there",
        corner.rows
    );
    println!(
        "divider.rs judges these, at the worst {:.6} of a level off the exact mean; all else of these jobs is judged by the original",
        part as f64 / of as f64
    );
    println!(
        "left out, for a scaled colour is above its alpha: the bytes and flags of {} rows of {spilling} jobs; in {} of them the original's are others",
        spill.rows, spill.others
    );
    println!("spill.rs judges these; all else of these jobs is judged by the original");
    let shown = spill.others > 0 || sets.iter().all(|set| set.0 != "spills");
    if !shown {
        println!("the set spills has no row in which the original's restore gives other bytes");
    }
    let unseen = bands.unseen();
    if bands != Bands::default() {
        println!("{}", bands.line());
    }
    let all_seen = unseen.is_empty() || sets.iter().all(|set| set.0 != "bands-calls");
    if !all_seen {
        println!("the set bands-calls has no {}", unseen.join(", no "));
    }
    // Half a level is what rounding to the nearest may cost.
    let mut agree = own == 0 && shown && all_seen && 2 * part <= of;
    for (side, c) in drivers.into_iter().map(Driver::finish) {
        let name = side.name();
        agree &= c.differ == 0 && (c.asked > 0 || c.sent == 0);
        println!("{name}: {} of {} jobs asked, {} differ", c.asked, c.sent, c.differ);
        match side {
            Side::Libwebp => println!("{name}: of {} jobs whose sums may wrap, {} differ as the 32-bit restore explains", c.wrapping, c.explained),
            Side::Rescaler => println!("{name}: the sums of {} jobs may wrap", c.wrapping),
            Side::Ours => {}
        }
        if !c.left_out.is_empty() {
            println!("{name}: not asked: {}", c.left_out.iter().map(|(kind, n)| format!("{kind} {n}")).collect::<Vec<_>>().join(", "));
        }
        for (_, line, want, got) in &c.smallest {
            println!("  job      {}\n  expected {}\n  {name:8} {}", cut(line), cut(want), cut(got));
        }
    }
    println!("{total} jobs judged in {:.0} s, seed {seed}: {}", begun.elapsed().as_secs_f64(), if agree { "all agree" } else { "DIFFERENCES" });
    agree
}

/// The numbers that calls are counted by: 0 to 17.
const NUMBERS: usize = 18;

/// The bands of a run by their numbers, the rows that came by them, and what was told where their rows were asked for.
#[derive(Default, PartialEq)]
struct Bands {
    numbers: [u64; NUMBERS],
    rows: u64,
    none: u64,
    some: u64,
    refused: u64,
}

impl Bands {
    /// The numbers that a band can get. The table's order ends with 8, which cannot come: where all rows are accepted, R stands at the target height.
    const NUMBERS: [usize; 5] = [0, 6, 17, 5, 7];

    fn asked(&mut self, number: usize, rows: u64) {
        match (number, rows) {
            (0, 0) => self.none += 1,
            (0, _) => self.some += 1,
            _ => self.refused += 1,
        }
    }
    /// What a run with wrong bands has to bring and did not.
    fn unseen(&self) -> Vec<String> {
        let answers = Self::NUMBERS.iter().map(|&n| (self.numbers[n], format!("band with the number {n}")));
        let told = [(self.none, "answer of no rows"), (self.some, "answer of some rows"), (self.refused, "refused question for the rows")];
        answers.chain(told.map(|(count, name)| (count, name.to_owned()))).filter(|(count, _)| *count == 0).map(|(_, name)| name).collect()
    }
    fn line(&self) -> String {
        let numbers = Self::NUMBERS.map(|n| format!("{n}: {}", self.numbers[n])).join(", ");
        let Bands { rows, none, some, refused, .. } = self;
        format!("bands by number {numbers}; {rows} rows came by them; asked for their rows: {none} times none, {some} times some, {refused} times 6")
    }
}

/// Counts the number of each call that an answer holds.
fn tally(job: &Job, answer: &str, numbers: &mut [u64; NUMBERS], bands: &mut Bands) {
    let words: Vec<&str> = answer.split(' ').collect();
    let number = |at: usize| words[at].parse::<usize>().unwrap();
    numbers[number(0)] += 1;
    // After the start's words those of each call, if it was accepted, and one at the end.
    let (mut at, calls) = match job {
        Job::Rows { calls, .. } => (2, calls),
        Job::Three { calls, .. } => (7, calls),
        Job::Group { calls, .. } => (3, calls),
        _ => return,
    };
    if number(0) != 0 {
        return;
    }
    for call in calls {
        let count = match call {
            Call::Set { .. } | Call::Which { .. } => continue,
            Call::Count => 2,
            Call::Offer { .. } | Call::Band { .. } | Call::Take { .. } => 4,
        };
        let n = number(at);
        numbers[n] += 1;
        match call {
            Call::Band { .. } => {
                bands.numbers[n] += 1;
                bands.rows += number(at + 1) as u64;
            }
            Call::Count => bands.asked(n, number(at + 1) as u64),
            _ => {}
        }
        at += count;
    }
    assert!(at + 1 == words.len(), "an answer of other words than its calls: {answer}");
}
