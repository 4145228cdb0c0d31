//! The judge of the port: the original's two files, built unchanged. README.md says how to run it.
//!
//!   oracle original < jobs > answers      a line for each job
//!   oracle jobs SET COUNT SEED            jobs on standard output
//!   oracle judge gate|long|planes [long]|SET.. [--count N] [--seed N] [--libwebp COMMAND] [--rescaler COMMAND] [--ours COMMAND]
//!   oracle list                           the fixed list
mod bands;
mod divider;
mod error;
mod groups;
mod job;
mod jobs;
mod judge;
mod list;
mod original;
mod picture;
mod prelude;
mod spill;
mod table;

include!(concat!(env!("OUT_DIR"), "/original.rs"));

use std::io::{BufRead, BufWriter, Write};

/// Answers each line of standard input; the answer number `altered`, counted from 1, is made wrong.
fn answer_all(altered: Option<u64>) {
    let mut out = BufWriter::with_capacity(1 << 16, std::io::stdout().lock());
    for (line, i) in std::io::stdin().lock().lines().zip(1..) {
        let line = line.unwrap();
        let mut answer = match job::Job::parse(&line) {
            Some(job) => original::answer(&job).line,
            None => "! no job".into(),
        };
        if altered == Some(i) {
            let last = answer.pop().unwrap();
            answer.push(if last == '0' { '1' } else { '0' });
        }
        writeln!(out, "{answer}").unwrap();
        out.flush().unwrap();
    }
}

fn judge(words: &[String]) -> bool {
    let (mut seed, mut count, mut commands) = (1, None, judge::Commands::default());
    let mut sets = Vec::new();
    let mut words = words.iter();
    while let Some(word) = words.next() {
        let mut value = || words.next().expect("a value");
        match word.as_str() {
            "--seed" => seed = value().parse().expect("a seed"),
            "--count" => count = Some(value().parse::<u64>().expect("a number")),
            "--libwebp" => commands.libwebp = Some(value().as_str()),
            "--rescaler" => commands.rescaler = Some(value().as_str()),
            "--ours" => commands.ours = Some(value().as_str()),
            set => sets.push(set),
        }
    }
    let planes = sets.contains(&"planes");
    let all = sets.contains(&"gate") || sets.contains(&"long") && !planes;
    let wanted = |name: &str| all || sets.contains(&name) || planes && jobs::of_planes(name);
    let long = sets.contains(&"long");
    let chosen: Vec<_> = jobs::SETS.iter().filter(|s| wanted(s.0)).map(|&(name, g, l)| (name, count.unwrap_or(if long { l } else { g }))).collect();
    assert!(!chosen.is_empty(), "no such set");
    judge::run(&chosen, seed, commands)
}

fn main() {
    let words: Vec<String> = std::env::args().skip(1).collect();
    let number = |i: usize| words[i].parse::<u64>().expect("a number");
    match words.first().map(String::as_str) {
        Some("original") => answer_all((words.len() == 3 && words[1] == "--alter").then(|| number(2))),
        Some("jobs") if words.len() == 4 => {
            let mut random = jobs::Random(number(3));
            let mut out = BufWriter::new(std::io::stdout().lock());
            for i in 0..number(2) {
                writeln!(out, "{}", jobs::make(&words[1], i, &mut random)).unwrap();
            }
        }
        Some("judge") => std::process::exit(i32::from(!judge(&words[1..]))),
        Some("list") => print!("{}", list::make()),
        _ => {
            eprintln!("usage: see README.md");
            std::process::exit(64);
        }
    }
}
