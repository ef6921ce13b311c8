//! Calls of ours against a peer's program, in turn, on the texts of a folder. `PROGRAM bench FILE N WORD` prints
//! `median_ns_per_byte=` and `min=` with a number each, and fails where the peer refuses the text.

use std::fs;
use std::hint::black_box;
use std::path::{Path, PathBuf};
use std::process::Command;
use std::time::Instant;

const ROUNDS: usize = 15;
const RUNS: usize = 5;

/// The peer's program, and the word for what it is to do.
pub struct Peer<'a> {
    pub program: &'a str,
    pub word: &'a str,
}

/// Nanoseconds a byte of some runs.
struct Times {
    median: f64,
    least: f64,
}

impl Peer<'_> {
    /// Its times of some runs, or none where it refuses the text.
    fn times(&self, file: &Path, runs: usize) -> Option<Times> {
        let out = Command::new(self.program)
            .args([
                "bench".as_ref(),
                file.as_os_str(),
                runs.to_string().as_ref(),
                self.word.as_ref(),
            ])
            .output()
            .expect("the peer");
        let text = String::from_utf8_lossy(&out.stdout).into_owned();
        let shown = |name| {
            text.split(name)
                .nth(1)?
                .split_whitespace()
                .next()?
                .parse()
                .ok()
        };
        Some(Times {
            median: shown("median_ns_per_byte=")?,
            least: shown("min=")?,
        })
    }

    /// Whether it takes the text of a file.
    pub fn takes(&self, file: &Path) -> bool {
        self.times(file, 1).is_some()
    }

    /// The texts that both take, one behind the other, each on lines of its own.
    pub fn joined(&self, folder: &Path, is_ours: fn(&str) -> bool) -> String {
        let files = files(folder);
        let (mut all, mut count) = (String::new(), 0);
        for file in &files {
            let Ok(text) = fs::read_to_string(file) else {
                continue;
            };
            if !is_ours(&text) || !self.takes(file) {
                println!("left out: {}", file.display());
                continue;
            }
            count += 1;
            all.push_str(&text);
            if !text.is_empty() && !text.ends_with('\n') {
                all.push('\n');
            }
        }
        println!("{count} of {} texts, {} bytes", files.len(), all.len());
        all
    }

    /// Prints how our time a byte compares with the peer's, over rounds that take the two in turn: the median of the
    /// rounds' ratios of medians, and the ratio of the least times of all.
    pub fn compare<T>(&self, name: &str, call: fn(&str) -> T, text: &str, file: &Path) {
        let mut rounds = Vec::new();
        let (mut ours, mut others) = (f64::INFINITY, f64::INFINITY);
        for _ in 0..ROUNDS {
            let theirs = self.times(file, RUNS).expect("the peer's time");
            let own = own(text, RUNS, call);
            rounds.push(own.median / theirs.median);
            (ours, others) = (ours.min(own.least), others.min(theirs.least));
        }
        let (rounds, least) = (median(rounds), ours / others);
        println!("{name}: {rounds:.3} of the peer's time a byte, {least:.3} of its least");
    }
}

/// Our times of some runs, after two to warm up, as the peer has it.
fn own<T>(text: &str, runs: usize, call: fn(&str) -> T) -> Times {
    call(text);
    call(text);
    let mut times = Vec::new();
    for _ in 0..runs {
        let begin = Instant::now();
        black_box(call(black_box(text)));
        times.push(begin.elapsed().as_nanos() as f64 / text.len() as f64);
    }
    Times {
        least: times.iter().copied().fold(f64::INFINITY, f64::min),
        median: median(times),
    }
}

fn median(mut times: Vec<f64>) -> f64 {
    times.sort_by(f64::total_cmp);
    times[times.len() / 2]
}

/// All files below a folder.
fn files(folder: &Path) -> Vec<PathBuf> {
    let mut found = Vec::new();
    for entry in fs::read_dir(folder).expect("a folder") {
        let path = entry.expect("an entry").path();
        if path.is_dir() {
            found.extend(files(&path));
        } else {
            found.push(path);
        }
    }
    found.sort();
    found
}
