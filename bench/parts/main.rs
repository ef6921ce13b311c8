//! Instructions of the program's edits and outlines, by the number of parts. `run.sh` builds it and runs it.

use std::env;
use std::fs::{self, File};
use std::process::Command;

/// How many parts there are before what is counted.
const SIZES: [usize; 3] = [10, 1_000, 10_000];

/// How often what is counted is done.
const TIMES: usize = 20;

/// The text of each part: one statement.
const TEXT: &str = "x = f(1)\n";

/// Runs scripts and counts their instructions.
struct Counter {
    program: String,
    // where a script is kept
    place: String,
}

impl Counter {
    /// The instructions of a script, of which each edit must be taken.
    fn count(&self, script: &str) -> u64 {
        fs::write(&self.place, script).expect("a script");
        let out = Command::new("valgrind")
            .args(["--tool=callgrind", "--callgrind-out-file=/dev/null"])
            .arg(&self.program)
            .stdin(File::open(&self.place).expect("the script"))
            .output()
            .expect("valgrind");
        let replies = String::from_utf8_lossy(&out.stdout);
        assert!(out.status.success() && !replies.contains("refused"));
        let told = String::from_utf8_lossy(&out.stderr);
        let (_, count) = told.split_once("Collected : ").expect("a count");
        let digits = count.split_whitespace().next().expect("a number");
        digits.parse().expect("a number")
    }

    /// The instructions of each of so many commands behind a script.
    fn each(&self, before: &str, commands: &[String]) -> u64 {
        let more = self.count(&format!("{before}{}", commands.concat()));
        (more - self.count(before)) / commands.len() as u64
    }
}

fn insert(index: usize) -> String {
    format!("insert {index} {}\n{TEXT}", TEXT.len())
}

fn repeated(command: &str) -> Vec<String> {
    vec![command.to_string(); TIMES]
}

/// So many parts, in a list that has room for those that are counted: as many more were put in and taken out.
fn parts(size: usize) -> String {
    let mut script = (0..size + TIMES).map(insert).collect::<String>();
    for _ in 0..TIMES {
        script.push_str(&format!("remove {size}\n"));
    }
    script
}

fn main() {
    let arguments = env::args().collect::<Vec<_>>();
    let [_, program, place] = &arguments[..] else {
        panic!("give the program and a file for the scripts");
    };
    let counter = Counter {
        program: program.clone(),
        place: place.clone(),
    };
    println!("| Parts | insert behind all | insert before all | replace | remove and insert before all | move from the front behind all | outline, a statement |");
    println!("|---|---|---|---|---|---|---|");
    for size in SIZES {
        let before = parts(size);
        let last = size - 1;
        let behind = (size..size + TIMES).map(insert).collect::<Vec<_>>();
        let replace = format!("replace 0 {}\n{TEXT}", TEXT.len());
        let counts = [
            counter.each(&before, &behind),
            counter.each(&before, &repeated(&insert(0))),
            counter.each(&before, &repeated(&replace)),
            counter.each(&before, &repeated(&format!("remove 0\n{}", insert(0)))),
            counter.each(&before, &repeated(&format!("move 0 {last}\n"))),
            counter.each(&before, &repeated("outline\n")) / size as u64,
        ];
        let row = counts.map(|count| count.to_string()).join(" | ");
        println!("| {size} | {row} |");
    }
}
