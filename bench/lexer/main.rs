//! The lexer against another scanner, as a ratio taken in one run. `run.sh` builds it and runs it.

#[path = "../peer.rs"]
mod peer;

use peer::Peer;
use std::env;
use std::fs;
use std::path::Path;
use std::process::Command;

// a slice crosses as a pointer and a length, an allocator not at all
unsafe extern "C" {
    fn starlark_c_token_count(text: *const u8, len: usize, count: &mut u64) -> bool;
    fn starlark_c_token_bytes(text: *const u8, len: usize, bytes: &mut u64) -> bool;
    fn starlark_c_resolve(
        text: *const u8,
        len: usize,
        places: *const u32,
        places_len: usize,
        total: &mut u64,
    ) -> bool;
}

fn token_count(text: &str) -> u64 {
    let mut count = 0;
    // SAFETY: the text is UTF-8
    assert!(unsafe { starlark_c_token_count(text.as_ptr(), text.len(), &mut count) });
    count
}

fn token_bytes(text: &str) -> u64 {
    let mut bytes = 0;
    // SAFETY: the text is UTF-8
    assert!(unsafe { starlark_c_token_bytes(text.as_ptr(), text.len(), &mut bytes) });
    bytes
}

/// Copies the text and makes its map, as each call of the others does.
fn map(text: &str) {
    let (places, mut total) = ([0u32; 0], 0);
    // SAFETY: the text is UTF-8
    assert!(unsafe {
        starlark_c_resolve(text.as_ptr(), text.len(), places.as_ptr(), 0, &mut total)
    });
}

/// Whether our lexer finds no fault: behind a fault one more line changes nothing.
fn is_ours(text: &str) -> bool {
    token_count(text) < token_count(&format!("{text}\nx\n"))
}

/// A line of what the system says of this process, in KiB.
fn status(name: &str) -> u64 {
    let text = fs::read_to_string("/proc/self/status").expect("a status");
    let line = text
        .lines()
        .find(|line| line.starts_with(name))
        .expect("a line");
    line.split_whitespace()
        .nth(1)
        .expect("a number")
        .parse()
        .expect("a number")
}

/// How much a process of its own grows at most, in KiB, from when it has the text so many times over.
fn growth(what: &str, file: &str, times: usize) -> u64 {
    let out = Command::new(env::current_exe().expect("this program"))
        .args([what, file, &times.to_string()])
        .output()
        .expect("this program's growth");
    String::from_utf8_lossy(&out.stdout)
        .trim()
        .parse()
        .expect("a number")
}

/// Prints the growth of this process.
fn grow(what: &str, file: &str, times: &str) {
    let text = fs::read_to_string(file).expect("the joined text");
    let text = text.repeat(times.parse().expect("a number"));
    let before = status("VmHWM");
    if what == "map" {
        map(&text);
    } else {
        token_count(&text);
    }
    println!("{}", status("VmHWM") - before);
}

fn main() {
    let arguments = env::args().collect::<Vec<_>>();
    let [_, folder, program, place] = &arguments[..] else {
        panic!("give the folder of the texts, the peer's program and a file for the joined text");
    };
    if folder == "map" || folder == "lex" {
        return grow(folder, program, place);
    }
    let peer = Peer {
        program,
        word: "lex",
    };
    let text = peer.joined(Path::new(folder), is_ours);
    let file = Path::new(place);
    fs::write(file, &text).expect("the joined text");
    assert!(is_ours(&text) && peer.takes(file));
    println!(
        "{} tokens of {} bytes",
        token_count(&text),
        token_bytes(&text)
    );
    peer.compare("token_count", token_count, &text, file);
    peer.compare("token_bytes", token_bytes, &text, file);
    for times in [1, 8] {
        let (map, lex) = (growth("map", place, times), growth("lex", place, times));
        println!(
            "{} KiB: the copy and its map take {map} KiB, and with all tokens {lex} KiB",
            text.len() * times / 1024
        );
    }
}
