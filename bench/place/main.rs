//! Places against plain Rust, as ratios taken in one run. `run.sh` builds it and runs it.

use std::hint::black_box;
use std::time::{Duration, Instant};

// a slice crosses as a pointer and a length, an allocator not at all
unsafe extern "C" {
    fn starlark_c_count_matches_byte(text: *const u8, len: usize, byte: u8) -> usize;
    fn starlark_c_len(text: *const u8, len: usize) -> usize;
    fn starlark_c_resolve(
        text: *const u8,
        len: usize,
        places: *const u32,
        places_len: usize,
        total: &mut u64,
    ) -> bool;
}

// of counts, and of scans
const ROUNDS: usize = 31;
const SCANS: usize = 9;
const PLACES: usize = 100_000;
const REPEATED: usize = 10;
const SCANNED: usize = 100;

fn count_matches_byte(text: &str, byte: u8) -> usize {
    // SAFETY: the text is UTF-8
    unsafe { starlark_c_count_matches_byte(text.as_ptr(), text.len(), byte) }
}

fn len(text: &str) -> usize {
    // SAFETY: the text is UTF-8
    unsafe { starlark_c_len(text.as_ptr(), text.len()) }
}

fn resolve(text: &str, places: &[u32]) -> u64 {
    let mut total = 0;
    // SAFETY: the text is UTF-8
    let made = unsafe {
        starlark_c_resolve(
            text.as_ptr(),
            text.len(),
            places.as_ptr(),
            places.len(),
            &mut total,
        )
    };
    assert!(made, "no memory");
    total
}

/// The line and the column of a place, found by a scan of all that stands before it.
fn scan(text: &str, place: u32) -> u64 {
    let (mut line, mut column) = (0, 0);
    for c in text[..place as usize].chars() {
        if c == '\n' {
            line += 1;
            column = 0;
        } else {
            column += 1;
        }
    }
    line + column
}

fn scan_all(text: &str, places: &[u32]) -> u64 {
    places.iter().map(|place| scan(text, *place)).sum()
}

/// Lines of 0 to 79 characters, which are all ASCII or of one to four bytes.
fn text(size: usize, mixed: bool, random: &mut Random) -> String {
    let letters = ['a', 'é', 'z', '€', '0', '𝄞', ' ', 'ß'];
    let mut text = String::new();
    while text.len() < size {
        for _ in 0..random.below(80) {
            let letter = letters[random.below(8)];
            text.push(if mixed || letter.is_ascii() {
                letter
            } else {
                'x'
            });
        }
        text.push('\n');
    }
    while text.len() > size {
        text.pop();
    }
    text
}

/// So many places between characters.
fn places(text: &str, count: usize, random: &mut Random) -> Vec<u32> {
    let mut places = Vec::new();
    while places.len() < count {
        let place = random.below(text.len() + 1);
        if text.is_char_boundary(place) {
            places.push(place as u32);
        }
    }
    places
}

/// A xorshift.
struct Random(u64);

impl Random {
    fn below(&mut self, n: usize) -> usize {
        self.0 ^= self.0 << 13;
        self.0 ^= self.0 >> 7;
        self.0 ^= self.0 << 17;
        (self.0 % n as u64) as usize
    }
}

/// The time of so many calls.
fn time<T>(calls: usize, mut call: impl FnMut() -> T) -> Duration {
    let begin = Instant::now();
    for _ in 0..calls {
        black_box(call());
    }
    begin.elapsed()
}

fn median(mut times: Vec<f64>) -> f64 {
    times.sort_by(f64::total_cmp);
    times[times.len() / 2]
}

/// How many times as fast ours is as theirs: the median of rounds that take the two in turn.
fn ratio<A, B>(calls: usize, mut ours: impl FnMut() -> A, mut theirs: impl FnMut() -> B) -> f64 {
    let mut rounds = Vec::new();
    for _ in 0..ROUNDS {
        let own = time(calls, &mut ours).as_secs_f64();
        let other = time(calls, &mut theirs).as_secs_f64();
        rounds.push(other / own);
    }
    median(rounds)
}

fn counts(name: &str, text: &str) {
    let calls = (1 << 24) / text.len();
    let feed = black_box(b'\n');
    assert_eq!(
        count_matches_byte(text, feed),
        text.bytes().filter(|b| *b == feed).count()
    );
    assert_eq!(len(text), text.chars().count());
    let bytes = ratio(
        calls,
        || count_matches_byte(black_box(text), feed),
        || black_box(text).bytes().filter(|b| *b == feed).count(),
    );
    let chars = ratio(
        calls,
        || len(black_box(text)),
        || black_box(text).chars().count(),
    );
    println!("{name}: count_matches_byte {bytes:.2}, len {chars:.2} times as fast as std");
}

/// A call makes the map and resolves the places. So the places are resolved ten times over, and a call with no place is
/// taken off. The scan is of some of the places, and scaled.
fn places_of(name: &str, text: &str, random: &mut Random) {
    let some = places(text, PLACES, random);
    let all = some.repeat(REPEATED);
    let few = &some[..SCANNED];
    assert_eq!(resolve(text, few), scan_all(text, few));
    let mut rounds = Vec::new();
    for _ in 0..SCANS {
        let map = time(1, || resolve(black_box(text), &[]));
        let own = time(1, || resolve(black_box(text), &all));
        let other = time(1, || scan_all(black_box(text), few));
        let own = own.saturating_sub(map).as_secs_f64() / REPEATED as f64;
        let other = other.as_secs_f64() * (PLACES / SCANNED) as f64;
        rounds.push(other / own);
    }
    let times = median(rounds);
    println!("{name}: {PLACES} places resolved {times:.0} times as fast as by a scan");
}

fn main() {
    let mut random = Random(0x9e37_79b9_7f4a_7c15);
    for (size, shown) in [(1 << 10, "1 KiB"), (1 << 16, "64 KiB"), (1 << 23, "8 MiB")] {
        for (mixed, kind) in [(false, "ASCII"), (true, "mixed")] {
            let name = format!("{shown} {kind}");
            let text = text(size, mixed, &mut random);
            counts(&name, &text);
            places_of(&name, &text, &mut random);
        }
    }
}
