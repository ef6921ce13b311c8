//! The parser against another one, as a ratio taken in one run. `run.sh` builds it and runs it.

#[path = "../peer.rs"]
mod peer;

use peer::Peer;
use std::env;
use std::fs;
use std::hint::black_box;
use std::path::Path;

/// Which constructs a text may use, as the library has it.
#[repr(C)]
struct Switches {
    enable_def: bool,
    enable_lambda: bool,
    enable_load: bool,
    enable_keyword_only_arguments: bool,
    enable_positional_only_arguments: bool,
    enable_types: bool,
    enable_top_level_stmt: bool,
    enable_f_strings: bool,
}

// a slice crosses as a pointer and a length, an allocator not at all
unsafe extern "C" {
    fn starlark_c_parser_parse(
        text: *const u8,
        len: usize,
        switches: &Switches,
        taken: &mut bool,
    ) -> bool;
}

/// All that there is.
const ALL: Switches = Switches {
    enable_def: true,
    enable_lambda: true,
    enable_load: true,
    enable_keyword_only_arguments: true,
    enable_positional_only_arguments: true,
    enable_types: true,
    enable_top_level_stmt: true,
    enable_f_strings: true,
};

/// Whether our parser takes a text. Its tree is made and goes.
fn is_taken(text: &str) -> bool {
    let mut taken = false;
    // SAFETY: the text is UTF-8
    assert!(unsafe { starlark_c_parser_parse(text.as_ptr(), text.len(), &ALL, &mut taken) });
    taken
}

/// Parses a text so many times, for a profile.
fn repeat(file: &str, times: &str) {
    let text = fs::read_to_string(file).expect("the joined text");
    for _ in 0..times.parse().expect("a number") {
        assert!(is_taken(black_box(&text)));
    }
}

fn main() {
    let arguments = env::args().collect::<Vec<_>>();
    let [_, folder, program, place] = &arguments[..] else {
        panic!("give the folder of the texts, the peer's program and a file for the joined text");
    };
    if folder == "repeat" {
        return repeat(program, place);
    }
    let peer = Peer {
        program,
        word: "parse",
    };
    let text = peer.joined(Path::new(folder), is_taken);
    let file = Path::new(place);
    fs::write(file, &text).expect("the joined text");
    assert!(is_taken(&text) && peer.takes(file));
    peer.compare("parse, with the drop", is_taken, &text, file);
}
