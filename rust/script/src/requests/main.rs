//! Plays files of vectors/requests (vectors/README.md) on the wrapper:
//! `pitskhomu-requests FILE..`. A chain in memory holds each request and its reply buffer, and the
//! vectors' file system records its calls. The last line is `N passed, M failed`.
#![forbid(unsafe_code)]
// usize has 64 bits here, and what is cut is small.
#![allow(clippy::cast_possible_truncation)]
mod files;
mod guest;
mod play;
mod read;

use play::Counts;
use std::process::ExitCode;
use std::{env, fs};

fn play_file(path: &str, counts: &mut Counts) -> Result<(), String> {
    let text = fs::read_to_string(path).map_err(|error| error.to_string())?;
    for group in read::groups(&text)? {
        counts.play(path, &group).map_err(|status| format!("the library refuses: {status}"))?;
    }
    Ok(())
}

fn main() -> ExitCode {
    let mut counts = Counts::default();
    for path in env::args().skip(1) {
        if let Err(why) = play_file(&path, &mut counts) {
            println!("FAILED: {path}: {why}");
            counts.failed += 1;
        }
    }
    println!("{} passed, {} failed", counts.passed, counts.failed);
    ExitCode::from(u8::from(counts.failed > 0))
}
