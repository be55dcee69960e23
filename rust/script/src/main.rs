//! Plays a script (vectors/SCRIPT.md) on the handle: on the C library, by the crate `pitskhomu`.
//! It prints the same lines as the script program, which runs the other device (`fs_device`).
//! That page lists the few commands that the handle lacks. There the script ends with status 4.
//!
//! This program is the VMM and the guest. It keeps the guest's memory, marks the pages that are
//! written, and has the small file system of the script language. The library reads the queues
//! and the requests, and makes the replies.
#![forbid(unsafe_code)]
// usize has 64 bits here, and what is cut is small.
#![allow(clippy::cast_possible_truncation)]
mod files;
mod halt;
mod iommu;
mod line;
mod machine;
mod memory;
mod session;

use halt::Halt;
use session::Session;
use std::env;
use std::io::{self, BufWriter, Read, Write};
use std::process::ExitCode;

/// The most bytes of a script.
const SCRIPT_MAX: usize = 1 << 20;

/// Reads a whole script. `TooLong` if it has more than `SCRIPT_MAX` bytes.
fn read_script(reader: &mut dyn Read) -> Result<Vec<u8>, Halt> {
    let mut script = Vec::new();
    let mut buffer = [0; 4096];
    while script.len() <= SCRIPT_MAX {
        match reader.read(&mut buffer)? {
            0 => return Ok(script),
            count => script.extend_from_slice(&buffer[..count]),
        }
    }
    Err(Halt::TooLong)
}

fn play(reader: &mut dyn Read, writer: &mut dyn Write) -> Result<(), Halt> {
    let script = read_script(reader)?;
    let mut session = Session::new().map_err(|_| Halt::OutOfMemory)?;
    for (number, text) in (1..).zip(script.split(|&byte| byte == b'\n')) {
        session.run(number, text, writer)?;
    }
    Ok(())
}

/// Plays the script, and prints why it ended early, if it did. Returns the program's exit status.
fn play_and_report(reader: &mut dyn Read, writer: &mut dyn Write) -> u8 {
    let mut writer = BufWriter::new(writer);
    let ended = match play(reader, &mut writer) {
        Err(halt) => match halt.print(&mut writer) {
            Ok(()) => Err(halt),
            Err(error) => Err(error.into()),
        },
        Ok(()) => Ok(()),
    };
    match writer.flush().map_err(Halt::from).and(ended) {
        Ok(()) => 0,
        Err(halt) => report(&halt),
    }
}

/// Prints the reason on standard error, if there is one. Returns the program's exit status.
fn report(halt: &Halt) -> u8 {
    if let Some(reason) = halt.reason() {
        eprintln!("{reason}");
    }
    halt.status()
}

fn main() -> ExitCode {
    let (stdin, stdout) = (io::stdin(), io::stdout());
    if env::args_os().len() > 1 {
        let printed = writeln!(stdout.lock(), "usage: pitskhomu-script < script");
        return ExitCode::from(if printed.is_ok() { 1 } else { report(&Halt::Stream) });
    }
    ExitCode::from(play_and_report(&mut stdin.lock(), &mut stdout.lock()))
}
