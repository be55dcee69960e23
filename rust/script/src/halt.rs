//! Why a script ends before its last line.
use crate::line::Wrong;
use pitskhomu::Status;
use std::fmt;
use std::io::{self, Write};

/// Why a script ends early. The numbers are those of lines, from 1.
#[derive(Debug)]
pub enum Halt {
    TooLong,
    NotACommand(usize, Wrong),
    /// The handle can't play the line.
    NotOnTheHandle(usize, Missing),
    /// The library refused a call that it should have taken: a bug.
    Refused(usize, Status),
    OutOfMemory,
    /// Reading the script or printing a line failed.
    Stream,
}

/// What the handle lacks for a line.
#[derive(Clone, Copy, Debug)]
pub enum Missing {
    /// A number of a mapping isn't a multiple of 4096.
    PartOfAnIoPage,
    /// A region's address or length isn't a multiple of 4096.
    PartOfAPage,
    ManyRegions,
    /// The reply's header and its data share a byte. The handle writes the header last.
    HeaderOverData,
}

/// Why the machine can't continue.
#[derive(Clone, Copy, Debug)]
pub enum Stuck {
    Missing(Missing),
    Refused(Status),
}

impl Stuck {
    /// The halt for the line of this number.
    pub fn at(self, number: usize) -> Halt {
        match self {
            Stuck::Missing(missing) => Halt::NotOnTheHandle(number, missing),
            Stuck::Refused(status) => Halt::Refused(number, status),
        }
    }
}

impl From<Missing> for Stuck {
    fn from(missing: Missing) -> Stuck {
        Stuck::Missing(missing)
    }
}

impl From<Status> for Stuck {
    fn from(status: Status) -> Stuck {
        Stuck::Refused(status)
    }
}

impl fmt::Display for Missing {
    fn fmt(&self, f: &mut fmt::Formatter<'_>) -> fmt::Result {
        match self {
            Missing::PartOfAnIoPage => {
                f.write_str("a mapping of the handle is made of whole pages of 4096 bytes")
            }
            Missing::PartOfAPage => {
                f.write_str("a region of the handle is made of whole pages of 4096 bytes")
            }
            Missing::ManyRegions => f.write_str("the handle takes at most 512 regions"),
            Missing::HeaderOverData => {
                f.write_str("the reply's header lies over its data, and the handle writes it last")
            }
        }
    }
}

impl Halt {
    /// Prints the output's last line, unless a stream failed.
    pub fn print(&self, writer: &mut dyn Write) -> io::Result<()> {
        match self {
            Halt::TooLong => writeln!(writer, "script too long"),
            Halt::NotACommand(number, _) => writeln!(writer, "line {number}: not a command"),
            Halt::NotOnTheHandle(number, _) => {
                writeln!(writer, "line {number}: not on this device")
            }
            Halt::Refused(number, _) => writeln!(writer, "line {number}: refused by the library"),
            Halt::OutOfMemory => writeln!(writer, "out of memory"),
            Halt::Stream => Ok(()),
        }
    }

    /// The line for standard error, if there is one.
    pub fn reason(&self) -> Option<String> {
        match self {
            Halt::NotACommand(number, wrong) => Some(format!("line {number}: {wrong}")),
            Halt::NotOnTheHandle(number, missing) => Some(format!("line {number}: {missing}")),
            Halt::Refused(number, status) => Some(format!("line {number}: {status}")),
            Halt::Stream => {
                Some(String::from("the script can't be read, or the output can't be written"))
            }
            _ => None,
        }
    }

    /// The program's exit status.
    pub fn status(&self) -> u8 {
        match self {
            Halt::TooLong | Halt::NotACommand(..) => 1,
            Halt::OutOfMemory => 2,
            Halt::Stream => 3,
            Halt::NotOnTheHandle(..) => 4,
            Halt::Refused(..) => 5,
        }
    }
}

impl From<io::Error> for Halt {
    fn from(_: io::Error) -> Halt {
        Halt::Stream
    }
}
