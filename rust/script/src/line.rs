//! The commands of a script, and the reasons that a line isn't a command.
use pitskhomu::{Access, QueueLayout};
use std::fmt;

/// A command of a script.
#[derive(Debug)]
pub enum Command {
    Queue(QueueLayout),
    Region {
        base: u64,
        size: u64,
    },
    Alias {
        base: u64,
        block: u64,
    },
    Unregion {
        base: u64,
        size: u64,
    },
    Write {
        address: u64,
        bytes: Vec<u8>,
    },
    Read {
        address: u64,
        len: u64,
    },
    Map {
        iova: u64,
        target: u64,
        len: u64,
        access: Access,
    },
    Unmap {
        iova: u64,
        len: u64,
    },
    /// Whether it is turned on.
    Iommu(bool),
    Kick {
        queue: u64,
        most: u16,
    },
    Reset {
        queue: u64,
        layout: QueueLayout,
    },
    Move,
    Harvest,
    /// Whether the driver accepts `VIRTIO_F_EVENT_IDX`.
    EventIndex(bool),
    /// Enables or disables notifications of the driver.
    Notify {
        queue: u64,
        enabled: bool,
    },
    Drop {
        queue: u64,
    },
}

/// Why a line isn't a command, or not one that is allowed there.
#[derive(Clone, Copy, Debug, PartialEq, Eq)]
pub enum WrongLine {
    UnknownCommand,
    MissingWord,
    ExtraWord,
    ExtraBlank,
    CarriageReturn,
    NotANumber,
    BigNumber,
    BigShort,
    NotBytes,
    NotPermissions,
    NotASwitch,
    NoQueue,
    LateQueue,
    ManyQueues,
}

impl fmt::Display for WrongLine {
    fn fmt(&self, f: &mut fmt::Formatter<'_>) -> fmt::Result {
        f.write_str(match self {
            WrongLine::UnknownCommand => "there is no such command",
            WrongLine::MissingWord => "a word is missing at the end",
            WrongLine::ExtraWord => "there is a word too many",
            WrongLine::ExtraBlank => "the line begins or ends with a blank, or has two in a row",
            WrongLine::CarriageReturn => "a word ends with a carriage return",
            WrongLine::NotANumber => "a word that has to be a number isn't one",
            WrongLine::BigNumber => "a number doesn't fit 64 bits",
            WrongLine::BigShort => "a number that has to fit 16 bits doesn't",
            WrongLine::NotBytes => "a word isn't whole bytes in hexadecimal digits",
            WrongLine::NotPermissions => "a mapping's permission isn't none, r, w or rw",
            WrongLine::NotASwitch => "a switch isn't on or off",
            WrongLine::NoQueue => "there is no queue yet: lines of queue come first",
            WrongLine::LateQueue => "no queue can be added once another command has run",
            WrongLine::ManyQueues => "there are 64 queues already",
        })
    }
}

/// A line that isn't a command, and the word that is wrong; no bytes if it isn't one word.
#[derive(Debug)]
pub struct Wrong {
    pub why: WrongLine,
    pub word: Vec<u8>,
}

impl From<WrongLine> for Wrong {
    fn from(why: WrongLine) -> Wrong {
        Wrong { why, word: Vec::new() }
    }
}

/// The most bytes of a wrong word that are printed.
const WORD_MAX: usize = 40;

impl fmt::Display for Wrong {
    fn fmt(&self, f: &mut fmt::Formatter<'_>) -> fmt::Result {
        write!(f, "{}", self.why)?;
        if self.word.is_empty() {
            return Ok(());
        }
        f.write_str(": \"")?;
        for &byte in self.word.iter().take(WORD_MAX) {
            if byte.is_ascii_graphic() {
                write!(f, "{}", char::from(byte))?;
            } else {
                write!(f, "\\x{byte:02x}")?;
            }
        }
        f.write_str("\"")
    }
}

/// The remaining words of a line, `None` after the last, and the word that was read last.
struct Words<'a> {
    rest: Option<&'a [u8]>,
    last: &'a [u8],
}

impl<'a> Words<'a> {
    fn word(&mut self) -> Result<&'a [u8], WrongLine> {
        let rest = self.rest.ok_or(WrongLine::MissingWord)?;
        let mut parts = rest.splitn(2, |&byte| byte == b' ');
        let word = parts.next().unwrap_or_default();
        (self.rest, self.last) = (parts.next(), word);
        match word.last() {
            None => Err(WrongLine::ExtraBlank),
            Some(b'\r') => Err(WrongLine::CarriageReturn),
            Some(_) => Ok(word),
        }
    }

    fn number(&mut self) -> Result<u64, WrongLine> {
        let word = self.word()?;
        let (digits, radix) = match word.strip_prefix(b"0x") {
            Some(digits) => (digits, 16),
            None => (word, 10),
        };
        let digit = |&byte: &u8| char::from(byte).to_digit(radix).map(u64::from);
        let digits: Option<Vec<u64>> = digits.iter().map(digit).collect();
        let digits = digits.filter(|digits| !digits.is_empty()).ok_or(WrongLine::NotANumber)?;
        let add = |value: u64, digit| value.checked_mul(radix.into())?.checked_add(digit);
        digits.into_iter().try_fold(0, add).ok_or(WrongLine::BigNumber)
    }

    fn short(&mut self) -> Result<u16, WrongLine> {
        self.number()?.try_into().map_err(|_| WrongLine::BigShort)
    }

    fn layout(&mut self) -> Result<QueueLayout, WrongLine> {
        let size = self.short()?;
        let (descriptors, available, used) = (self.number()?, self.number()?, self.number()?);
        Ok(QueueLayout { size, descriptors, available, used })
    }

    fn permissions(&mut self) -> Result<Access, WrongLine> {
        match self.word()? {
            b"none" => Ok(Access::None),
            b"r" => Ok(Access::Read),
            b"w" => Ok(Access::Write),
            b"rw" => Ok(Access::ReadWrite),
            _ => Err(WrongLine::NotPermissions),
        }
    }

    fn switch(&mut self) -> Result<bool, WrongLine> {
        match self.word()? {
            b"on" => Ok(true),
            b"off" => Ok(false),
            _ => Err(WrongLine::NotASwitch),
        }
    }

    fn end(&mut self) -> Result<(), WrongLine> {
        match self.word() {
            Err(WrongLine::MissingWord) => Ok(()),
            Err(wrong) => Err(wrong),
            Ok(_) => Err(WrongLine::ExtraWord),
        }
    }

    /// The command of all these words.
    fn whole_command(&mut self) -> Result<Command, WrongLine> {
        let command = self.command()?;
        self.end()?;
        Ok(command)
    }

    fn command(&mut self) -> Result<Command, WrongLine> {
        let name = self.word()?;
        match name {
            b"queue" => Ok(Command::Queue(self.layout()?)),
            b"region" => Ok(Command::Region { base: self.number()?, size: self.number()? }),
            b"alias" => Ok(Command::Alias { base: self.number()?, block: self.number()? }),
            b"unregion" => Ok(Command::Unregion { base: self.number()?, size: self.number()? }),
            b"write" => self.write(),
            b"read" => Ok(Command::Read { address: self.number()?, len: self.number()? }),
            b"map" => {
                let (iova, target, len) = (self.number()?, self.number()?, self.number()?);
                Ok(Command::Map { iova, target, len, access: self.permissions()? })
            }
            b"unmap" => Ok(Command::Unmap { iova: self.number()?, len: self.number()? }),
            b"iommu" => Ok(Command::Iommu(self.switch()?)),
            b"kick" => Ok(Command::Kick { queue: self.number()?, most: self.short()? }),
            b"reset" => Ok(Command::Reset { queue: self.number()?, layout: self.layout()? }),
            b"move" => Ok(Command::Move),
            b"harvest" => Ok(Command::Harvest),
            b"event_index" => Ok(Command::EventIndex(self.switch()?)),
            b"notify" => Ok(Command::Notify { queue: self.number()?, enabled: self.switch()? }),
            b"drop" => Ok(Command::Drop { queue: self.number()? }),
            _ => Err(WrongLine::UnknownCommand),
        }
    }

    /// The rest of a `write` line. An extra word is reported before wrong bytes.
    fn write(&mut self) -> Result<Command, WrongLine> {
        let (address, word) = (self.number()?, self.word()?);
        self.end()?;
        let digits: Option<Vec<u32>> =
            word.iter().map(|&byte| char::from(byte).to_digit(16)).collect();
        let digits = digits.filter(|digits| digits.len() % 2 == 0).ok_or(WrongLine::NotBytes)?;
        let bytes = digits.chunks_exact(2).map(|pair| (pair[0] << 4 | pair[1]) as u8).collect();
        Ok(Command::Write { address, bytes })
    }
}

/// The command of a line; `None` for an empty line and a comment.
pub fn parse(line: &[u8]) -> Result<Option<Command>, Wrong> {
    if matches!(line.first(), None | Some(b'#')) {
        return Ok(None);
    }
    let mut words = Words { rest: Some(line), last: b"" };
    words.whole_command().map(Some).map_err(|why| match why {
        WrongLine::MissingWord => why.into(),
        _ => Wrong { why, word: words.last.to_vec() },
    })
}

#[cfg(test)]
mod tests {
    use super::*;

    #[test]
    fn the_wrong_word_is_quoted() {
        for (line, wanted) in [
            ("kik 0 1", "there is no such command: \"kik\""),
            ("queue 4 0 0x100 0y200", "a word that has to be a number isn't one: \"0y200\""),
            ("kick 0 70000", "a number that has to fit 16 bits doesn't: \"70000\""),
            ("harvest 0", "there is a word too many: \"0\""),
            ("map 0 0 1 R", "a mapping's permission isn't none, r, w or rw: \"R\""),
            ("write 0 0g", "a word isn't whole bytes in hexadecimal digits: \"0g\""),
            ("harvest\r", "a word ends with a carriage return: \"harvest\\x0d\""),
            ("queue 4 0", "a word is missing at the end"),
            ("kick  0", "the line begins or ends with a blank, or has two in a row"),
        ] {
            let wrong = parse(line.as_bytes()).expect_err(line);
            assert_eq!(wrong.to_string(), wanted, "{line}");
        }
        let long = parse(&[b'k'; 100]).expect_err("no command");
        assert!(long.to_string().ends_with(&format!(": \"{}\"", "k".repeat(40))));
    }
}
