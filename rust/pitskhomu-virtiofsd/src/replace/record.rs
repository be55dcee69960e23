//! What a daemon says of itself when it is ready to take over: its version, its directory, and the
//! options that the guest can notice.
use crate::numbers::SocketId;
use crate::options::{Listed, Options};
use std::fmt::Write;
use std::fs;
use std::io;
use std::os::unix::fs::MetadataExt;
use std::path::Path;

/// The name of the line that `Record::wanted` has. No option has it.
const WANTED: &str = "metrics-socket";

/// The record of a daemon.
#[derive(Debug, Clone, PartialEq, Eq)]
pub struct Record {
    version: String,
    /// The directory's device and number.
    directory: (u64, u64),
    /// The options that are set.
    options: Listed,
    /// The old daemon's socket of --metrics, which this daemon wants.
    pub wanted: Option<SocketId>,
}

fn invalid(why: &str) -> io::Error {
    io::Error::new(io::ErrorKind::InvalidData, why)
}

/// The numbers of a version. One that has no numbers is older than any.
fn numbers(version: &str) -> Vec<u64> {
    version.split('.').map_while(|part| part.parse().ok()).collect()
}

impl Record {
    /// That of this daemon. The directory is looked at, so make it outside the sandbox.
    pub fn new(options: &Options, directory: &Path) -> io::Result<Record> {
        let data = fs::metadata(directory)?;
        Ok(Record {
            version: env!("CARGO_PKG_VERSION").into(),
            directory: (data.dev(), data.ino()),
            options: options.differing(),
            wanted: None,
        })
    }

    /// The record as a text.
    pub fn text(&self) -> String {
        let (device, number) = self.directory;
        let mut text = format!("{}\n{device} {number}\n", self.version);
        for (name, value) in &self.options {
            let _ = writeln!(text, "{name} {value}"); // a String takes all
        }
        if let Some((device, number)) = self.wanted {
            let _ = writeln!(text, "{WANTED} {device} {number}");
        }
        text
    }

    /// The record of a text.
    pub fn of(text: &str) -> io::Result<Record> {
        let wrong = || invalid("a record of another form");
        let mut lines = text.lines();
        let version = lines.next().ok_or_else(wrong)?.to_owned();
        let directory = lines.next().and_then(|line| line.split_once(' ')).ok_or_else(wrong)?;
        let number = |text: &str| text.parse().map_err(|_| wrong());
        let directory = (number(directory.0)?, number(directory.1)?);
        let options = lines.map(|line| {
            line.split_once(' ')
                .map(|(name, value)| (name.to_owned(), value.to_owned()))
                .ok_or_else(wrong)
        });
        let mut options = options.collect::<io::Result<Listed>>()?;
        let wanted = options.remove(WANTED).map(|text| {
            let (device, number_of) = text.split_once(' ').ok_or_else(wrong)?;
            Ok::<_, io::Error>((number(device)?, number(number_of)?))
        });
        Ok(Record { version, directory, options, wanted: wanted.transpose()? })
    }

    /// Why the daemon with the record `new` can't replace the one with this record, if so.
    pub fn refuses(&self, new: &Record) -> Option<String> {
        if numbers(&new.version) < numbers(&self.version) {
            return Some(format!("it is version {}, older than {}", new.version, self.version));
        }
        if new.directory != self.directory {
            return Some("it shares another directory".into());
        }
        let defaults = Options::defaults();
        let names = self.options.keys().chain(new.options.keys());
        let value = |options: &Listed, name: &String| {
            options.get(name).or(defaults.get(name)).map_or("unknown".into(), String::clone)
        };
        let differs = |name: &&String| self.options.get(*name) != new.options.get(*name);
        names.clone().find(differs).map(|name| {
            let (ours, theirs) = (value(&self.options, name), value(&new.options, name));
            format!("its option --{name} is {theirs}, and that of the one that serves is {ours}")
        })
    }
}

#[cfg(test)]
mod tests {
    use super::*;
    use clap::Parser;

    fn record(words: &str) -> Record {
        let words = format!("daemon --socket-path=/s --shared-dir=/ {words}");
        let options = Options::try_parse_from(words.split_whitespace()).expect("options");
        Record::new(&options, Path::new("/")).expect("a record")
    }

    #[test]
    fn a_record_is_its_text() {
        let mut sent = record("--xattrmap=:map::user.virtiofs.: --tag=a\n --modcaps=+sys_admin");
        sent.wanted = Some((7, 1 << 40));
        assert_eq!(Record::of(&sent.text()).expect("a record"), sent);
    }

    #[test]
    fn a_text_that_is_no_record_is_refused() {
        assert!(Record::of("0.1.0\n1 2\n").is_ok());
        for wrong in [
            "",
            "0.1.0",
            "0.1.0\n12\n",
            "0.1.0\na b\n",
            "0.1.0\n1 2\nxattr",
            "0.1.0\n1 2\nmetrics-socket 1",
        ] {
            assert!(Record::of(wrong).is_err(), "{wrong:?}");
        }
    }

    #[test]
    fn a_difference_is_named() {
        let old = record("--xattr --cache=always");
        let why = |words: &str| old.refuses(&record(words));
        assert_eq!(why("--xattr --cache=always --log-level=debug --thread-pool-size=4"), None);
        assert_eq!(
            why("--posix-acl --cache=always").expect("a reason"),
            "its option --posix-acl is on, and that of the one that serves is off"
        );
        assert_eq!(
            why("--cache=always").expect("a reason"),
            "its option --xattr is off, and that of the one that serves is on"
        );
        assert_eq!(
            why("--xattr --cache=never").expect("a reason"),
            "its option --cache is never, and that of the one that serves is always"
        );
        assert!(why("--xattr --cache=always --readonly").expect("a reason").contains("--readonly"));
        let other = Record { directory: (0, 0), ..old.clone() };
        assert_eq!(old.refuses(&other).expect("a reason"), "it shares another directory");
    }

    #[test]
    fn an_older_version_is_refused() {
        let of = |version: &str| Record { version: version.into(), ..record("") };
        for (old, new, is_refused) in [
            ("0.1.0", "0.1.0", false),
            ("0.9.1", "0.10.0", false),
            ("0.1.0", "0.1.0.1", false),
            ("1.0.0", "0.9.9", true),
            ("0.10.0", "0.9.0", true),
            ("0.1.0", "x", true),
        ] {
            assert_eq!(of(old).refuses(&of(new)).is_some(), is_refused, "{old} {new}");
        }
        let later = Record { options: [("new-option".into(), "on".into())].into(), ..record("") };
        assert_eq!(
            record("").refuses(&later).expect("a reason"),
            "its option --new-option is on, and that of the one that serves is unknown"
        );
    }
}
