//! The device's state for a migration: virtiofsd's own, and after it the library's record (options,
//! positions), and a sum:
//!
//! ```text
//! virtiofsd's bytes (postcard) | record | its length (4 bytes, little-endian)
//!     | the sum of all bytes before (8 bytes, little-endian) | MARK
//! ```
//!
//! virtiofsd's reader ignores bytes after its own, so a plain virtiofsd can continue from this
//! state. virtiofsd's first byte, the version of the state, is written as two bytes: postcard
//! allows numbers that are longer than needed, and virtiofsd never writes one. A state that begins
//! with two such bytes, or ends with the mark, is this daemon's. It is accepted only if it has both
//! and its sum is right, so one that was cut short or damaged is refused. A state with neither is a
//! plain virtiofsd's, which has no options: the options that every session with this command line
//! agrees on are taken as agreed. virtiofsd's own part is accepted only if its numbers may be
//! (`inner`).
mod inner;

use crate::logger;
use crate::open_flags::OpenFlags;
use pitskhomu as p;
pub use pitskhomu_vhost_user::pipe::scratch;
use pitskhomu_vhost_user::pipe::Pipe;
use pitskhomu_vhost_user::state::sum;
use std::fs::File;
use std::io::{self, Read, Seek, Write};
use virtiofsd::filesystem::{Context, FileSystem, SerializableFileSystem};

/// No state of virtiofsd's ends with these bytes: its last are those of a string of UTF-8, or of
/// numbers that are less than 128.
const MARK: &[u8; 8] = b"pitskhm\xff";
/// The bit of each byte of a postcard number except the last.
const GOES_ON: u8 = 0x80;
/// The greatest length of a state in bytes. A longer one could fill the host's memory.
const STATE_MAX: u64 = 1 << 30;

fn invalid(why: &str) -> io::Error {
    io::Error::new(io::ErrorKind::InvalidData, why)
}

/// Sends the state of a device whose rings are stopped.
pub fn send(
    fs: &impl SerializableFileSystem,
    device: &p::Device,
    queues: &[p::Queue],
    scratch: &File,
    mut pipe: Pipe,
) -> io::Result<()> {
    let state = over(scratch, |file| fs.serialize(file), &Scratch::Read)?;
    // A record has at least one queue. If no queue was ever used, there are no options either.
    let record = if queues.is_empty() { Vec::new() } else { device.save(queues)? };
    pipe.write_all(&joined(&state, &record)?)
}

/// A state of virtiofsd's bytes and a record.
fn joined(inner: &[u8], record: &[u8]) -> io::Result<Vec<u8>> {
    let (version, rest) = inner
        .split_first()
        .filter(|(version, _)| **version < GOES_ON)
        .ok_or_else(|| invalid("virtiofsd's state has another form than that of 1.13.2"))?;
    #[allow(clippy::cast_possible_truncation, reason = "a record has at most 64 queues")]
    let len = record.len() as u32;
    let mut state = [&[version | GOES_ON, 0], rest, record, &len.to_le_bytes()].concat();
    let sum = sum(&state);
    state.extend_from_slice(&sum);
    state.extend_from_slice(MARK);
    Ok(state)
}

/// Has virtiofsd forget a state that it has prepared, which it only does when it writes one. While
/// it keeps one, it keeps it current with each request.
pub fn forget(fs: &impl SerializableFileSystem, scratch: &File) {
    // It warns of each node that isn't prepared, and nobody wants these bytes.
    let forgotten = logger::quietly(|| over(scratch, |file| fs.serialize(file), &Scratch::Read));
    if let Err(e) = forgotten {
        log::warn!("a state that was prepared in vain: {e}");
    }
}

/// A saved state for another daemon of this host: without the nodes that are gone for good, which
/// the guest can't use here either. An error says what the other daemon wouldn't find.
/// `is_thorough` looks at each node with a file handle, which takes some microseconds for each.
pub fn checked(fs: &impl FileSystem, state: Vec<u8>, is_thorough: bool) -> io::Result<Vec<u8>> {
    let (inner, record) = split(&state)?;
    let is_gone = |node: u64| {
        let context = Context { uid: 0.into(), gid: 0.into(), pid: 0 };
        let attributes = fs.getattr(context, node.into(), None);
        attributes.is_err_and(|e| e.raw_os_error() == Some(libc::ESTALE))
    };
    match inner::without_gone(&inner, is_thorough, is_gone)? {
        (_, lost) if lost > 0 => Err(io::Error::other(format!(
            "{lost} files that the guest holds have no path any more: they were removed, or their \
            names aren't UTF-8 (--migration-mode=file-handles needs no path)"
        ))),
        (Some(inner), _) => joined(&inner, &record.unwrap_or_default()),
        (None, _) => Ok(state),
    }
}

/// The two parts of a state: virtiofsd's own, as virtiofsd wrote it, and the library's record, if
/// the state has one.
type Halves = (Vec<u8>, Option<Vec<u8>>);

/// Splits a state.
fn split(bytes: &[u8]) -> io::Result<Halves> {
    let is_ours = bytes.first().is_some_and(|version| version & GOES_ON != 0);
    if is_ours || bytes.ends_with(MARK) {
        return split_ours(bytes).ok_or_else(|| {
            invalid("the state is cut short or damaged, or of an earlier version of this daemon")
        });
    }
    Ok((bytes.to_vec(), None))
}

/// Splits a state of this daemon's: `None` unless it is whole.
fn split_ours(bytes: &[u8]) -> Option<Halves> {
    let (summed, theirs) = bytes.strip_suffix(MARK)?.split_last_chunk::<8>()?;
    if sum(summed) != *theirs {
        return None;
    }
    let (rest, len) = summed.split_last_chunk::<4>()?;
    let at = rest.len().checked_sub(u32::from_le_bytes(*len) as usize)?;
    let (inner, record) = rest.split_at(at);
    match inner {
        [version, 0, inner @ ..] if version & GOES_ON != 0 => {
            let inner = [&[version & !GOES_ON], inner].concat();
            Some((inner, Some(record.to_vec())))
        }
        _ => None,
    }
}

/// The direction of bytes through the file in memory.
enum Scratch<'b> {
    /// virtiofsd gets an empty file and writes to it, and the daemon reads it.
    Read,
    /// virtiofsd gets a file with exactly these bytes.
    Write(&'b [u8]),
}

/// Passes the file in memory to virtiofsd, and empties it afterwards.
fn over(
    mut scratch: &File,
    call: impl FnOnce(File) -> io::Result<()>,
    way: &Scratch<'_>,
) -> io::Result<Vec<u8>> {
    let mut bytes = Vec::new();
    scratch.set_len(0)?;
    scratch.rewind()?;
    if let Scratch::Write(bytes) = way {
        scratch.write_all(bytes)?;
        scratch.rewind()?;
    }
    call(scratch.try_clone()?)?;
    if let Scratch::Read = way {
        scratch.rewind()?;
        scratch.read_to_end(&mut bytes)?;
    }
    scratch.set_len(0)?;
    Ok(bytes)
}

/// What the command line says of a state that comes in.
#[derive(Clone, Copy)]
pub struct Settings {
    /// What each session agrees on.
    pub always_agreed: p::Options,
    /// Which of the guest's open flags apply on the host.
    pub flags: OpenFlags,
}

/// Receives a state from this daemon on another host, or from virtiofsd.
pub fn receive(
    fs: &impl SerializableFileSystem,
    device: &p::Device,
    settings: Settings,
    scratch: &File,
    pipe: Pipe,
) -> io::Result<()> {
    let mut bytes = Vec::new();
    if pipe.take(STATE_MAX + 1).read_to_end(&mut bytes)? as u64 > STATE_MAX {
        return Err(io::Error::other("the state is longer than any"));
    }
    let (state, record) = split(&bytes)?;
    drop(bytes);
    let state = inner::for_host(state, settings.flags)?;
    over(scratch, |file| fs.deserialize_and_apply(file), &Scratch::Write(&state))?;
    device.set_options(p::Options::empty());
    match record {
        // The front-end sets positions with SET_VRING_BASE, so those of the record aren't used.
        Some(record) if !record.is_empty() => {
            device.restore(&record)?;
        }
        Some(_) => {}
        None => {
            device.set_options(settings.always_agreed);
            log::warn!(
                "the state is virtiofsd's, which doesn't say what INIT agreed on: only what \
                --posix-acl and --security-label need is taken as agreed"
            );
        }
    }
    Ok(())
}

#[cfg(test)]
mod tests {
    use super::*;
    use std::sync::Mutex;

    const NONE: Settings = agreed(p::Options::empty());
    /// A state of virtiofsd's without a node, whose next numbers are 2 and 0.
    const EMPTY: &[u8] = &[1, 0, 2, 0, 0, 0, 0, 0, 0, 0];

    const fn agreed(always_agreed: p::Options) -> Settings {
        let flags = OpenFlags { allow_direct_io: false, preserve_noatime: false, writeback: false };
        Settings { always_agreed, flags }
    }

    struct Fs(Mutex<Vec<u8>>);
    impl SerializableFileSystem for Fs {
        fn serialize(&self, mut pipe: File) -> io::Result<()> {
            pipe.write_all(&self.0.lock().unwrap())
        }
        fn deserialize_and_apply(&self, mut pipe: File) -> io::Result<()> {
            self.0.lock().unwrap().clear();
            pipe.read_to_end(&mut self.0.lock().unwrap()).map(|_| ())
        }
    }
    fn file(bytes: &[u8]) -> File {
        let mut f = scratch().unwrap();
        f.write_all(bytes).unwrap();
        f.rewind().unwrap();
        f
    }
    fn from(bytes: &[u8]) -> Pipe {
        Pipe::into(file(bytes)).unwrap()
    }
    fn to(file: &File) -> Pipe {
        Pipe::out(file.try_clone().unwrap()).unwrap()
    }
    fn bytes(mut f: &File) -> Vec<u8> {
        let mut v = Vec::new();
        f.rewind().unwrap();
        f.read_to_end(&mut v).unwrap();
        v
    }

    #[test]
    fn goes_and_comes() {
        let (source, device) = (Fs(Mutex::new(EMPTY.to_vec())), p::Device::default());
        let layout =
            p::QueueLayout { size: 64, descriptors: 0x10000, available: 0x11000, used: 0x12000 };
        let room = scratch().unwrap();
        for queues in [vec![], vec![p::Queue::new(layout, 7).unwrap()]] {
            let pipe = scratch().unwrap();
            send(&source, &device, &queues, &room, to(&pipe)).unwrap();
            let sent = bytes(&pipe);
            assert!(sent.starts_with(&[&[0x81, 0], &EMPTY[1..]].concat()) && sent.ends_with(MARK));
            let target = Fs(Mutex::default());
            receive(&target, &device, NONE, &room, from(&sent)).unwrap();
            assert_eq!(*target.0.lock().unwrap(), EMPTY);
            target.0.lock().unwrap().clear();
            let refused = |bytes: &[u8], what: usize| {
                let received = receive(&target, &device, NONE, &room, from(bytes));
                assert!(received.is_err(), "{what}");
            };
            for at in 0..sent.len() {
                refused(&sent[..at], at);
                for turn in [1, 0x80, 0xff] {
                    let mut turned = sent.clone();
                    turned[at] ^= turn;
                    refused(&turned, at);
                }
                refused(&[&sent[..=at], &sent[..]].concat(), at);
                refused(&[&sent[..], &sent[at..]].concat(), at);
            }
            assert_eq!(*target.0.lock().unwrap(), b""); // none of them was passed on
        }
    }

    #[test]
    fn a_plain_virtiofsds_comes() {
        let (target, room, device) =
            (Fs(Mutex::default()), scratch().unwrap(), p::Device::default());
        for always in [p::Options::empty(), p::Options::SETXATTR_EXT | p::Options::SECURITY_CTX] {
            receive(&target, &device, agreed(always), &room, from(EMPTY)).unwrap();
            assert_eq!(*target.0.lock().unwrap(), EMPTY);
            assert_eq!(device.options(), always);
        }
        assert!(receive(&target, &device, NONE, &room, from(&EMPTY.repeat(2))).is_err());
    }

    /// virtiofsd's own reader accepts a version of two bytes.
    #[test]
    fn virtiofsds_reader_takes_ours() {
        use virtiofsd::filesystem::FileSystem as _;
        use virtiofsd::passthrough::{Config, PassthroughFs};
        let root_dir = std::env::temp_dir().join(format!("pitskhomu-state-{}", std::process::id()));
        std::fs::create_dir_all(&root_dir).unwrap();
        let fs = || {
            let root_dir = root_dir.to_str().unwrap().into();
            let fs = PassthroughFs::new(Config { root_dir, ..Config::default() }).unwrap();
            fs.init(virtiofsd::fuse::FsOptions::empty()).unwrap();
            fs
        };
        let (source, target, room, pipe) = (fs(), fs(), scratch().unwrap(), scratch().unwrap());
        source.prepare_serialization(std::sync::Arc::default());
        send(&source, &p::Device::default(), &[], &room, to(&pipe)).unwrap();
        let sent = bytes(&pipe);
        assert!(sent.len() > MARK.len() + 6 && sent[..2] == [0x81, 0], "{:x?}", &sent[..2]);
        target.deserialize_and_apply(file(&sent)).unwrap();
        std::fs::remove_dir_all(&root_dir).unwrap();
    }

    #[test]
    fn bad_records_are_refused() {
        let (target, room, device) =
            (Fs(Mutex::default()), scratch().unwrap(), p::Device::default());
        let ours = [&[0x81, 0], &EMPTY[1..]].concat();
        for (len, record) in [(5u32, &b""[..]), (u32::MAX, b"xx"), (3, b"abc"), (32, &[0; 32])] {
            let summed = [&ours[..], record, &len.to_le_bytes()].concat();
            let sent = [&summed[..], &sum(&summed), MARK].concat();
            let loaded = receive(&target, &device, NONE, &room, from(&sent));
            assert!(loaded.is_err(), "{len}");
        }
    }
}
