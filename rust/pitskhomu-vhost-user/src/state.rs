//! The state that moves with a guest, from device to device:
//!
//! ```text
//! MARK | the length of the record (4 bytes, little-endian) | record | the file system's bytes
//!     | the sum of all bytes before (8 bytes, little-endian)
//! ```
use crate::pipe::Pipe;
use pitskhomu::{Device, Options, Queue};
use std::hash::Hasher;
use std::io::{self, Read, Write};
use std::sync::atomic::AtomicBool;

/// The first bytes of a state, with the version of its form.
const MARK: &[u8; 8] = b"PKSTATE1";
/// The greatest length of a state in bytes. A longer one could fill the host's memory.
const STATE_MAX: u64 = 1 << 30;

/// The state of a file system that moves with its guest to another device, perhaps on another host
/// ([`Builder::movable`](crate::Builder::movable)): the nodes that the guest holds, with their
/// numbers, and the files that it has open. By default each method refuses, or does nothing.
///
/// A device without such a state doesn't offer `VHOST_USER_PROTOCOL_F_DEVICE_STATE`. QEMU then
/// refuses a migration at once.
pub trait MovableState: Send + Sync {
    /// Prepares the state, while the guest still runs. It returns once the state is prepared, or
    /// `is_cancelled`: the guest stays. It is called on a thread of its own.
    fn prepare(&self, _is_cancelled: &AtomicBool) {}

    /// Writes the state. No request is in flight.
    ///
    /// # Errors
    /// Any ends the migration, and the guest continues here.
    fn save(&self, _to: &mut dyn Write) -> io::Result<()> {
        Err(io::Error::new(io::ErrorKind::Unsupported, "the file system's state doesn't move"))
    }

    /// Replaces the state by one that `save` wrote: the bytes are those, and there are no others.
    ///
    /// # Errors
    /// Any ends the migration. The guest continues where it was.
    fn load(&self, _from: &mut dyn Read) -> io::Result<()> {
        Err(io::Error::new(io::ErrorKind::Unsupported, "the file system's state doesn't move"))
    }
}

/// A state that doesn't move.
struct Stays;

impl MovableState for Stays {}

/// The sum of these bytes: SipHash-2-4 with a key of zeros, which finds damage, and no forger.
#[allow(deprecated, reason = "std documents this hasher's function, and not its successor's")]
#[must_use]
pub fn sum(bytes: &[u8]) -> [u8; 8] {
    let mut hasher = std::hash::SipHasher::new();
    hasher.write(bytes);
    hasher.finish().to_le_bytes()
}

fn damaged() -> io::Error {
    io::Error::new(io::ErrorKind::InvalidData, "the state is cut short, damaged or of another form")
}

/// Sends a state.
pub(crate) fn save(
    state: Option<&dyn MovableState>,
    device: &Device,
    queues: &[Queue],
    mut pipe: Pipe,
) -> io::Result<()> {
    // A record has at least one queue. If no queue was ever used, there are no options either.
    let record = if queues.is_empty() { Vec::new() } else { device.save(queues)? };
    #[allow(clippy::cast_possible_truncation, reason = "a record has at most 64 queues")]
    let mut bytes = [MARK, &(record.len() as u32).to_le_bytes()[..], &record].concat();
    state.unwrap_or(&Stays).save(&mut bytes)?;
    pipe.write_all(&bytes)?;
    pipe.write_all(&sum(&bytes))
}

/// The record of a state, and the file system's bytes: `None` unless it is whole.
fn split(bytes: &[u8]) -> Option<(&[u8], &[u8])> {
    let (summed, theirs) = bytes.split_last_chunk::<8>()?;
    if sum(summed) != *theirs {
        return None;
    }
    let (len, rest) = summed.strip_prefix(MARK)?.split_first_chunk::<4>()?;
    rest.split_at_checked(u32::from_le_bytes(*len) as usize)
}

/// Receives a state.
pub(crate) fn load(
    state: Option<&dyn MovableState>,
    device: &Device,
    pipe: Pipe,
) -> io::Result<()> {
    let mut bytes = Vec::new();
    if pipe.take(STATE_MAX + 1).read_to_end(&mut bytes)? as u64 > STATE_MAX {
        return Err(io::Error::other("the state is longer than any"));
    }
    let (record, mut theirs) = split(&bytes).ok_or_else(damaged)?;
    state.unwrap_or(&Stays).load(&mut theirs)?;
    device.set_options(Options::empty());
    // The front-end sets positions with SET_VRING_BASE, so those of the record aren't used.
    if !record.is_empty() {
        device.restore(record)?;
    }
    Ok(())
}

#[cfg(test)]
mod tests {
    use super::*;
    use crate::pipe::scratch;
    use pitskhomu::QueueLayout;
    use std::fs::File;
    use std::io::Seek;
    use std::sync::Mutex;

    struct Text(Mutex<Vec<u8>>);

    impl MovableState for Text {
        fn save(&self, to: &mut dyn Write) -> io::Result<()> {
            to.write_all(&self.0.lock().unwrap())
        }
        fn load(&self, from: &mut dyn Read) -> io::Result<()> {
            let mut bytes = Vec::new();
            from.read_to_end(&mut bytes)?;
            *self.0.lock().unwrap() = bytes;
            Ok(())
        }
    }

    fn sent(text: &[u8], queues: &[Queue]) -> Vec<u8> {
        let (mut file, text) = (scratch().unwrap(), Text(Mutex::new(text.to_vec())));
        let pipe = Pipe::out(file.try_clone().unwrap()).unwrap();
        save(Some(&text), &Device::default(), queues, pipe).unwrap();
        let mut bytes = Vec::new();
        file.rewind().unwrap();
        file.read_to_end(&mut bytes).unwrap();
        bytes
    }

    fn pipe(bytes: &[u8]) -> Pipe {
        let mut file: File = scratch().unwrap();
        file.write_all(bytes).unwrap();
        file.rewind().unwrap();
        Pipe::into(file).unwrap()
    }

    #[test]
    fn a_state_arrives_whole_or_not_at_all() {
        let layout =
            QueueLayout { size: 64, descriptors: 0x1_0000, available: 0x1_1000, used: 0x1_2000 };
        for queues in [vec![], vec![Queue::new(layout, 7).unwrap()]] {
            let (bytes, device) = (sent(b"two files", &queues), Device::default());
            let target = Text(Mutex::default());
            load(Some(&target), &device, pipe(&bytes)).unwrap();
            assert_eq!(*target.0.lock().unwrap(), b"two files");
            for at in 0..bytes.len() {
                let mut turned = bytes.clone();
                turned[at] ^= 0x10;
                for wrong in [&bytes[..at], &turned, &[&bytes[..=at], &bytes[at..]].concat()] {
                    let target = Text(Mutex::default());
                    assert!(load(Some(&target), &device, pipe(wrong)).is_err(), "{at}");
                    assert_eq!(*target.0.lock().unwrap(), b"");
                }
            }
        }
    }

    #[test]
    fn a_state_that_stays_is_refused() {
        let none = Pipe::out(scratch().unwrap()).unwrap();
        assert!(save(None, &Device::default(), &[], none).is_err());
        assert!(load(None, &Device::default(), pipe(&sent(b"", &[]))).is_err());
    }

    /// By `openssl mac -macopt size:8 -macopt hexkey:00000000000000000000000000000000 SIPHASH`.
    #[test]
    fn the_sum_is_siphash_2_4() {
        assert_eq!(sum(b""), [0xd7, 0x00, 0x77, 0x73, 0x9d, 0x4b, 0x92, 0x1e]);
        assert_eq!(sum(b"pitskhomu"), [0x41, 0xa7, 0x83, 0xc4, 0xb5, 0x5b, 0xda, 0x7d]);
    }
}
