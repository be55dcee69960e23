//! Messages that crate vhost doesn't know: `VHOST_USER_IOTLB_MSG` of the front-end. This module
//! looks at the next message's head before vhost reads it. Of `SET_BACKEND_REQ_FD`, which vhost
//! knows, it takes only the descriptor, since vhost doesn't give it out.
use super::Iommu;
use crate::memory::Table;
use log::{debug, warn};
use pitskhomu::Access;
use std::io::{self, IoSlice, IoSliceMut};
use std::mem::{size_of, zeroed};
use std::os::fd::{FromRawFd, OwnedFd, RawFd};
use std::ptr;

/// `VHOST_USER_SET_BACKEND_REQ_FD` and `VHOST_USER_IOTLB_MSG`.
const SET_BACKEND_REQ_FD: u32 = 21;
const IOTLB_MSG: u32 = 22;

/// The flags of a message's head.
pub mod flags {
    /// Each message has it.
    pub const VERSION: u32 = 1;
    /// It is a reply.
    pub const REPLY: u32 = 1 << 2;
    /// It is to be acknowledged, by a number.
    pub const NEED_REPLY: u32 = 1 << 3;
}

/// The kinds of struct `vhost_iotlb_msg` (`VHOST_IOTLB_MISS` and so on).
pub const MISS: u8 = 1;
const UPDATE: u8 = 2;
const INVALIDATE: u8 = 3;

/// The bytes of a head.
pub const HEAD_LEN: usize = 12;

/// A message's head (struct `VhostUserHeader`).
#[derive(Debug, Clone, Copy)]
pub struct Head {
    /// Which message it is.
    pub request: u32,
    /// Its flags, without the version.
    pub flags: u32,
    /// How many bytes follow.
    pub size: u32,
}

fn word(bytes: &[u8], at: usize) -> u32 {
    u32::from_ne_bytes([bytes[at], bytes[at + 1], bytes[at + 2], bytes[at + 3]])
}

impl Head {
    /// The head of these bytes, `HEAD_LEN` of them.
    pub fn of(bytes: &[u8]) -> Head {
        Head { request: word(bytes, 0), flags: word(bytes, 4), size: word(bytes, 8) }
    }

    /// The same before a body of so many bytes.
    #[allow(clippy::cast_possible_truncation, reason = "the bodies here are a few bytes long")]
    pub fn with_size(self, size: usize) -> Head {
        Head { size: size as u32, ..self }
    }

    /// Its bytes.
    pub fn bytes(&self) -> [u8; HEAD_LEN] {
        let mut bytes = [0; HEAD_LEN];
        bytes[..4].copy_from_slice(&self.request.to_ne_bytes());
        bytes[4..8].copy_from_slice(&(self.flags | flags::VERSION).to_ne_bytes());
        bytes[8..].copy_from_slice(&self.size.to_ne_bytes());
        bytes
    }
}

/// struct `vhost_iotlb_msg`.
#[derive(Debug, Clone, Copy)]
pub struct IotlbBody {
    /// The first I/O address.
    pub iova: u64,
    /// How many bytes.
    pub size: u64,
    /// The address that it means, as the front-end has it.
    pub user: u64,
    /// What it may be used for, or is needed for.
    pub access: Access,
    /// Which of the messages it is.
    pub kind: u8,
}

impl IotlbBody {
    /// Its bytes, of which the last six say nothing.
    pub const LEN: usize = 32;

    fn of(bytes: &[u8; IotlbBody::LEN]) -> Option<IotlbBody> {
        let number =
            |k: usize| u64::from(word(bytes, 8 * k)) | u64::from(word(bytes, 8 * k + 4)) << 32;
        let access = Access::from_number(bytes[24].into())?;
        let (iova, size, user) = (number(0), number(1), number(2));
        Some(IotlbBody { iova, size, user, access, kind: bytes[25] })
    }

    /// Its bytes.
    pub fn bytes(&self) -> [u8; IotlbBody::LEN] {
        let mut bytes = [0; IotlbBody::LEN];
        bytes[..8].copy_from_slice(&self.iova.to_le_bytes());
        bytes[8..16].copy_from_slice(&self.size.to_le_bytes());
        bytes[16..24].copy_from_slice(&self.user.to_le_bytes());
        bytes[24] = self.access.number().to_le_bytes()[0]; // 3 at most
        bytes[25] = self.kind;
        bytes
    }
}

/// sendmsg: virtiofsd's filter lets no send pass.
pub fn send(socket: RawFd, parts: &[IoSlice<'_>], how: i32) -> io::Result<usize> {
    // SAFETY: zeros are a message without anything.
    let mut message: libc::msghdr = unsafe { zeroed() };
    message.msg_iov = parts.as_ptr().cast_mut().cast();
    message.msg_iovlen = parts.len() as _;
    // SAFETY: an IoSlice is laid out as iovec is, and the parts are borrowed. The kernel only reads
    // them.
    let len = unsafe { libc::sendmsg(socket, &raw const message, how | libc::MSG_NOSIGNAL) };
    usize::try_from(len).map_err(|_| io::Error::last_os_error())
}

/// recvmsg, without descriptors: those that come with the bytes are closed.
pub fn receive(socket: RawFd, parts: &mut [IoSliceMut<'_>], how: i32) -> io::Result<usize> {
    // SAFETY: zeros are a message without anything.
    let mut message: libc::msghdr = unsafe { zeroed() };
    message.msg_iov = parts.as_mut_ptr().cast();
    message.msg_iovlen = parts.len() as _;
    // SAFETY: an IoSliceMut is laid out as iovec is, and the parts are borrowed mutably.
    let len = unsafe { libc::recvmsg(socket, &raw mut message, how | libc::MSG_CMSG_CLOEXEC) };
    usize::try_from(len).map_err(|_| io::Error::last_os_error())
}

/// The bytes of a descriptor in a message.
#[allow(clippy::cast_possible_truncation, reason = "it is 4")]
const FD_LEN: u32 = size_of::<RawFd>() as u32;

/// A copy of the first descriptor that comes with the next message, which stays to be read.
fn peek_descriptor(socket: RawFd) -> Option<OwnedFd> {
    #[repr(C, align(8))]
    struct Control([u8; 64]);
    let (mut byte, mut control) = ([0u8; 1], Control([0; 64]));
    let mut part = IoSliceMut::new(&mut byte);
    // SAFETY: zeros are a message without anything.
    let mut message: libc::msghdr = unsafe { zeroed() };
    message.msg_iov = ptr::from_mut(&mut part).cast();
    message.msg_iovlen = 1;
    message.msg_control = control.0.as_mut_ptr().cast();
    // With CMSG_SPACE a second one would be installed, too, and nobody would close it.
    // SAFETY: no memory is touched.
    message.msg_controllen = unsafe { libc::CMSG_LEN(FD_LEN) } as _;
    let how = libc::MSG_PEEK | libc::MSG_CMSG_CLOEXEC;
    // SAFETY: the parts are borrowed mutably, and the control's space is less than its array.
    if unsafe { libc::recvmsg(socket, &raw mut message, how) } < 1 {
        return None;
    }
    // SAFETY: the kernel has written the message, and its control lies in the array.
    let first = unsafe { libc::CMSG_FIRSTHDR(&raw const message).as_ref() }?;
    // SAFETY: no memory is touched.
    let wanted = unsafe { libc::CMSG_LEN(FD_LEN) };
    if (first.cmsg_level, first.cmsg_type) != (libc::SOL_SOCKET, libc::SCM_RIGHTS)
        || first.cmsg_len as u64 != u64::from(wanted)
    {
        return None;
    }
    // SAFETY: the control has one descriptor, which is new here, and nobody else's.
    Some(unsafe { OwnedFd::from_raw_fd(libc::CMSG_DATA(first).cast::<RawFd>().read_unaligned()) })
}

/// Reads so many bytes.
fn read_all(socket: RawFd, bytes: &mut [u8]) -> io::Result<()> {
    let mut done = 0;
    while done < bytes.len() {
        match receive(socket, &mut [IoSliceMut::new(&mut bytes[done..])], 0) {
            Ok(0) => return Err(io::ErrorKind::UnexpectedEof.into()),
            Ok(len) => done += len,
            Err(e) if e.kind() == io::ErrorKind::Interrupted => {}
            Err(e) => return Err(e),
        }
    }
    Ok(())
}

/// What came of looking at the next message.
#[derive(Debug, PartialEq, Eq)]
pub enum Outcome {
    /// It is crate vhost's.
    Others,
    /// It was answered.
    Answered,
}

impl Iommu {
    /// Does what a message of the IOMMU's says. Why not, if it is refused.
    fn take(&self, memory: &Table, body: &[u8; IotlbBody::LEN]) -> Result<(), &'static str> {
        if !self.is_on() {
            return Err("without VIRTIO_F_ACCESS_PLATFORM");
        }
        let body = IotlbBody::of(body).ok_or("an access that is none")?;
        match body.kind {
            UPDATE => self.update(memory, body.iova, body.size, body.user, body.access),
            INVALIDATE => self.invalidate(body.iova, body.size),
            _ => Err("of a kind that no front-end sends"),
        }
    }
}

/// Looks at the front-end's next message, and answers it if it is the IOMMU's. An error ends the
/// connection.
pub fn answer_next(
    socket: RawFd,
    iommu: &Iommu,
    memory: impl Fn() -> std::sync::Arc<Table>,
) -> io::Result<Outcome> {
    let mut head = [0; HEAD_LEN];
    let peeked = receive(socket, &mut [IoSliceMut::new(&mut head)], libc::MSG_PEEK);
    let head = match peeked {
        Ok(HEAD_LEN) => Head::of(&head),
        _ => return Ok(Outcome::Others), // vhost says what is wrong
    };
    match head.request {
        SET_BACKEND_REQ_FD => {
            if let Some(channel) = peek_descriptor(socket) {
                if let Err(e) = iommu.channel.set(channel) {
                    warn!("the back-end's channel: {e}");
                }
            }
            Ok(Outcome::Others)
        }
        IOTLB_MSG => {
            if head.size as usize != IotlbBody::LEN {
                return Err(io::Error::other("an IOTLB message of another length"));
            }
            let (mut taken, mut body) = ([0; HEAD_LEN], [0; IotlbBody::LEN]);
            read_all(socket, &mut taken)?;
            read_all(socket, &mut body)?;
            let done = iommu.take(&memory(), &body);
            if let Err(why) = done {
                debug!("an IOTLB message is refused: {why}");
            }
            if head.flags & flags::NEED_REPLY != 0 {
                let reply = Head { flags: flags::REPLY, ..head }.with_size(8).bytes();
                let number = u64::from(done.is_err()).to_ne_bytes();
                send(socket, &[IoSlice::new(&reply), IoSlice::new(&number)], 0)?;
            }
            Ok(Outcome::Answered)
        }
        _ => Ok(Outcome::Others),
    }
}

#[cfg(test)]
mod tests {
    use super::*;
    use std::io::Read;
    use std::os::fd::AsRawFd;
    use std::os::unix::net::UnixStream;

    /// Sends a byte with so many descriptors.
    fn send_descriptors(socket: &UnixStream, fds: &[RawFd]) {
        #[repr(C, align(8))]
        struct Control([u8; 64]);
        let mut control = Control([0; 64]);
        let part = IoSlice::new(b"x");
        let len = u32::try_from(size_of_val(fds)).expect("a length");
        // SAFETY: zeros are a message without anything.
        let mut message: libc::msghdr = unsafe { zeroed() };
        message.msg_iov = ptr::from_ref(&part).cast_mut().cast();
        message.msg_iovlen = 1;
        message.msg_control = control.0.as_mut_ptr().cast();
        // SAFETY: the control has room for the descriptors.
        unsafe {
            message.msg_controllen = libc::CMSG_SPACE(len) as _;
            let head = libc::CMSG_FIRSTHDR(&raw const message);
            ((*head).cmsg_level, (*head).cmsg_type) = (libc::SOL_SOCKET, libc::SCM_RIGHTS);
            (*head).cmsg_len = libc::CMSG_LEN(len) as _;
            let data = libc::CMSG_DATA(head).cast::<RawFd>();
            fds.iter().enumerate().for_each(|(k, fd)| data.add(k).write_unaligned(*fd));
            assert_eq!(libc::sendmsg(socket.as_raw_fd(), &raw const message, 0), 1);
        }
    }

    #[test]
    fn one_descriptor_is_peeked_of_several() {
        for count in 1..4 {
            let (ours, theirs) = UnixStream::pair().expect("a channel");
            let (mut reader, writer) = UnixStream::pair().expect("another channel");
            send_descriptors(&theirs, &[writer.as_raw_fd()].repeat(count));
            let peeked = peek_descriptor(ours.as_raw_fd()).expect("a descriptor");
            drop((ours, theirs, writer, peeked));
            // no copy of the other end is left
            reader.set_nonblocking(true).expect("a socket");
            assert_eq!(reader.read(&mut [0]).expect("the end"), 0, "{count}");
        }
    }

    #[test]
    fn a_message_is_its_bytes() {
        let body = IotlbBody {
            iova: 0xffff_f000,
            size: 0x1000,
            user: 0x7f00_1234_5000,
            access: Access::ReadWrite,
            kind: UPDATE,
        };
        let bytes = body.bytes();
        assert_eq!((bytes[24], bytes[25], &bytes[26..]), (3, 2, &[0; 6][..]));
        let read = IotlbBody::of(&bytes).expect("a message");
        assert_eq!((read.iova, read.size, read.user), (body.iova, body.size, body.user));
        assert_eq!((read.access, read.kind), (body.access, body.kind));
        let mut wrong = bytes;
        wrong[24] = 4;
        assert!(IotlbBody::of(&wrong).is_none());
        let head = Head { request: IOTLB_MSG, flags: flags::NEED_REPLY, size: 32 };
        assert_eq!(head.bytes()[..8], [22, 0, 0, 0, 9, 0, 0, 0]);
    }
}
