//! Bytes and descriptors over the socket between two daemons.
use std::io::{self, IoSlice, IoSliceMut};
use std::mem::{size_of, zeroed};
use std::os::fd::{FromRawFd, OwnedFd, RawFd};
use std::ptr;

/// The most descriptors of a message.
pub const MOST: usize = 8;

/// Space for the ancillary data of a message, with the alignment that it needs.
#[repr(C, align(8))]
struct Ancillary([u8; 256]);

/// Sends a message of these bytes and descriptors. The socket has space for it: its other end
/// answers each message. So a send that would have to wait is an error.
pub fn send(socket: RawFd, bytes: &[u8], fds: &[RawFd]) -> io::Result<()> {
    if fds.len() > MOST {
        return Err(io::ErrorKind::InvalidInput.into());
    }
    let (mut ancillary, part) = (Ancillary([0; 256]), IoSlice::new(bytes));
    #[allow(clippy::cast_possible_truncation, reason = "it is 32 at most")]
    let len = size_of_val(fds) as u32;
    // SAFETY: zeros are an empty message.
    let mut message: libc::msghdr = unsafe { zeroed() };
    message.msg_iov = ptr::from_ref(&part).cast_mut().cast();
    message.msg_iovlen = 1;
    if !fds.is_empty() {
        message.msg_control = ancillary.0.as_mut_ptr().cast();
        // SAFETY: the ancillary data has space for the descriptors.
        unsafe {
            message.msg_controllen = libc::CMSG_SPACE(len) as _;
            let head = libc::CMSG_FIRSTHDR(&raw const message);
            ((*head).cmsg_level, (*head).cmsg_type) = (libc::SOL_SOCKET, libc::SCM_RIGHTS);
            (*head).cmsg_len = libc::CMSG_LEN(len) as _;
            let data = libc::CMSG_DATA(head);
            for (k, fd) in fds.iter().enumerate() {
                data.add(k * size_of::<RawFd>()).cast::<RawFd>().write_unaligned(*fd);
            }
        }
    }
    let how = libc::MSG_NOSIGNAL | libc::MSG_DONTWAIT;
    // SAFETY: an IoSlice is laid out as iovec is. The bytes and the ancillary data are borrowed.
    let sent = unsafe { libc::sendmsg(socket, &raw const message, how) };
    match usize::try_from(sent) {
        Ok(sent) if sent == bytes.len() => Ok(()),
        Ok(_) => Err(io::Error::other("only a part of a message was sent")),
        Err(_) => Err(io::Error::last_os_error()),
    }
}

/// The result of `receive`.
#[derive(Debug)]
pub struct Received {
    /// The number of bytes: 0 at the end of the connection.
    pub len: usize,
    /// The descriptors that came with them.
    pub fds: Vec<OwnedFd>,
    /// The sender's user, if the socket passes credentials (`SO_PASSCRED`).
    pub user: Option<u32>,
}

/// Receives bytes, and the descriptors that come with them.
pub fn receive(socket: RawFd, bytes: &mut [u8], how: i32) -> io::Result<Received> {
    let (mut ancillary, mut part) = (Ancillary([0; 256]), IoSliceMut::new(bytes));
    // SAFETY: zeros are an empty message.
    let mut message: libc::msghdr = unsafe { zeroed() };
    message.msg_iov = ptr::from_mut(&mut part).cast();
    message.msg_iovlen = 1;
    message.msg_control = ancillary.0.as_mut_ptr().cast();
    message.msg_controllen = ancillary.0.len() as _;
    let how = how | libc::MSG_CMSG_CLOEXEC;
    // SAFETY: an IoSliceMut is laid out as iovec is. The bytes and the ancillary data are borrowed
    // mutably.
    let len = unsafe { libc::recvmsg(socket, &raw mut message, how) };
    let len = usize::try_from(len).map_err(|_| io::Error::last_os_error())?;
    let (mut fds, mut user) = (Vec::new(), None);
    // SAFETY: the kernel has filled the message, whose ancillary data lies in the array.
    unsafe {
        let mut head = libc::CMSG_FIRSTHDR(&raw const message);
        while let Some(this) = head.as_ref() {
            take_ancillary(this, &mut fds, &mut user);
            head = libc::CMSG_NXTHDR(&raw const message, this);
        }
    }
    Ok(Received { len, fds, user })
}

/// Takes the descriptors or the credentials of one part of the ancillary data.
///
/// # Safety
/// The kernel has filled this part.
unsafe fn take_ancillary(head: &libc::cmsghdr, fds: &mut Vec<OwnedFd>, user: &mut Option<u32>) {
    // SAFETY: no memory is touched.
    let len = head.cmsg_len - unsafe { libc::CMSG_LEN(0) } as usize;
    // SAFETY: the data follows the head.
    let data = unsafe { libc::CMSG_DATA(head) };
    match (head.cmsg_level, head.cmsg_type) {
        (libc::SOL_SOCKET, libc::SCM_RIGHTS) => {
            for k in 0..len / size_of::<RawFd>() {
                // SAFETY: the part has so many descriptors. They are new, and nothing else owns
                // them.
                fds.push(unsafe {
                    OwnedFd::from_raw_fd(
                        data.add(k * size_of::<RawFd>()).cast::<RawFd>().read_unaligned(),
                    )
                });
            }
        }
        (libc::SOL_SOCKET, libc::SCM_CREDENTIALS) if len >= size_of::<libc::ucred>() => {
            // SAFETY: the part has the credentials.
            *user = Some(unsafe { data.cast::<libc::ucred>().read_unaligned() }.uid);
        }
        _ => {}
    }
}

#[cfg(test)]
mod tests {
    use super::*;
    use std::fs::File;
    use std::io::{Read, Write};
    use std::os::fd::AsRawFd;
    use std::os::unix::net::UnixStream;

    #[test]
    fn descriptors_and_credentials_arrive_with_their_bytes() {
        let (ours, theirs) = UnixStream::pair().expect("sockets");
        let on: libc::c_int = 1;
        // SAFETY: the value is borrowed.
        let set = unsafe {
            libc::setsockopt(
                ours.as_raw_fd(),
                libc::SOL_SOCKET,
                libc::SO_PASSCRED,
                ptr::from_ref(&on).cast(),
                4,
            )
        };
        assert_eq!(set, 0);
        let (reader, mut writer) = UnixStream::pair().expect("sockets");
        send(theirs.as_raw_fd(), b"abc", &[reader.as_raw_fd(); MOST]).expect("sent");
        assert!(send(theirs.as_raw_fd(), b"abc", &[0; MOST + 1]).is_err());
        let mut bytes = [0; 8];
        let received = receive(ours.as_raw_fd(), &mut bytes, 0).expect("a message");
        // SAFETY: no memory is touched.
        assert_eq!(received.user, Some(unsafe { libc::getuid() }));
        assert_eq!((received.len, &bytes[..3], received.fds.len()), (3, &b"abc"[..], MOST));
        drop(reader);
        writer.write_all(b"x").expect("written");
        let last = received.fds.into_iter().next_back().expect("a descriptor");
        let mut byte = [0];
        File::from(last).read_exact(&mut byte).expect("the same socket");
        assert_eq!(byte, *b"x");
        drop(theirs);
        assert_eq!(receive(ours.as_raw_fd(), &mut bytes, 0).expect("the end").len, 0);
    }

    #[test]
    fn nothing_waits_for_space() {
        let (ours, _theirs) = UnixStream::pair().expect("sockets");
        let e = loop {
            if let Err(e) = send(ours.as_raw_fd(), &[0; 4096], &[]) {
                break e;
            }
        };
        assert_eq!(e.kind(), io::ErrorKind::WouldBlock);
    }
}
