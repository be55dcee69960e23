//! The flags with which the guest's files are opened on the host. virtiofsd changes some at OPEN,
//! and fewer at CREATE. It sends the guest's own to another host, which opens the files with them.
//! So the daemon changes the flags before virtiofsd sees them: in OPEN and CREATE, and in the state
//! of a daemon that didn't do so (`state::inner`).

/// Which of the guest's flags apply on the host.
#[derive(Debug, Clone, Copy, Default)]
pub struct OpenFlags {
    /// `O_DIRECT` applies.
    pub allow_direct_io: bool,
    /// `O_NOATIME` applies.
    pub preserve_noatime: bool,
    /// Files that the guest opens only for writing are opened for reading too. The guest's kernel
    /// reads a page of which it writes a part.
    pub writeback: bool,
}

impl OpenFlags {
    /// The status flags that the host's file must not have. `O_APPEND` is always among them: the
    /// guest's kernel applies it to each write, and a mapped page, or a write after `F_SETFL`, has
    /// an offset of its own.
    fn dropped(self) -> i32 {
        let mut dropped = libc::O_APPEND;
        if !self.allow_direct_io {
            dropped |= libc::O_DIRECT;
        }
        if !self.preserve_noatime {
            dropped |= libc::O_NOATIME;
        }
        dropped
    }

    /// The flags on the host for a file that the guest opens or creates with these flags.
    #[allow(clippy::cast_possible_wrap, clippy::cast_sign_loss, reason = "flags are bits")]
    pub fn for_host(self, flags: u32) -> u32 {
        let flags = flags as i32;
        let is_for_writing = flags & libc::O_ACCMODE == libc::O_WRONLY && flags & libc::O_PATH == 0;
        let access =
            if self.writeback && is_for_writing { libc::O_WRONLY ^ libc::O_RDWR } else { 0 };
        ((flags ^ access) & !self.dropped()) as u32
    }
}

#[cfg(test)]
mod tests {
    use super::*;

    fn flags(flags: i32, set: OpenFlags) -> i32 {
        set.for_host(flags as u32) as i32
    }

    #[test]
    fn flags_of_the_guest_that_do_not_hold() {
        let (usual, all) = (
            OpenFlags::default(),
            OpenFlags { allow_direct_io: true, preserve_noatime: true, writeback: true },
        );
        let asked = libc::O_APPEND
            | libc::O_DIRECT
            | libc::O_NOATIME
            | libc::O_SYNC
            | libc::O_TRUNC
            | libc::O_CREAT;
        for access in [libc::O_RDONLY, libc::O_WRONLY, libc::O_RDWR] {
            assert_eq!(
                flags(asked | access, usual),
                libc::O_SYNC | libc::O_TRUNC | libc::O_CREAT | access
            );
        }
        let kept = asked & !libc::O_APPEND;
        assert_eq!(flags(asked | libc::O_WRONLY, all), kept | libc::O_RDWR);
        assert_eq!(flags(asked | libc::O_RDONLY, all), kept);
        assert_eq!(flags(asked | libc::O_RDWR, all), kept | libc::O_RDWR);
        assert_eq!(flags(libc::O_PATH | libc::O_WRONLY, all), libc::O_PATH | libc::O_WRONLY);
    }
}
