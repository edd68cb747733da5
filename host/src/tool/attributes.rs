//! The attributes that a written file takes from its source: permissions, and with --keep-time the times.

use std::fs::{File, Metadata, Permissions};
use std::io;
use std::os::fd::AsRawFd;
use std::os::raw::c_int;
use std::os::unix::fs::{fchown, MetadataExt, PermissionsExt};

/// Permission bits, and the group that they are for.
#[derive(Clone, Copy, Debug, PartialEq, Eq)]
pub struct Access {
    bits: u32,
    group: u32,
}

impl Access {
    pub fn of(metadata: &Metadata) -> Self {
        Access { bits: metadata.mode() & 0o777, group: metadata.gid() }
    }

    /// The bits for a file of this group. A group other than ours gets only what everybody has.
    fn narrowed(self, group: u32) -> u32 {
        let everybody = (self.bits & 0o007) << 3;
        if self.group == group {
            self.bits
        } else {
            self.bits & !0o070 | self.bits & everybody
        }
    }

    /// Give a new file, made for its owner alone, the permissions that all of these have. It keeps its owner, and takes the group of the first if the
    /// system lets it. A file system without permissions leaves the file as it was made.
    pub fn give(all: &[Access], file: &File) -> io::Result<()> {
        let Some(first) = all.first() else { return Ok(()) };
        let _ = fchown(file, None, Some(first.group));
        let group = file.metadata()?.gid();
        let bits = all.iter().fold(0o777, |bits, access| bits & access.narrowed(group));
        let _ = file.set_permissions(Permissions::from_mode(bits));
        Ok(())
    }
}

/// `struct timespec` of Linux on x86-64.
#[repr(C)]
#[derive(Clone, Copy, Debug)]
struct Time {
    seconds: i64,
    nanoseconds: i64,
}

extern "C" {
    fn futimens(file: c_int, times: *const Time) -> c_int;
}

/// When a file was last read, and last written.
#[derive(Clone, Copy, Debug)]
pub struct Times([Time; 2]);

impl Times {
    pub fn of(metadata: &Metadata) -> Self {
        let read = Time { seconds: metadata.atime(), nanoseconds: metadata.atime_nsec() };
        Times([read, Time { seconds: metadata.mtime(), nanoseconds: metadata.mtime_nsec() }])
    }

    pub fn set(&self, file: &File) -> io::Result<()> {
        // Safety: the call reads two times, and the file is open.
        match unsafe { futimens(file.as_raw_fd(), self.0.as_ptr()) } {
            0 => Ok(()),
            _ => Err(io::Error::last_os_error()),
        }
    }
}

#[cfg(test)]
mod tests {
    use super::Access;

    /// A group that the book's bits are not for gets what everybody has.
    #[test]
    fn other_groups() {
        let narrowed = |bits: u32| (Access { bits, group: 7 }.narrowed(7), Access { bits, group: 7 }.narrowed(8));
        assert_eq!(narrowed(0o640), (0o640, 0o600));
        assert_eq!(narrowed(0o664), (0o664, 0o644));
        assert_eq!((narrowed(0o604), narrowed(0o755), narrowed(0o600)), ((0o604, 0o604), (0o755, 0o755), (0o600, 0o600)));
    }
}
