//! A file that takes its name when it is complete and stored: until then an older file of that name is unchanged.
//!
//! It is made without a name where the file system can do that (`O_TMPFILE`, open(2)): whatever ends the tool then leaves nothing behind. Elsewhere, and for
//! the moment in which an older file is replaced, it has a hidden name, which signals remove.

use crate::attributes::{Access, Times};
use crate::signals::{held, Hidden};
use std::ffi::CString;
use std::fs::{self, File, OpenOptions};
use std::io::{self, ErrorKind, Write};
use std::os::fd::AsRawFd;
use std::os::raw::{c_char, c_int, c_long, c_uint};
use std::os::unix::ffi::OsStrExt;
use std::os::unix::fs::OpenOptionsExt;
use std::path::{Path, PathBuf};
use std::sync::atomic::{AtomicUsize, Ordering};

// Linux on x86-64
const O_TMPFILE: c_int = 0o20_200_000;
const AT_FDCWD: c_int = -100;
const AT_SYMLINK_FOLLOW: c_int = 0x400;
const EISDIR: i32 = 21;
const EINVAL: i32 = 22;
const ENOSYS: i32 = 38;
const EOPNOTSUPP: i32 = 95;
/// The number of renameat2(2), which not every C library has.
const RENAMEAT2: c_long = 316;
const RENAME_NOREPLACE: c_uint = 1;
const SYNC_FILE_RANGE_WRITE: c_uint = 2;

extern "C" {
    fn linkat(old_folder: c_int, old: *const c_char, new_folder: c_int, new: *const c_char, flags: c_int) -> c_int;
    fn syscall(number: c_long, ...) -> c_long;
    fn sync_file_range(file: c_int, offset: i64, length: i64, flags: c_uint) -> c_int;
}

/// A hidden name, and what has signals remove it.
struct HiddenName {
    path: PathBuf,
    entry: &'static Hidden,
}

pub struct Spool {
    file: File,
    /// Its hidden name, if it has one.
    hidden: Option<HiddenName>,
    target: PathBuf,
    /// Replace a file of that name, also one that appears meanwhile.
    force: bool,
    /// The times that the file gets; None for those of its writing.
    pub times: Option<Times>,
    /// The permissions of what is read and of what is replaced.
    pub access: Vec<Access>,
}

impl Spool {
    pub fn create(target: PathBuf, force: bool, access: Vec<Access>) -> io::Result<Self> {
        let mode = if access.is_empty() { 0o666 } else { 0o600 };
        let (file, hidden) = match nameless(folder(&target), mode)? {
            Some(file) => (file, None),
            None => held(|| under_hidden_name(folder(&target), |path| OpenOptions::new().write(true).create_new(true).mode(mode).open(path)))
                .map(|(file, hidden)| (file, Some(hidden)))?,
        };
        let spool = Spool { file, hidden, target, force, times: None, access };
        Access::give(&spool.access, &spool.file)?;
        Ok(spool)
    }

    /// Writes the bytes, and has the system begin to store them.
    pub fn fill(&mut self, bytes: &[u8]) -> io::Result<()> {
        self.file.write_all(bytes)?;
        // Safety: the file is open. If this fails, `store` does it.
        unsafe { sync_file_range(self.file.as_raw_fd(), 0, 0, SYNC_FILE_RANGE_WRITE) };
        Ok(())
    }

    /// Wait until all is stored, and only then take the name.
    pub fn finish(mut self) -> io::Result<()> {
        self.store()?;
        held(|| self.take_name())?;
        self.sync_folder()
    }

    /// The same for two files that belong together: the first takes its name before the second, and loses it again if the second cannot take its own and
    /// no older file was replaced. The failure says whether the second file caused it.
    pub fn finish_both(mut self, mut second: Spool) -> Result<(), (bool, io::Error)> {
        self.store().map_err(|error| (false, error))?;
        second.store().map_err(|error| (true, error))?;
        held(|| {
            let replaces = fs::symlink_metadata(&self.target).is_ok();
            self.take_name().map_err(|error| (false, error))?;
            let named = self.sync_folder().map_err(|error| (false, error)).and_then(|()| second.take_name().map_err(|error| (true, error)));
            if named.is_err() && !replaces {
                let _ = fs::remove_file(&self.target);
            }
            named
        })?;
        second.sync_folder().map_err(|error| (true, error))
    }

    fn store(&mut self) -> io::Result<()> {
        self.times.map_or(Ok(()), |times| times.set(&self.file))?;
        self.file.sync_all()
    }

    fn sync_folder(&self) -> io::Result<()> {
        // a folder can be writable without being readable
        File::open(folder(&self.target)).map_or(Ok(()), |folder| folder.sync_all())
    }

    /// Without `force` a name in use is refused by the system call that gives the name, so there is no race.
    fn take_name(&mut self) -> io::Result<()> {
        if self.hidden.is_none() {
            match link(&self.file, &self.target) {
                Err(error) if self.force && error.kind() == ErrorKind::AlreadyExists => {}
                done => return done,
            }
            self.hidden = Some(under_hidden_name(folder(&self.target), |path| link(&self.file, path))?.1);
        }
        if let Some(hidden) = &self.hidden {
            match self.force {
                true => fs::rename(&hidden.path, &self.target)?,
                false => rename_new(&hidden.path, &self.target)?,
            }
            hidden.entry.forget();
        }
        self.hidden = None;
        Ok(())
    }
}

impl Drop for Spool {
    fn drop(&mut self) {
        if let Some(hidden) = &self.hidden {
            let _ = fs::remove_file(&hidden.path);
            hidden.entry.forget();
        }
    }
}

fn folder(target: &Path) -> &Path {
    target.parent().filter(|folder| !folder.as_os_str().is_empty()).unwrap_or(Path::new("."))
}

/// A file without a name; None if the file system has no such files.
fn nameless(folder: &Path, mode: u32) -> io::Result<Option<File>> {
    // a name is given through /proc
    if std::env::var_os("CODEBOOK_NAMED").is_some() || !Path::new("/proc/self/fd").exists() {
        return Ok(None);
    }
    match OpenOptions::new().write(true).custom_flags(O_TMPFILE).mode(mode).open(folder) {
        Ok(file) => Ok(Some(file)),
        Err(error) if matches!(error.raw_os_error(), Some(EISDIR | EOPNOTSUPP)) => Ok(None),
        Err(error) => Err(error),
    }
}

/// Make a file under a hidden name that is not in use, and have signals remove it; signals are held meanwhile.
fn under_hidden_name<T>(folder: &Path, make: impl Fn(&Path) -> io::Result<T>) -> io::Result<(T, HiddenName)> {
    /// The next name of this process.
    static NEXT: AtomicUsize = AtomicUsize::new(0);
    let mut tries = 0;
    loop {
        let path = folder.join(format!(".codebook-{}-{}.part", std::process::id(), NEXT.fetch_add(1, Ordering::Relaxed)));
        match make(&path) {
            Ok(made) => return Ok((made, HiddenName { entry: Hidden::remember(&path), path })),
            Err(error) if error.kind() == ErrorKind::AlreadyExists && tries < 100 => tries += 1,
            Err(error) => return Err(error),
        }
    }
}

/// Give a file without a name one that is not in use.
fn link(file: &File, path: &Path) -> io::Result<()> {
    let old = CString::new(format!("/proc/self/fd/{}", file.as_raw_fd()))?;
    let new = CString::new(path.as_os_str().as_bytes())?;
    // Safety: both are strings that end in a zero byte and are only read.
    match unsafe { linkat(AT_FDCWD, old.as_ptr(), AT_FDCWD, new.as_ptr(), AT_SYMLINK_FOLLOW) } {
        0 => Ok(()),
        _ => Err(io::Error::last_os_error()),
    }
}

/// Give a file another name, which must not be in use. File systems without this kind of rename (NFS) can link.
fn rename_new(old: &Path, new: &Path) -> io::Result<()> {
    match rename_unless_used(old, new) {
        Err(error) if matches!(error.raw_os_error(), Some(EINVAL | ENOSYS)) => link_and_remove(old, new),
        done => done,
    }
}

fn rename_unless_used(old: &Path, new: &Path) -> io::Result<()> {
    let (old, new) = (CString::new(old.as_os_str().as_bytes())?, CString::new(new.as_os_str().as_bytes())?);
    // Safety: both are strings that end in a zero byte and are only read.
    match unsafe { syscall(RENAMEAT2, AT_FDCWD, old.as_ptr(), AT_FDCWD, new.as_ptr(), RENAME_NOREPLACE) } {
        0 => Ok(()),
        _ => Err(io::Error::last_os_error()),
    }
}

fn link_and_remove(old: &Path, new: &Path) -> io::Result<()> {
    fs::hard_link(old, new)?;
    // the file has its name; that the old name cannot be removed is no failure
    let _ = fs::remove_file(old);
    Ok(())
}

#[cfg(test)]
mod tests {
    use super::{link_and_remove, rename_new, rename_unless_used};
    use std::fs;
    use std::io::ErrorKind;

    /// Each way of giving a name refuses one that is in use, and leaves one name.
    #[test]
    fn names_that_are_in_use() {
        let folder = std::env::temp_dir().join(format!("codebook-names-{}", std::process::id()));
        fs::create_dir_all(&folder).expect("a folder");
        let (old, used, new) = (folder.join("old"), folder.join("used"), folder.join("new"));
        for give in [rename_new, rename_unless_used, link_and_remove] {
            fs::write(&old, "old").expect("a file");
            fs::write(&used, "used").expect("a file");
            assert_eq!(give(&old, &used).map_err(|error| error.kind()), Err(ErrorKind::AlreadyExists));
            assert_eq!((fs::read(&old).expect("a file"), fs::read(&used).expect("a file")), (b"old".to_vec(), b"used".to_vec()));
            give(&old, &new).expect("a new name");
            assert_eq!((fs::read(&new).expect("a file"), old.exists()), (b"old".to_vec(), false));
            fs::remove_file(&new).expect("a file");
        }
        fs::remove_dir_all(&folder).expect("a folder");
    }
}
