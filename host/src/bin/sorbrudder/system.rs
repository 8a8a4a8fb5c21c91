//! What the standard library does not ask the system for: locks, extended attributes, and two names exchanged at once. All unsafe code of
//! the command is here.

use std::ffi::{CString, c_int};
use std::fs::File;
use std::io;
use std::os::fd::AsRawFd as _;
use std::path::Path;

unsafe extern "C" {
    /// Takes numbers only, so that no call is unsafe.
    safe fn flock(file: c_int, operation: c_int) -> c_int;
}

/// `LOCK_EX | LOCK_NB`, the same on Linux, the BSDs and macOS.
const LOCK_AT_ONCE: c_int = 2 | 4;

/// Takes the one lock of a file, which is held until the file is closed; false where another program holds it.
pub fn try_lock(file: &File) -> io::Result<bool> {
    loop {
        if flock(file.as_raw_fd(), LOCK_AT_ONCE) == 0 {
            return Ok(true);
        }
        let why = io::Error::last_os_error();
        match why.kind() {
            io::ErrorKind::WouldBlock => return Ok(false),
            io::ErrorKind::Interrupted => {}
            _ => return Err(why),
        }
    }
}

/// A name of an extended attribute, and its value.
pub type Attribute = (CString, Vec<u8>);

#[cfg(target_os = "linux")]
mod linux {
    use super::{Attribute, File, Path, io};
    use std::ffi::{CStr, CString, c_char, c_int, c_void};
    use std::os::fd::AsRawFd as _;

    unsafe extern "C" {
        fn flistxattr(file: c_int, names: *mut c_char, size: usize) -> isize;
        fn fgetxattr(file: c_int, name: *const c_char, value: *mut c_void, size: usize) -> isize;
        fn fsetxattr(
            file: c_int,
            name: *const c_char,
            value: *const c_void,
            size: usize,
            flags: c_int,
        ) -> c_int;
    }

    /// The most bytes of an attribute, and of all their names.
    const MOST: usize = 1 << 16;

    /// What a call put into a buffer of that size.
    fn filled(fill: impl FnOnce(*mut u8, usize) -> isize) -> io::Result<Vec<u8>> {
        let mut bytes = vec![0; MOST];
        let len = fill(bytes.as_mut_ptr(), bytes.len());
        bytes.truncate(usize::try_from(len).map_err(|_| io::Error::last_os_error())?);
        Ok(bytes)
    }

    pub fn attributes(file: &File) -> io::Result<Vec<Attribute>> {
        let number = file.as_raw_fd();
        // SAFETY: the buffer is as long as is said.
        let names = filled(|to, size| unsafe { flistxattr(number, to.cast(), size) });
        let names = match names {
            Err(why) if why.kind() == io::ErrorKind::Unsupported => return Ok(Vec::new()),
            names => names?,
        };
        let names = names.split_inclusive(|byte| *byte == 0);
        let names = names.filter_map(|name| CStr::from_bytes_with_nul(name).ok());
        let attribute = |name: &CStr| {
            let value = attribute(file, name)?;
            Ok((name.to_owned(), value))
        };
        names.map(attribute).collect()
    }

    pub fn attribute(file: &File, name: &CStr) -> io::Result<Vec<u8>> {
        let number = file.as_raw_fd();
        // SAFETY: the name ends with a zero, and the buffer is as long as is said.
        filled(|to, size| unsafe { fgetxattr(number, name.as_ptr(), to.cast(), size) })
    }

    pub fn set_attribute(file: &File, name: &CStr, value: &[u8]) -> io::Result<()> {
        let (from, size) = (value.as_ptr().cast(), value.len());
        // SAFETY: the name ends with a zero, and the value is as long as is said.
        let set = unsafe { fsetxattr(file.as_raw_fd(), name.as_ptr(), from, size, 0) };
        match set {
            0 => Ok(()),
            _ => Err(io::Error::last_os_error()),
        }
    }

    #[cfg(target_env = "gnu")]
    pub fn exchange(one: &Path, other: &Path) -> io::Result<()> {
        use std::os::unix::ffi::OsStrExt as _;
        unsafe extern "C" {
            fn renameat2(
                from_folder: c_int,
                from: *const c_char,
                to_folder: c_int,
                to: *const c_char,
                flags: u32,
            ) -> c_int;
        }
        const HERE: c_int = -100;
        const EXCHANGE: u32 = 2;
        let [one, other] = [one, other].map(|path| CString::new(path.as_os_str().as_bytes()));
        let (one, other) = (one?, other?);
        // SAFETY: both names end with a zero.
        let renamed = unsafe { renameat2(HERE, one.as_ptr(), HERE, other.as_ptr(), EXCHANGE) };
        match renamed {
            0 => Ok(()),
            _ => Err(io::Error::last_os_error()),
        }
    }

    #[cfg(not(target_env = "gnu"))]
    pub fn exchange(_: &Path, _: &Path) -> io::Result<()> {
        Err(io::ErrorKind::Unsupported.into())
    }
}

#[cfg(not(target_os = "linux"))]
mod linux {
    use super::{Attribute, File, Path, io};
    use std::ffi::CStr;

    pub fn attributes(_: &File) -> io::Result<Vec<Attribute>> {
        Ok(Vec::new())
    }

    pub fn attribute(_: &File, _: &CStr) -> io::Result<Vec<u8>> {
        Err(io::ErrorKind::Unsupported.into())
    }

    pub fn set_attribute(_: &File, _: &CStr, _: &[u8]) -> io::Result<()> {
        Err(io::ErrorKind::Unsupported.into())
    }

    pub fn exchange(_: &Path, _: &Path) -> io::Result<()> {
        Err(io::ErrorKind::Unsupported.into())
    }
}

/// The extended attributes of a file: access lists, labels, and a user's own. `exchange` gives each of two names the other's file, at once.
pub use linux::{attribute, attributes, exchange, set_attribute};
