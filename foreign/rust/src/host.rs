//! The host's calls that the standard library doesn't have: sockets of packets that carry files, and futexes.
//! The numbers are Linux's on x86-64. A test compares them with the host's headers.

use std::env;
use std::ffi::{CString, OsStr, OsString, c_char, c_int, c_long, c_ulong, c_void};
use std::io::{Error, ErrorKind, Result};
use std::mem::MaybeUninit;
use std::os::fd::{AsRawFd, FromRawFd, OwnedFd};
use std::os::unix::ffi::OsStrExt;
use std::path::Path;
use std::ptr;

pub(crate) const AF_UNIX: c_int = 1;
pub(crate) const SOCK_SEQPACKET: c_int = 5;
pub(crate) const SOCK_CLOEXEC: c_int = 0o2_000_000;
pub(crate) const SOL_SOCKET: c_int = 1;
pub(crate) const SO_PEERCRED: c_int = 17;
pub(crate) const SCM_RIGHTS: c_int = 1;
pub(crate) const SHUT_RDWR: c_int = 2;
pub(crate) const MSG_PEEK: c_int = 2;
pub(crate) const MSG_DONTWAIT: c_int = 0x40;
pub(crate) const MSG_NOSIGNAL: c_int = 0x4000;
pub(crate) const MSG_CMSG_CLOEXEC: c_int = 0x4000_0000;
pub(crate) const PROT_READ: c_int = 1;
pub(crate) const PROT_WRITE: c_int = 2;
pub(crate) const MAP_SHARED: c_int = 1;
pub(crate) const MADV_DONTFORK: c_int = 10;
pub(crate) const FUTEX_WAIT: c_int = 0;
pub(crate) const AT_SECURE: c_ulong = 23;
pub(crate) const SYS_GETTID: c_long = 186;
pub(crate) const SYS_FUTEX: c_long = 202;

pub(crate) const ENOENT: i32 = 2;
pub(crate) const ESRCH: i32 = 3;
pub(crate) const EINTR: i32 = 4;
pub(crate) const EBADF: i32 = 9;
pub(crate) const EAGAIN: i32 = 11;
pub(crate) const ENOMEM: i32 = 12;
pub(crate) const EBUSY: i32 = 16;
pub(crate) const EEXIST: i32 = 17;
pub(crate) const EOVERFLOW: i32 = 75;
pub(crate) const ESHUTDOWN: i32 = 108;
pub(crate) const ETIMEDOUT: i32 = 110;

/// `struct sockaddr_un`.
#[repr(C)]
pub(crate) struct Address {
    pub(crate) sun_family: u16,
    pub(crate) sun_path: [u8; 108],
}

/// `struct iovec`.
#[repr(C)]
pub(crate) struct Part {
    pub(crate) iov_base: *mut c_void,
    pub(crate) iov_len: usize,
}

/// `struct msghdr`.
#[repr(C)]
pub(crate) struct Packet {
    pub(crate) msg_name: *mut c_void,
    pub(crate) msg_namelen: u32,
    pub(crate) msg_iov: *mut Part,
    pub(crate) msg_iovlen: usize,
    pub(crate) msg_control: *mut c_void,
    pub(crate) msg_controllen: usize,
    pub(crate) msg_flags: c_int,
}

/// `struct cmsghdr`, followed by two files.
#[repr(C)]
#[derive(Default)]
pub(crate) struct Rights {
    pub(crate) cmsg_len: usize,
    pub(crate) cmsg_level: c_int,
    pub(crate) cmsg_type: c_int,
    pub(crate) files: [c_int; 2],
}

/// `struct ucred`.
#[repr(C)]
#[derive(Default)]
pub(crate) struct Peer {
    pub(crate) pid: i32,
    pub(crate) uid: u32,
    pub(crate) gid: u32,
}

/// `struct passwd`.
#[repr(C)]
pub(crate) struct User {
    pub(crate) pw_name: *mut c_char,
    pub(crate) pw_passwd: *mut c_char,
    pub(crate) pw_uid: u32,
    pub(crate) pw_gid: u32,
    pub(crate) pw_gecos: *mut c_char,
    pub(crate) pw_dir: *mut c_char,
    pub(crate) pw_shell: *mut c_char,
}

impl Rights {
    /// Returns the two files if the packet carried them.
    pub(crate) fn files(&self) -> Option<[c_int; 2]> {
        let has_come =
            self.cmsg_len == size_of::<Rights>() && self.cmsg_level == SOL_SOCKET && self.cmsg_type == SCM_RIGHTS;
        has_come.then_some(self.files)
    }
}

unsafe extern "C" {
    fn socket(domain: c_int, kind: c_int, protocol: c_int) -> c_int;
    fn getsockopt(fd: c_int, level: c_int, option: c_int, value: *mut c_void, length: *mut u32) -> c_int;
    fn getauxval(kind: c_ulong) -> c_ulong;
    fn geteuid() -> u32;
    fn getpwnam_r(
        name: *const c_char,
        user: *mut User,
        room: *mut c_char,
        length: usize,
        found: *mut *mut User,
    ) -> c_int;
    fn connect(fd: c_int, address: *const Address, length: u32) -> c_int;
    pub(crate) fn shutdown(fd: c_int, how: c_int) -> c_int;
    pub(crate) fn send(fd: c_int, bytes: *const c_void, length: usize, flags: c_int) -> isize;
    pub(crate) fn recv(fd: c_int, bytes: *mut c_void, length: usize, flags: c_int) -> isize;
    pub(crate) fn recvmsg(fd: c_int, packet: *mut Packet, flags: c_int) -> isize;
    pub(crate) fn mmap(
        at: *mut c_void,
        length: usize,
        access: c_int,
        flags: c_int,
        fd: c_int,
        offset: i64,
    ) -> *mut c_void;
    pub(crate) fn munmap(at: *mut c_void, length: usize) -> c_int;
    pub(crate) fn madvise(at: *mut c_void, length: usize, advice: c_int) -> c_int;
    pub(crate) fn syscall(number: c_long, ...) -> c_long;
}

/// Makes a call of the host, and makes it again each time a signal interrupts it. The call returns -1 if it
/// fails.
pub(crate) fn uninterrupted(mut call: impl FnMut() -> isize) -> Result<usize> {
    loop {
        if let Ok(result) = usize::try_from(call()) {
            return Ok(result);
        }
        let error = Error::last_os_error();
        if error.kind() != ErrorKind::Interrupted {
            return Err(error);
        }
    }
}

/// Connects a socket of packets to a path.
pub(crate) fn connect_to(path: &Path) -> Result<OwnedFd> {
    let mut address = Address { sun_family: AF_UNIX as u16, sun_path: [0; 108] };
    let bytes = path.as_os_str().as_bytes();
    if bytes.len() >= address.sun_path.len() {
        return Err(ErrorKind::InvalidInput.into());
    }
    address.sun_path[..bytes.len()].copy_from_slice(bytes);
    // SAFETY: the call takes only numbers.
    let fd = unsafe { socket(AF_UNIX, SOCK_SEQPACKET | SOCK_CLOEXEC, 0) };
    if fd == -1 {
        return Err(Error::last_os_error());
    }
    // SAFETY: the file was opened here, and nothing else owns it.
    let owned = unsafe { OwnedFd::from_raw_fd(fd) };
    // SAFETY: the address has the length that is passed.
    uninterrupted(|| unsafe { connect(owned.as_raw_fd(), &address, size_of::<Address>() as u32) } as isize)?;
    Ok(owned)
}

/// Returns the effective user of this program.
pub(crate) fn own_user() -> u32 {
    // SAFETY: the function has no parameters.
    unsafe { geteuid() }
}

/// Returns the user of the program that made the other end of a socket.
pub(crate) fn user_of(socket: &OwnedFd) -> Result<u32> {
    let (mut peer, mut length) = (Peer::default(), size_of::<Peer>() as u32);
    let value = (&raw mut peer).cast();
    // SAFETY: `value` has room for a peer, and `length` is the peer's size.
    if unsafe { getsockopt(socket.as_raw_fd(), SOL_SOCKET, SO_PEERCRED, value, &mut length) } == -1 {
        return Err(Error::last_os_error());
    }
    Ok(peer.uid)
}

/// Returns the user with this name, or with this number in digits.
pub(crate) fn user_named(name: &OsStr) -> Option<u32> {
    if let Some(number) = name.to_str().filter(|text| text.bytes().all(|byte| byte.is_ascii_digit())) {
        return number.parse().ok().filter(|user| *user != u32::MAX);
    }
    let name = CString::new(name.as_bytes()).ok()?;
    let (mut room, mut user, mut found) = (vec![0; 1 << 16], MaybeUninit::uninit(), ptr::null_mut::<User>());
    let at = user.as_mut_ptr();
    // SAFETY:
    // - The name ends with a zero.
    // - The other pointers are places to write to.
    let error = unsafe { getpwnam_r(name.as_ptr(), at, room.as_mut_ptr(), room.len(), &mut found) };
    // SAFETY: if a user was found, it was written, and `found` points to it.
    (error == 0 && !found.is_null()).then(|| unsafe { (*found).pw_uid })
}

/// Returns a variable of the environment if it is set and isn't empty. Returns none if the program has more
/// rights than the user who started it.
pub(crate) fn variable(name: &str) -> Option<OsString> {
    // SAFETY: the function takes only a number.
    let is_secure = unsafe { getauxval(AT_SECURE) } != 0;
    if is_secure { None } else { env::var_os(name).filter(|value| !value.is_empty()) }
}
