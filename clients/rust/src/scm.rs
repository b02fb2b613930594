//! Descriptors that go with messages (SCM_RIGHTS), for which the standard library has no stable interface.
//!
//! This is the crate's only unsafe code. The structures and numbers are Linux's, as on x86, ARM, RISC-V and POWER.

use std::io;
use std::os::raw::{c_int, c_void};
use std::os::unix::io::{AsRawFd, BorrowedFd, FromRawFd, OwnedFd, RawFd};

const AF_UNIX: c_int = 1;
const SOCK_SEQPACKET: c_int = 5;
const SOCK_CLOEXEC: c_int = 0o2_000_000;
const SOL_SOCKET: c_int = 1;
const SO_TYPE: c_int = 3;
const SCM_RIGHTS: c_int = 1;
const DONTWAIT_NOSIGNAL: c_int = 0x4040;
const MSG_CMSG_CLOEXEC: c_int = 0x4000_0000;

#[repr(C)]
struct Content(*mut u8, usize);

/// A control message of a length, a level and a kind, with one descriptor.
#[repr(C)]
struct Control(usize, c_int, c_int, c_int);

/// The bytes of a control message up to the end of its descriptor (CMSG_LEN).
const CONTROL_LENGTH: usize = std::mem::size_of::<usize>() + 3 * std::mem::size_of::<c_int>();

#[repr(C)]
struct Letter {
    name: *mut c_void,
    name_length: u32,
    content: *mut Content,
    contents: usize,
    control: *mut Control,
    control_length: usize,
    flags: c_int,
}

extern "C" {
    fn socketpair(domain: c_int, kind: c_int, protocol: c_int, pair: *mut c_int) -> c_int;
    fn getsockopt(socket: c_int, level: c_int, option: c_int, value: *mut c_int, length: *mut u32) -> c_int;
    fn sendmsg(socket: c_int, letter: *const Letter, flags: c_int) -> isize;
    fn recvmsg(socket: c_int, letter: *mut Letter, flags: c_int) -> isize;
}

/// Duplicates the descriptor of this number, if it is a socket that keeps packets apart.
pub(crate) fn packet_socket(number: RawFd) -> Option<OwnedFd> {
    let (mut kind, mut length): (c_int, u32) = (0, 4);
    // SAFETY: both pointers are to variables that live longer than the call, and the length is that of the first.
    let done = unsafe { getsockopt(number, SOL_SOCKET, SO_TYPE, &mut kind, &mut length) };
    if done != 0 || kind != SOCK_SEQPACKET {
        return None;
    }
    // SAFETY: the descriptor was open just now. If another thread closes it meanwhile, the duplication fails.
    unsafe { BorrowedFd::borrow_raw(number) }.try_clone_to_owned().ok()
}

/// Makes a pair of such sockets.
pub(crate) fn packet_pair() -> io::Result<(OwnedFd, OwnedFd)> {
    let mut pair = [-1; 2];
    // SAFETY: the pointer is to two numbers, as the call wants. The descriptors that it opens are nobody else's.
    unsafe {
        match socketpair(AF_UNIX, SOCK_SEQPACKET | SOCK_CLOEXEC, 0, pair.as_mut_ptr()) {
            0 => Ok((OwnedFd::from_raw_fd(pair[0]), OwnedFd::from_raw_fd(pair[1]))),
            _ => Err(io::Error::last_os_error()),
        }
    }
}

/// Runs `work` with a letter of one byte and of a control message, which live as long as that runs.
fn with_letter<T>(byte: &mut u8, control: &mut Control, work: impl FnOnce(&mut Letter) -> T) -> T {
    let (mut content, control_length) = (Content(byte, 1), CONTROL_LENGTH);
    let (name, name_length, contents, flags) = (std::ptr::null_mut(), 0, 1, 0);
    work(&mut Letter { name, name_length, content: &mut content, contents, control, control_length, flags })
}

/// Sends one byte with a descriptor. It doesn't wait.
pub(crate) fn send_descriptor(socket: &OwnedFd, sent: &OwnedFd) -> io::Result<()> {
    let mut control = Control(CONTROL_LENGTH, SOL_SOCKET, SCM_RIGHTS, sent.as_raw_fd());
    // SAFETY: the letter has the lengths of what its pointers are to, and both descriptors are open.
    let send = |letter: &mut Letter| unsafe { sendmsg(socket.as_raw_fd(), letter, DONTWAIT_NOSIGNAL) };
    let length = with_letter(&mut 0, &mut control, send);
    (length == 1).then_some(()).ok_or_else(io::Error::last_os_error)
}

/// Receives one byte, and a descriptor if one came with it; `None` at the end.
pub(crate) fn receive_descriptor(socket: &impl AsRawFd) -> io::Result<Option<(u8, Option<OwnedFd>)>> {
    let (mut byte, mut control) = (0, Control(0, 0, 0, -1));
    // SAFETY: as above.
    let receive = |letter: &mut Letter| unsafe { recvmsg(socket.as_raw_fd(), letter, MSG_CMSG_CLOEXEC) };
    let length = with_letter(&mut byte, &mut control, receive);
    let is_given = (control.0, control.1, control.2) == (CONTROL_LENGTH, SOL_SOCKET, SCM_RIGHTS);
    // SAFETY: the system opened the descriptor for this process when it wrote the control message.
    let given = is_given.then(|| unsafe { OwnedFd::from_raw_fd(control.3) });
    match length {
        1 => Ok(Some((byte, given))),
        0 => Ok(None),
        _ => Err(io::Error::last_os_error()),
    }
}
