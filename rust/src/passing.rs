//! Unix file descriptors beside the bytes of a socket.

use std::ffi::{c_int, c_void};
use std::io::{self, ErrorKind, Write};
use std::os::fd::{AsRawFd, FromRawFd, OwnedFd, RawFd};
use std::os::unix::net::UnixStream;

// As the C library has them on Linux, on 64-bit processors: bytes and their number; no name, spans
// and their number, what is beside them and its length, and flags; and of what is beside them its
// length, which counts these 16 bytes, two numbers, and descriptors.
#[repr(C)]
struct Span(*mut c_void, usize);
#[repr(C)]
struct Header([usize; 2], *mut Span, usize, *mut Beside, [usize; 2]);
#[repr(C)]
struct Beside(usize, c_int, c_int, [RawFd; MOST]);

// The most that Linux passes at once.
const MOST: usize = 253;
const SOL_SOCKET: c_int = 1;
const SCM_RIGHTS: c_int = 1;
const MSG_NOSIGNAL: c_int = 0x4000;
const MSG_CMSG_CLOEXEC: c_int = 0x4000_0000;

extern "C" {
    fn sendmsg(socket: c_int, header: *const Header, flags: c_int) -> isize;
    fn recvmsg(socket: c_int, header: *mut Header, flags: c_int) -> isize;
}

/// Sends all of the bytes, which are one at least, and these descriptors beside the first: at most
/// 253, as Linux passes.
///
/// # Errors
///
/// If the socket takes no more, or if there are more descriptors.
pub fn send_with_fds(mut to: &UnixStream, bytes: &[u8], fds: &[OwnedFd]) -> io::Result<()> {
    if fds.is_empty() {
        return to.write_all(bytes);
    }
    let mut beside = Beside(16 + size_of_val(fds), SOL_SOCKET, SCM_RIGHTS, [0; MOST]);
    let places = beside.3.get_mut(..fds.len());
    for (place, fd) in places.ok_or(ErrorKind::InvalidInput)?.iter_mut().zip(fds) {
        *place = fd.as_raw_fd();
    }
    let mut span = Span(bytes.as_ptr().cast_mut().cast(), bytes.len());
    let length = beside.0.next_multiple_of(8);
    let header = Header([0; 2], &raw mut span, 1, &raw mut beside, [length, 0]);
    // SAFETY: the header points to the bytes, which are not written, and to the descriptors.
    let sent = unsafe { sendmsg(to.as_raw_fd(), &raw const header, MSG_NOSIGNAL) };
    let sent = usize::try_from(sent).map_err(|_| io::Error::last_os_error())?;
    to.write_all(&bytes[sent..])
}

/// Receives bytes to the start of `room`, and appends the descriptors that came beside them. Returns
/// how many bytes there are: 0 once the other end is closed.
///
/// # Errors
///
/// Those of the socket.
pub fn receive_with_fds(from: &UnixStream, room: &mut [u8], fds: &mut Vec<OwnedFd>) -> io::Result<usize> {
    let mut beside = Beside(0, 0, 0, [0; MOST]);
    let mut span = Span(room.as_mut_ptr().cast(), room.len());
    let room = [size_of::<Beside>(), 0];
    let mut header = Header([0; 2], &raw mut span, 1, &raw mut beside, room);
    // SAFETY: the header points to room for bytes and for descriptors.
    let count = unsafe { recvmsg(from.as_raw_fd(), &raw mut header, MSG_CMSG_CLOEXEC) };
    let count = usize::try_from(count).map_err(|_| io::Error::last_os_error())?;
    if header.4[0] >= 16 && (beside.1, beside.2) == (SOL_SOCKET, SCM_RIGHTS) {
        let came = beside.3[..(beside.0 - 16) / 4].iter();
        // SAFETY: the system opened these descriptors for this process, which has them here alone.
        fds.extend(came.map(|fd| unsafe { OwnedFd::from_raw_fd(*fd) }));
    }
    Ok(count)
}
