//! Datagrams with the user who has sent them, as the kernel knows him.

use super::{PeerUser, SOL_SOCKET, checked};
use std::ffi::{c_int, c_void};
use std::io;
use std::os::fd::AsRawFd;
use std::os::unix::net::UnixDatagram;

const SO_PASSCRED: c_int = 16;
const SCM_CREDENTIALS: c_int = 2;

#[repr(C)]
struct Piece {
    at: *mut c_void,
    length: usize,
}

#[repr(C)]
struct Message {
    name: *mut c_void,
    name_length: u32,
    pieces: *mut Piece,
    count: usize,
    control: *mut c_void,
    control_length: usize,
    flags: c_int,
}

/// The head of what comes beside a message, and the user behind it.
#[repr(C)]
struct Beside {
    length: usize,
    level: c_int,
    kind: c_int,
    user: PeerUser,
}

unsafe extern "C" {
    fn setsockopt(fd: c_int, level: c_int, name: c_int, value: *const c_void, length: u32) -> c_int;
    fn recvmsg(fd: c_int, message: *mut Message, flags: c_int) -> isize;
}

/// Each datagram that comes tells its user.
pub fn pass_credentials(socket: &UnixDatagram) -> io::Result<()> {
    let on: c_int = 1;
    // SAFETY: the length is that of the value.
    checked(unsafe {
        setsockopt(socket.as_raw_fd(), SOL_SOCKET, SO_PASSCRED, (&raw const on).cast(), size_of::<c_int>() as u32)
    })
    .map(drop)
}

/// Reads a datagram: how long it is, and which user has sent it. Descriptors that come with it are closed by the kernel, as there is
/// no room for them.
pub fn receive(socket: &UnixDatagram, room: &mut [u8]) -> io::Result<(usize, Option<u32>)> {
    let mut piece = Piece { at: room.as_mut_ptr().cast(), length: room.len() };
    let mut beside = Beside { length: 0, level: 0, kind: 0, user: PeerUser { pid: 0, uid: u32::MAX, gid: u32::MAX } };
    let mut message = Message {
        name: std::ptr::null_mut(),
        name_length: 0,
        pieces: &raw mut piece,
        count: 1,
        control: (&raw mut beside).cast(),
        control_length: size_of::<Beside>(),
        flags: 0,
    };
    // SAFETY: the message names one piece of memory and the room beside it, each with its length; both live until the call is over.
    let count = unsafe { recvmsg(socket.as_raw_fd(), &raw mut message, 0) };
    let count = usize::try_from(count).map_err(|_| io::Error::last_os_error())?;
    let has_user = message.control_length > 0 && (beside.level, beside.kind) == (SOL_SOCKET, SCM_CREDENTIALS);
    Ok((count, has_user.then_some(beside.user.uid)))
}

#[cfg(test)]
mod tests {
    use super::*;

    #[test]
    fn a_datagram_has_its_user() {
        let (one, other) = UnixDatagram::pair().unwrap();
        pass_credentials(&other).unwrap();
        one.send(b"READY=1").unwrap();
        let mut room = [0; 100];
        assert_eq!(receive(&other, &mut room).unwrap(), (7, Some(super::super::own_user())));
        assert_eq!(&room[..7], b"READY=1");
    }
}
