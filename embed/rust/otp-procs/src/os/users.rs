//! Users and groups, as the system's own lookup has them (files, or whatever else it asks).

use std::ffi::{CStr, CString, c_char, c_int};
use std::io;

/// A user.
#[derive(Clone, Debug, PartialEq, Eq)]
pub struct User {
    /// The name.
    pub name: String,
    /// The number.
    pub uid: u32,
    /// The number of its own group.
    pub gid: u32,
    /// Its home.
    pub home: String,
    /// Its shell.
    pub shell: String,
}

#[repr(C)]
struct Passwd {
    name: *const c_char,
    password: *const c_char,
    uid: u32,
    gid: u32,
    about: *const c_char,
    home: *const c_char,
    shell: *const c_char,
}

#[repr(C)]
struct Group {
    name: *const c_char,
    password: *const c_char,
    gid: u32,
    members: *const *const c_char,
}

unsafe extern "C" {
    fn getpwnam_r(
        name: *const c_char,
        into: *mut Passwd,
        room: *mut c_char,
        size: usize,
        found: *mut *mut Passwd,
    ) -> c_int;
    fn getpwuid_r(uid: u32, into: *mut Passwd, room: *mut c_char, size: usize, found: *mut *mut Passwd) -> c_int;
    fn getgrnam_r(
        name: *const c_char,
        into: *mut Group,
        room: *mut c_char,
        size: usize,
        found: *mut *mut Group,
    ) -> c_int;
    fn getgrouplist(user: *const c_char, group: u32, groups: *mut u32, count: *mut c_int) -> c_int;
    fn getegid() -> u32;
}

const ERANGE: c_int = 34;
/// An entry is no longer than this.
const LONGEST: usize = 1 << 20;

/// Asks with more and more room, until the entry has enough.
fn with_room<T>(mut ask: impl FnMut(&mut [c_char]) -> Result<Option<T>, c_int>) -> io::Result<Option<T>> {
    let mut size = 4096;
    loop {
        let mut room: Vec<c_char> = vec![0; size];
        match ask(&mut room) {
            Err(ERANGE) if size < LONGEST => size *= 4,
            Err(error) => return Err(io::Error::from_raw_os_error(error)),
            Ok(found) => return Ok(found),
        }
    }
}

/// # Safety
/// The pointer is null, or that of a text with a NUL at its end.
unsafe fn text_at(at: *const c_char) -> String {
    if at.is_null() {
        return String::new();
    }
    // SAFETY: as the caller says.
    unsafe { CStr::from_ptr(at) }.to_string_lossy().into_owned()
}

fn user_by(mut ask: impl FnMut(*mut Passwd, &mut [c_char], *mut *mut Passwd) -> c_int) -> io::Result<Option<User>> {
    with_room(|room| {
        let nothing = std::ptr::null();
        let mut entry =
            Passwd { name: nothing, password: nothing, uid: 0, gid: 0, about: nothing, home: nothing, shell: nothing };
        let mut found = std::ptr::null_mut();
        match ask(&raw mut entry, room, &raw mut found) {
            0 if found.is_null() => Ok(None),
            // SAFETY: the call has filled the entry, whose texts stand in `room`.
            0 => Ok(Some(unsafe {
                User {
                    name: text_at(entry.name),
                    uid: entry.uid,
                    gid: entry.gid,
                    home: text_at(entry.home),
                    shell: text_at(entry.shell),
                }
            })),
            error => Err(error),
        }
    })
}

/// The user of this name.
pub fn user_named(name: &str) -> io::Result<Option<User>> {
    let Ok(name) = CString::new(name) else { return Ok(None) };
    // SAFETY: the name has an end, and the size is that of the room.
    user_by(|entry, room, found| unsafe { getpwnam_r(name.as_ptr(), entry, room.as_mut_ptr(), room.len(), found) })
}

/// The user of this number.
pub fn user_numbered(uid: u32) -> io::Result<Option<User>> {
    // SAFETY: the size is that of the room.
    user_by(|entry, room, found| unsafe { getpwuid_r(uid, entry, room.as_mut_ptr(), room.len(), found) })
}

/// The number of the group of this name.
pub fn group_named(name: &str) -> io::Result<Option<u32>> {
    let Ok(name) = CString::new(name) else { return Ok(None) };
    with_room(|room| {
        let mut entry = Group { name: std::ptr::null(), password: std::ptr::null(), gid: 0, members: std::ptr::null() };
        let mut found = std::ptr::null_mut();
        // SAFETY: the name has an end, and the size is that of the room.
        match unsafe { getgrnam_r(name.as_ptr(), &raw mut entry, room.as_mut_ptr(), room.len(), &raw mut found) } {
            0 => Ok((!found.is_null()).then_some(entry.gid)),
            error => Err(error),
        }
    })
}

/// The groups that a user is in, and this one.
pub fn groups_of(user: &str, group: u32) -> Vec<u32> {
    let Ok(name) = CString::new(user) else { return vec![group] };
    let mut groups = vec![0; 64];
    loop {
        let mut count = groups.len() as c_int;
        // SAFETY: the name has an end, and the count is that of `groups`.
        if unsafe { getgrouplist(name.as_ptr(), group, groups.as_mut_ptr(), &raw mut count) } >= 0 {
            groups.truncate(count.max(0) as usize);
            return groups;
        }
        if groups.len() > 65_536 {
            return vec![group];
        }
        groups.resize(groups.len() * 4, 0);
    }
}

/// The group that this process acts as.
pub fn own_group() -> u32 {
    // SAFETY: it has no argument and cannot fail.
    unsafe { getegid() }
}

#[cfg(test)]
mod tests {
    use super::*;

    #[test]
    fn root_is_known_and_nobody_else_of_such_a_name() {
        let root = user_named("root").unwrap().unwrap();
        assert_eq!((root.uid, root.gid, root.name.as_str()), (0, 0, "root"));
        assert_eq!(user_numbered(0).unwrap(), Some(root));
        assert_eq!(group_named("root").unwrap(), Some(0));
        assert!(groups_of("root", 4321).contains(&4321));
        for name in ["no-such-user-here", "", "a\0b"] {
            assert_eq!((user_named(name).unwrap_or(None), group_named(name).unwrap_or(None)), (None, None), "{name}");
        }
        assert_eq!(user_numbered(3_999_999_999).unwrap_or(None), None);
    }
}
