//! Requests to the system about an open file.

use std::ffi::{c_int, c_ulong};
use std::io::{self, Error};
use std::os::fd::AsRawFd;

extern "C" {
    fn ioctl(file: c_int, request: c_ulong, ...) -> c_int;
}

/// Makes a request that takes one number or answers one; the number as it is then.
pub fn request(file: &impl AsRawFd, request: c_ulong, number: c_int) -> io::Result<c_int> {
    let mut number = number;
    // The number outlives the call, and no request that is made here touches more.
    match unsafe { ioctl(file.as_raw_fd(), request, &mut number) } {
        0 => Ok(number),
        _ => Err(Error::last_os_error()),
    }
}
