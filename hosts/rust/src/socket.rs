//! Whether a socket has something to receive.
use crate::ffi;
use std::io::{self, ErrorKind};
use std::os::unix::io::RawFd;
use std::time::{Duration, Instant};

/// Waits until there is something to receive or the connection ended, at most until that moment.
/// Returns whether one of both happened. A signal doesn't end the wait.
pub(crate) fn comes(socket: RawFd, until: Instant) -> io::Result<bool> {
    loop {
        let left = until.saturating_duration_since(Instant::now());
        match watched(socket, left) {
            Ok(false) if Instant::now() < until => {}
            Err(error) if error.kind() == ErrorKind::Interrupted => {}
            other => return other,
        }
    }
}

fn watched(socket: RawFd, most: Duration) -> io::Result<bool> {
    let mut watched = ffi::PollFd {
        fd: socket,
        events: ffi::POLLIN,
        revents: 0,
    };
    let most = ffi::TimeSpec {
        seconds: most.as_secs() as _,
        nanoseconds: most.subsec_nanos().into(),
    };
    // SAFETY: both are valid for the call, there is one socket, and no signals are named.
    match unsafe { ffi::ppoll(&mut watched, 1, &most, std::ptr::null()) } {
        ready if ready < 0 => Err(io::Error::last_os_error()),
        ready => Ok(ready > 0),
    }
}
