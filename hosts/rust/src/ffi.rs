//! The calls of `rughvadi.h` and `rughvadi_connect.h`, as they are, and the system's `ppoll`.
use std::os::raw::{c_char, c_int, c_long, c_short, c_ulong, c_void};

#[repr(C)]
pub struct Handle {
    live: bool,
    at: *mut c_void,
}

// SAFETY: the library proves of its handle that it may go to another thread with its object
// (`handles_cross`). It isn't `Sync`: one call at a time is made on it.
unsafe impl Send for Handle {}

impl Handle {
    pub const fn empty() -> Handle {
        Handle {
            live: false,
            at: std::ptr::null_mut(),
        }
    }
}

#[repr(C)]
#[derive(Clone, Copy, Default)]
pub struct Limits {
    pub clients: u64,
    pub pages: u64,
    pub page_size: u64,
    pub slots: u64,
    pub kin: u64,
    pub kout: u64,
    pub keep_write: u64,
}

#[repr(C)]
#[derive(Clone, Copy, Default)]
pub struct FrameHead {
    pub length: u64,
    pub client: u32,
    pub kind: u32,
    pub incarnation: u64,
}

/// What a client is told as it connects.
#[repr(C)]
#[derive(Default)]
pub struct Seat {
    pub client: u32,
    pub incarnation: u64,
    pub limits: Limits,
}

#[repr(C)]
pub struct PollFd {
    pub fd: c_int,
    pub events: c_short,
    pub revents: c_short,
}

#[repr(C)]
pub struct TimeSpec {
    pub seconds: c_long,
    pub nanoseconds: c_long,
}

/// That there is something to receive, as `poll.h` has it.
pub const POLLIN: c_short = 1;

extern "C" {
    pub fn ppoll(
        watched: *mut PollFd,
        count: c_ulong,
        most: *const TimeSpec,
        signals: *const c_void,
    ) -> c_int;
    pub fn rughvadi_dial_within(
        address: *const c_char,
        connect_ms: c_int,
        socket: *mut c_int,
    ) -> u32;
    pub fn rughvadi_greet_within(
        socket: c_int,
        token: *const u8,
        store: *const c_char,
        greeting_ms: c_int,
        seat: *mut Seat,
    ) -> u32;
    pub fn rughvadi_version() -> u32;
    pub fn rughvadi_fault_text(fault: u32, room: *mut u8, len: usize, size: *mut usize) -> u32;
    pub fn rughvadi_frame_read(
        limits: *const Limits,
        bytes: *const u8,
        len: usize,
        head: *mut FrameHead,
    ) -> u32;
    pub fn rughvadi_take(h: *mut Handle, bytes: *const u8, len: usize, used: *mut usize) -> u32;
    pub fn rughvadi_next(
        h: *mut Handle,
        room: *mut u8,
        len: usize,
        size: *mut usize,
        client: *mut u32,
    ) -> u32;
    pub fn rughvadi_again(h: *mut Handle) -> u32;
    pub fn rughvadi_free(h: *mut Handle);
    pub fn rughvadi_server_new(limits: *const Limits, h: *mut Handle) -> u32;
    pub fn rughvadi_open_life(
        limits: *const Limits,
        last_commit: u64,
        floor: u64,
        h: *mut Handle,
    ) -> u32;
    pub fn rughvadi_open_row(h: *mut Handle, version: u64, bytes: *const u8, len: usize) -> u32;
    pub fn rughvadi_open_serve(h: *mut Handle) -> u32;
    pub fn rughvadi_server_batch(h: *mut Handle, number: *mut u64, pages: *mut usize) -> u32;
    pub fn rughvadi_server_page(
        h: *mut Handle,
        at: usize,
        room: *mut u8,
        len: usize,
        page: *mut u32,
        version: *mut u64,
    ) -> u32;
    pub fn rughvadi_server_can_flush(h: *mut Handle, number: u64) -> bool;
    pub fn rughvadi_server_flushed(h: *mut Handle, number: u64) -> u32;
    pub fn rughvadi_server_forget(h: *mut Handle, number: u64) -> u32;
    pub fn rughvadi_server_leave(h: *mut Handle, client: u32) -> u32;
    pub fn rughvadi_server_incarnation(h: *mut Handle, client: u32, incarnation: *mut u64) -> u32;
    pub fn rughvadi_client_new(
        limits: *const Limits,
        client: u32,
        incarnation: u64,
        h: *mut Handle,
    ) -> u32;
    pub fn rughvadi_client_hello(h: *mut Handle) -> u32;
    pub fn rughvadi_client_begin(h: *mut Handle, txn: *mut u64) -> u32;
    pub fn rughvadi_client_read(
        h: *mut Handle,
        page: u32,
        room: *mut u8,
        len: usize,
        here: *mut bool,
    ) -> u32;
    pub fn rughvadi_client_want(h: *mut Handle, page: u32, may: *mut bool) -> u32;
    pub fn rughvadi_client_write(h: *mut Handle, page: u32, bytes: *const u8, len: usize) -> u32;
    pub fn rughvadi_client_finish(h: *mut Handle) -> u32;
    pub fn rughvadi_client_drop(h: *mut Handle) -> u32;
    pub fn rughvadi_client_status(h: *mut Handle) -> u32;
    pub fn rughvadi_client_last(h: *mut Handle, number: *mut u64) -> u32;
    pub fn rughvadi_client_peek(h: *mut Handle, page: u32, room: *mut u8, len: usize) -> u32;
    pub fn rughvadi_client_may_write(h: *mut Handle, page: u32) -> bool;
}
