//! A page server, and clients that keep their pages across transactions: the proved library of
//! Rughvadi, for Rust. What a client reads is current, until the server restarts or is told that
//! the client left.
//!
//! [`Server`] and [`Client`] do no input or output: frames are handed in ([`Client::take`]) and
//! fetched ([`Client::next_frame`]). [`Link`] is a client over a stream, for programs that may
//! block; [`Gateways::connect`] makes one to a store of a gateway.
//!
//! Each may move to another thread with all that it holds, and is used by one thread at a time:
//!
//! ```
//! fn may_move<T: Send>() {}
//! may_move::<rughvadi::Server>();
//! may_move::<rughvadi::Client>();
//! may_move::<rughvadi::Link<std::net::TcpStream>>();
//! ```
//!
//! Threads can't share one without a lock:
//!
//! ```compile_fail
//! fn may_be_shared<T: Sync>() {}
//! may_be_shared::<rughvadi::Client>();
//! ```
#![warn(missing_docs, missing_debug_implementations, unsafe_op_in_unsafe_fn)]

mod client;
mod connect;
mod error;
mod ffi;
mod link;
mod object;
mod server;
mod socket;

pub use client::{Client, Ended, Status};
pub use connect::{read_token, Gateways, Refusal, Stream, Token};
pub use error::{Error, Result};
pub use link::{Bound, Link, Transaction};
pub use server::{Batch, BatchPage, Server};

/// The limits of one store, which its server and its clients share, except for `slots`, `kin` and
/// `kout`: each client has its own. A server doesn't use these three, but refuses values out of
/// range.
#[derive(Clone, Copy, Debug, PartialEq, Eq)]
pub struct Limits {
    /// 1 to 32; they are numbered from 0.
    pub clients: u32,
    /// 1 to 4,096; they are numbered from 0.
    pub pages: u32,
    /// Bytes: 16 to 65,536 by steps of 16.
    pub page_size: usize,
    /// Pages in a client's pool: 2 to 1,024.
    pub slots: usize,
    /// 1 to one less than the slots: with more new pages in the pool, one of these goes.
    pub kin: usize,
    /// 1 to 4,096: how many new pages that went are remembered.
    pub kout: usize,
    /// Whether clients keep write permissions between transactions.
    pub keep_write: bool,
}

impl Limits {
    /// Limits of a store, with that many slots in a client's pool. `kin` is a quarter of them and
    /// `kout` half of them, at least 1 each. Write permissions aren't kept.
    pub const fn new(clients: u32, pages: u32, page_size: usize, slots: usize) -> Limits {
        Limits {
            clients,
            pages,
            page_size,
            slots,
            kin: if slots < 4 { 1 } else { slots / 4 },
            kout: if slots < 2 { 1 } else { slots / 2 },
            keep_write: false,
        }
    }

    /// The same with this `kin`.
    pub const fn with_kin(self, kin: usize) -> Limits {
        Limits { kin, ..self }
    }

    /// The same with this `kout`.
    pub const fn with_kout(self, kout: usize) -> Limits {
        Limits { kout, ..self }
    }

    /// The same, with or without write permissions that clients keep between transactions.
    pub const fn with_keep_write(self, keep_write: bool) -> Limits {
        Limits { keep_write, ..self }
    }

    fn from_c(limits: &ffi::Limits) -> Limits {
        Limits {
            clients: limits.clients as u32,
            pages: limits.pages as u32,
            page_size: limits.page_size as usize,
            slots: limits.slots as usize,
            kin: limits.kin as usize,
            kout: limits.kout as usize,
            keep_write: limits.keep_write != 0,
        }
    }

    fn as_c(&self) -> ffi::Limits {
        ffi::Limits {
            clients: u64::from(self.clients),
            pages: u64::from(self.pages),
            page_size: self.page_size as u64,
            slots: self.slots as u64,
            kin: self.kin as u64,
            kout: self.kout as u64,
            keep_write: u64::from(self.keep_write),
        }
    }
}

/// What the header of a frame says.
#[derive(Clone, Copy, Debug, PartialEq, Eq)]
pub struct FrameHead {
    /// The frame's bytes, the header's among them.
    pub length: usize,
    /// The client that it comes from or goes to.
    pub client: u32,
    /// The code of its kind: below 64 it goes to the server.
    pub kind: u32,
    /// The client's incarnation.
    pub incarnation: u64,
}

/// Reads the frame at the front of the bytes. [`Error::FrameShort`] if more bytes are needed.
pub fn read_frame(limits: &Limits, bytes: &[u8]) -> Result<FrameHead> {
    let mut head = ffi::FrameHead::default();
    // SAFETY: the bytes are as many as they are said to be.
    error::done(unsafe {
        ffi::rughvadi_frame_read(&limits.as_c(), bytes.as_ptr(), bytes.len(), &mut head)
    })?;
    Ok(FrameHead {
        length: head.length as usize,
        client: head.client,
        kind: head.kind,
        incarnation: head.incarnation,
    })
}

/// The version of the library's interface: the first number of this crate's version.
pub fn version() -> u32 {
    // SAFETY: it takes nothing.
    unsafe { ffi::rughvadi_version() }
}
