//! A client.
use crate::error::{done, Error, Result, NOTHING};
use crate::object::Object;
use crate::{ffi, Limits};
use std::fmt;

/// What a client reports about itself.
#[derive(Clone, Copy, Debug, PartialEq, Eq)]
pub enum Status {
    /// The server's Welcome has not come.
    NotWelcome,
    /// No transaction is open.
    Idle,
    /// A transaction is open, and waits for nothing.
    Open,
    /// A transaction is open, and its ask has no answer yet.
    Waiting,
    /// The transaction is committing.
    Committing,
}

/// How a transaction ended.
#[derive(Clone, Copy, Debug, PartialEq, Eq)]
pub enum Ended {
    /// By the commit of this number.
    Committed(u64),
    /// Without one, by [`Client::drop_transaction`].
    Dropped,
    /// It was the victim of a deadlock.
    Aborted,
}

/// One incarnation of a client. It sends nothing itself: fetch its frames by
/// [`Client::next_frame`].
pub struct Client {
    object: Object,
    page_size: usize,
}

impl Client {
    /// A client at the start of an incarnation that no earlier client of its number had.
    pub fn new(limits: &Limits, client: u32, incarnation: u64) -> Result<Client> {
        let object = Object::empty();
        // SAFETY: the handle is empty.
        done(unsafe {
            ffi::rughvadi_client_new(&limits.as_c(), client, incarnation, object.at())
        })?;
        Ok(Client {
            object,
            page_size: limits.page_size,
        })
    }

    /// How many bytes a page has.
    pub fn page_size(&self) -> usize {
        self.page_size
    }

    /// Takes the frame at the front of the bytes. Returns how many bytes it has.
    pub fn take(&mut self, bytes: &[u8]) -> Result<usize> {
        self.object.take(bytes)
    }

    /// Fetches the oldest frame that waits to be sent to the server.
    pub fn next_frame(&mut self) -> Result<Option<Vec<u8>>> {
        Ok(self.object.next_frame()?.map(|(_, frame)| frame))
    }

    /// Resends what may be lost.
    pub fn again(&mut self) -> Result<()> {
        self.object.again()
    }

    /// Greets the server.
    pub fn hello(&mut self) -> Result<()> {
        // SAFETY: the handle is the object's own.
        done(unsafe { ffi::rughvadi_client_hello(self.object.at()) })
    }

    /// Begins a transaction. Returns its number.
    pub fn begin(&mut self) -> Result<u64> {
        let mut txn = 0;
        // SAFETY: the handle is the object's own.
        done(unsafe { ffi::rughvadi_client_begin(self.object.at(), &mut txn) })?;
        Ok(txn)
    }

    /// Reads a page. Returns whether its bytes are in the room; if not, an ask goes out.
    pub fn read(&mut self, page: u32, room: &mut [u8]) -> Result<bool> {
        let mut here = false;
        // SAFETY: the room is as long as it is said to be.
        done(unsafe {
            ffi::rughvadi_client_read(
                self.object.at(),
                page,
                room.as_mut_ptr(),
                room.len(),
                &mut here,
            )
        })?;
        Ok(here)
    }

    /// Asks to write a page that was read. Returns whether it may be written now; if not, an ask
    /// goes out.
    pub fn want(&mut self, page: u32) -> Result<bool> {
        let mut may = false;
        // SAFETY: the handle is the object's own.
        done(unsafe { ffi::rughvadi_client_want(self.object.at(), page, &mut may) })?;
        Ok(may)
    }

    /// Writes a page that was read and may be written.
    pub fn write(&mut self, page: u32, bytes: &[u8]) -> Result<()> {
        // SAFETY: the bytes are as many as they are said to be.
        done(unsafe {
            ffi::rughvadi_client_write(self.object.at(), page, bytes.as_ptr(), bytes.len())
        })
    }

    /// Commits the transaction.
    pub fn finish(&mut self) -> Result<()> {
        // SAFETY: the handle is the object's own.
        done(unsafe { ffi::rughvadi_client_finish(self.object.at()) })
    }

    /// Ends the transaction without a commit.
    pub fn drop_transaction(&mut self) -> Result<()> {
        // SAFETY: the handle is the object's own.
        done(unsafe { ffi::rughvadi_client_drop(self.object.at()) })
    }

    /// What the client reports about itself.
    pub fn status(&self) -> Status {
        // SAFETY: the handle is the object's own.
        match unsafe { ffi::rughvadi_client_status(self.object.at()) } {
            2 => Status::Idle,
            3 => Status::Open,
            4 => Status::Waiting,
            5 => Status::Committing,
            _ => Status::NotWelcome,
        }
    }

    /// How the last transaction ended; `None` before the first one did.
    pub fn last(&self) -> Option<Ended> {
        let mut number = 0;
        // SAFETY: the handle is the object's own.
        match unsafe { ffi::rughvadi_client_last(self.object.at(), &mut number) } {
            1 => Some(Ended::Committed(number)),
            2 => Some(Ended::Dropped),
            3 => Some(Ended::Aborted),
            _ => None,
        }
    }

    /// The bytes of the client's copy of a page, if it has one. This isn't a read, and locks
    /// nothing.
    pub fn peek(&self, page: u32) -> Result<Option<Vec<u8>>> {
        let mut room = vec![0u8; self.page_size];
        // SAFETY: the room is as long as it is said to be.
        let fault = unsafe {
            ffi::rughvadi_client_peek(self.object.at(), page, room.as_mut_ptr(), room.len())
        };
        match fault {
            0 => Ok(Some(room)),
            NOTHING => Ok(None),
            fault => Err(Error::of(fault)),
        }
    }

    /// Whether the open transaction may write the page now.
    pub fn may_write(&self, page: u32) -> bool {
        // SAFETY: the handle is the object's own.
        unsafe { ffi::rughvadi_client_may_write(self.object.at(), page) }
    }
}

impl fmt::Debug for Client {
    fn fmt(&self, f: &mut fmt::Formatter<'_>) -> fmt::Result {
        f.debug_struct("Client")
            .field("status", &self.status())
            .field("last", &self.last())
            .finish_non_exhaustive()
    }
}
