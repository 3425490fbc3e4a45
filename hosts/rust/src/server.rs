//! A server.
use crate::error::{done, Error, Result, NOTHING};
use crate::object::Object;
use crate::{ffi, Limits};
use std::fmt;

/// A page of a batch.
#[derive(Clone, Debug, PartialEq, Eq)]
pub struct BatchPage {
    /// Its number.
    pub page: u32,
    /// The number of the commit that wrote it last, which is kept with it.
    pub version: u64,
    /// Its bytes.
    pub bytes: Vec<u8>,
}

/// What is to be written next, in one transaction of the store, and synced.
#[derive(Clone, Debug, PartialEq, Eq)]
pub struct Batch {
    /// The last commit in it, which is kept with the pages.
    pub number: u64,
    /// The pages, by rising number.
    pub pages: Vec<BatchPage>,
}

/// A page server. It writes nothing itself: [`Server::batch`] says what is to be written.
pub struct Server {
    object: Object,
    page_size: usize,
}

impl Server {
    /// A server over a store of zeros, for the first time that a store is used.
    pub fn new(limits: &Limits) -> Result<Server> {
        let object = Object::empty();
        // SAFETY: the handle is empty.
        done(unsafe { ffi::rughvadi_server_new(&limits.as_c(), object.at()) })?;
        Ok(Server {
            object,
            page_size: limits.page_size,
        })
    }

    /// A server over a store that was written before. It takes the number of the store's last
    /// commit, and the version and bytes of each page, by rising number. It knows no client.
    pub fn open<B: AsRef<[u8]>>(
        limits: &Limits,
        last_commit: u64,
        rows: impl IntoIterator<Item = (u64, B)>,
    ) -> Result<Server> {
        Server::open_life(limits, last_commit, 0, rows)
    }

    /// The same for a host that keeps lives: the server begins a life with this floor. It ignores
    /// every frame of a lower incarnation, whenever that comes. The host keeps a bound on disk,
    /// which is above every incarnation that a former server heard of; the floor is that bound. 0
    /// stands for no life.
    pub fn open_life<B: AsRef<[u8]>>(
        limits: &Limits,
        last_commit: u64,
        floor: u64,
        rows: impl IntoIterator<Item = (u64, B)>,
    ) -> Result<Server> {
        let object = Object::empty();
        // SAFETY: the handle is empty, and the bytes of a row are as many as they are said to be.
        unsafe {
            done(ffi::rughvadi_open_life(
                &limits.as_c(),
                last_commit,
                floor,
                object.at(),
            ))?;
            for (version, bytes) in rows {
                let bytes = bytes.as_ref();
                done(ffi::rughvadi_open_row(
                    object.at(),
                    version,
                    bytes.as_ptr(),
                    bytes.len(),
                ))?;
            }
            done(ffi::rughvadi_open_serve(object.at()))?;
        }
        Ok(Server {
            object,
            page_size: limits.page_size,
        })
    }

    /// Takes the frame at the front of the bytes. Returns how many bytes it has.
    pub fn take(&mut self, bytes: &[u8]) -> Result<usize> {
        self.object.take(bytes)
    }

    /// Fetches the oldest frame that waits, and the client that it goes to.
    pub fn next_frame(&mut self) -> Result<Option<(u32, Vec<u8>)>> {
        self.object.next_frame()
    }

    /// Resends what may be lost.
    pub fn again(&mut self) -> Result<()> {
        self.object.again()
    }

    /// What is to be written next; `None` if every commit is on disk.
    pub fn batch(&mut self) -> Result<Option<Batch>> {
        let (mut number, mut count) = (0, 0);
        // SAFETY: the handle is the object's own.
        match unsafe { ffi::rughvadi_server_batch(self.object.at(), &mut number, &mut count) } {
            0 => {}
            NOTHING => return Ok(None),
            fault => return Err(Error::of(fault)),
        }
        let pages = (0..count).map(|at| self.page(at)).collect::<Result<_>>()?;
        Ok(Some(Batch { number, pages }))
    }

    fn page(&mut self, at: usize) -> Result<BatchPage> {
        let (mut bytes, mut page, mut version) = (vec![0u8; self.page_size], 0, 0);
        // SAFETY: the room is as long as it is said to be.
        done(unsafe {
            ffi::rughvadi_server_page(
                self.object.at(),
                at,
                bytes.as_mut_ptr(),
                bytes.len(),
                &mut page,
                &mut version,
            )
        })?;
        Ok(BatchPage {
            page,
            version,
            bytes,
        })
    }

    /// Whether that commit was made and isn't on disk yet, so that [`Server::flushed`] takes it.
    pub fn can_flush(&self, number: u64) -> bool {
        // SAFETY: the handle is the object's own.
        unsafe { ffi::rughvadi_server_can_flush(self.object.at(), number) }
    }

    /// Reports that the commits up to this number are on disk now, synced. Their clients are told.
    pub fn flushed(&mut self, number: u64) -> Result<()> {
        // SAFETY: the handle is the object's own.
        done(unsafe { ffi::rughvadi_server_flushed(self.object.at(), number) })
    }

    /// Drops the commits up to this number, which are on disk, from memory. Without this call
    /// memory grows with each commit.
    pub fn forget(&mut self, number: u64) -> Result<()> {
        // SAFETY: the handle is the object's own.
        done(unsafe { ffi::rughvadi_server_forget(self.object.at(), number) })
    }

    /// Tells the server that a client went away and won't come back in its present incarnation.
    pub fn leave(&mut self, client: u32) -> Result<()> {
        // SAFETY: the handle is the object's own.
        done(unsafe { ffi::rughvadi_server_leave(self.object.at(), client) })
    }

    /// The incarnation with which the client may greet next.
    pub fn next_incarnation(&self, client: u32) -> Result<u64> {
        let mut incarnation = 0;
        // SAFETY: the handle is the object's own.
        done(unsafe {
            ffi::rughvadi_server_incarnation(self.object.at(), client, &mut incarnation)
        })?;
        Ok(incarnation)
    }
}

impl fmt::Debug for Server {
    fn fmt(&self, f: &mut fmt::Formatter<'_>) -> fmt::Result {
        f.debug_struct("Server")
            .field("page_size", &self.page_size)
            .finish_non_exhaustive()
    }
}
