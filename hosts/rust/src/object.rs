//! What servers and clients have in common.
use crate::error::{done, Error, Result, NOTHING, ROOM};
use crate::ffi;
use std::cell::UnsafeCell;

/// A handle with its object, which is freed with it.
pub(crate) struct Object {
    handle: UnsafeCell<ffi::Handle>,
}

impl Object {
    /// An empty handle.
    pub(crate) fn empty() -> Object {
        Object {
            handle: UnsafeCell::new(ffi::Handle::empty()),
        }
    }

    /// The handle for one call. No two calls are made at once, since an object isn't `Sync`, and
    /// the library calls nobody back.
    pub(crate) fn at(&self) -> *mut ffi::Handle {
        self.handle.get()
    }

    /// Takes the frame at the front of the bytes. Returns how many bytes it has.
    pub(crate) fn take(&mut self, bytes: &[u8]) -> Result<usize> {
        let mut used = 0;
        // SAFETY: the bytes are as many as they are said to be.
        done(unsafe { ffi::rughvadi_take(self.at(), bytes.as_ptr(), bytes.len(), &mut used) })?;
        Ok(used)
    }

    /// Fetches the oldest frame that waits, and tells whose it is.
    pub(crate) fn next_frame(&mut self) -> Result<Option<(u32, Vec<u8>)>> {
        let mut room = vec![0u8; 64];
        loop {
            let (mut size, mut client) = (0, 0);
            // SAFETY: the room is as long as it is said to be.
            let fault = unsafe {
                ffi::rughvadi_next(
                    self.at(),
                    room.as_mut_ptr(),
                    room.len(),
                    &mut size,
                    &mut client,
                )
            };
            match fault {
                0 => {
                    room.truncate(size);
                    return Ok(Some((client, room)));
                }
                NOTHING => return Ok(None),
                ROOM => room.resize(size, 0),
                fault => return Err(Error::of(fault)),
            }
        }
    }

    /// Resends what may be lost.
    pub(crate) fn again(&mut self) -> Result<()> {
        // SAFETY: the handle is the object's own.
        done(unsafe { ffi::rughvadi_again(self.at()) })
    }
}

impl Drop for Object {
    fn drop(&mut self) {
        // SAFETY: the handle is the object's own, and nobody has it afterwards.
        unsafe { ffi::rughvadi_free(self.at()) }
    }
}
