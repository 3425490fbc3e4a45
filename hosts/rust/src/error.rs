//! Why a call is refused.
use crate::connect::Refusal;
use crate::ffi;
use std::{error, fmt, io};

/// Why a call was refused. Everything is then as it was before, unless the call says otherwise.
#[derive(Debug)]
#[non_exhaustive]
pub enum Error {
    /// The server's Welcome has not come.
    NotWelcome,
    /// No transaction is open.
    NoTransaction,
    /// A transaction is open, or is committing.
    TransactionOpen,
    /// The transaction is committing.
    Committing,
    /// An ask has no answer yet.
    Waiting,
    /// There is no such page.
    PageRange,
    /// The transaction has not read the page.
    NotRead,
    /// The page's bytes left the pool: read it again.
    NotHere,
    /// The client may not write the page.
    NotWritable,
    /// The bytes are not as long as a page.
    WrongLength,
    /// Every page in the pool is being written.
    PoolFull,
    /// No number is left.
    Exhausted,
    /// Memory was refused.
    Memory,
    /// The frame isn't whole yet.
    FrameShort,
    /// The bytes are no frame, whatever follows: the number says why.
    Frame(u32),
    /// The limits are out of range: the number says which.
    Limits(u32),
    /// The frames that wait have to be fetched first.
    Unfetched,
    /// A buffer hasn't the length that is needed, or a page has its row already.
    Room,
    /// A number is out of range.
    Range,
    /// The transaction was the victim of a deadlock, and is undone: begin again.
    Aborted,
    /// The server closed the connection.
    Closed,
    /// The gateway refused the greeting.
    Refused(Refusal),
    /// The connection failed.
    Io(io::Error),
    /// A number that this version doesn't know.
    Other(u32),
}

/// What a call returns.
pub type Result<T> = std::result::Result<T, Error>;

pub(crate) const NO_TRANSACTION: u32 = 2;
pub(crate) const NOTHING: u32 = 0x303;
pub(crate) const ROOM: u32 = 0x304;

impl Error {
    pub(crate) fn of(number: u32) -> Error {
        match number {
            1 => Error::NotWelcome,
            NO_TRANSACTION => Error::NoTransaction,
            3 => Error::TransactionOpen,
            4 => Error::Committing,
            5 => Error::Waiting,
            6 => Error::PageRange,
            7 => Error::NotRead,
            8 => Error::NotHere,
            9 => Error::NotWritable,
            10 => Error::WrongLength,
            11 => Error::PoolFull,
            12 => Error::Exhausted,
            13 | 0x107 => Error::Memory,
            0x101 => Error::FrameShort,
            0x102..=0x106 => Error::Frame(number),
            0x201..=0x206 => Error::Limits(number),
            0x302 => Error::Unfetched,
            ROOM => Error::Room,
            0x305 => Error::Range,
            _ => Error::Other(number),
        }
    }

    /// The number in `rughvadi.h`; `None` for a fault that isn't the library's.
    pub fn number(&self) -> Option<u32> {
        Some(match *self {
            Error::NotWelcome => 1,
            Error::NoTransaction => NO_TRANSACTION,
            Error::TransactionOpen => 3,
            Error::Committing => 4,
            Error::Waiting => 5,
            Error::PageRange => 6,
            Error::NotRead => 7,
            Error::NotHere => 8,
            Error::NotWritable => 9,
            Error::WrongLength => 10,
            Error::PoolFull => 11,
            Error::Exhausted => 12,
            Error::Memory => 13,
            Error::FrameShort => 0x101,
            Error::Frame(number) | Error::Limits(number) | Error::Other(number) => number,
            Error::Unfetched => 0x302,
            Error::Room => ROOM,
            Error::Range => 0x305,
            Error::Aborted | Error::Closed | Error::Refused(_) | Error::Io(_) => return None,
        })
    }
}

/// The meaning of a number, as the library tells it.
fn text_of(number: u32) -> String {
    let (mut room, mut size) = ([0u8; 64], 0);
    // SAFETY: the room is as long as it is said to be.
    let fault =
        unsafe { ffi::rughvadi_fault_text(number, room.as_mut_ptr(), room.len(), &mut size) };
    match fault {
        0 => String::from_utf8_lossy(&room[..size]).into_owned(),
        _ => format!("fault {}", number),
    }
}

impl fmt::Display for Error {
    fn fmt(&self, f: &mut fmt::Formatter<'_>) -> fmt::Result {
        match self {
            Error::Aborted => f.write_str("the transaction was the victim of a deadlock"),
            Error::Closed => f.write_str("the server closed the connection"),
            Error::Refused(refusal) => f.write_str(refusal.text()),
            Error::Io(error) => error.fmt(f),
            known => f.write_str(&text_of(known.number().unwrap_or(0))),
        }
    }
}

impl error::Error for Error {
    fn source(&self) -> Option<&(dyn error::Error + 'static)> {
        match self {
            // Its own text is the one that is shown.
            Error::Io(error) => error.source(),
            _ => None,
        }
    }
}

impl From<io::Error> for Error {
    fn from(error: io::Error) -> Error {
        Error::Io(error)
    }
}

/// `Ok` for 0, otherwise the fault.
pub(crate) fn done(number: u32) -> Result<()> {
    match number {
        0 => Ok(()),
        fault => Err(Error::of(fault)),
    }
}
