//! Connecting to a gateway, which serves stores by name.
use crate::error::{Error, Result};
use crate::link::Link;
use crate::{ffi, Limits};
use std::ffi::CString;
use std::fmt;
use std::fs;
use std::io::{self, Read, Write};
use std::net::TcpStream;
use std::os::raw::c_int;
use std::os::unix::io::{AsRawFd, FromRawFd, RawFd};
use std::os::unix::net::UnixStream;
use std::path::Path;
use std::time::Duration;

/// How long a connection is awaited.
const CONNECT: Duration = Duration::from_secs(5);
/// How long the answer to a greeting is awaited.
const GREETING: Duration = Duration::from_secs(10);
/// How long an answer is awaited, before what may be lost is sent again.
const ANSWER: Duration = Duration::from_secs(1);
/// How long the other end may take no byte of a frame.
const SEND: Duration = Duration::from_secs(30);
/// The most bytes of a store's name.
const NAME: usize = 63;
/// Numbers of `rughvadi_connect.h`. The gateway's answer is added to the last one.
const SYSTEM: u32 = 0x401;
const CLOSED: u32 = 0x402;
const ANSWERS: u32 = 0x500;

/// What a client shows as it connects.
pub type Token = [u8; 32];

/// Why a gateway refused a greeting.
#[derive(Clone, Copy, Debug, PartialEq, Eq)]
#[non_exhaustive]
pub enum Refusal {
    /// No gateway of this version answered.
    Greeting,
    /// No client has this token.
    Token,
    /// No store has this name.
    Store,
    /// The store has no client with the token's number.
    Client,
    /// The store isn't served at the moment: try again later.
    Down,
}

impl Refusal {
    fn of(answer: u32) -> Refusal {
        match answer {
            2 => Refusal::Token,
            3 => Refusal::Store,
            4 => Refusal::Client,
            5 => Refusal::Down,
            _ => Refusal::Greeting,
        }
    }

    pub(crate) fn text(self) -> &'static str {
        match self {
            Refusal::Greeting => "no gateway of this version answered",
            Refusal::Token => "no client has this token",
            Refusal::Store => "no store has this name",
            Refusal::Client => "the store has no client with the token's number",
            Refusal::Down => "the store isn't served at the moment",
        }
    }
}

/// A connection to a gateway.
#[derive(Debug)]
pub enum Stream {
    /// By a Unix socket.
    Local(UnixStream),
    /// By TCP.
    Remote(TcpStream),
}

impl Stream {
    /// Connects to HOST:PORT, or to the path of a Unix socket, which is a name with a `/` in it.
    /// `TimedOut` if an address is silent for five seconds.
    pub fn dial(address: &str) -> io::Result<Stream> {
        Stream::dial_within(address, CONNECT)
    }

    /// The same, within that time for each IP address. Over TCP the system notices within 20
    /// seconds that the other end is gone, even if nothing is sent; the next read or write then
    /// fails.
    pub fn dial_within(address: &str, most: Duration) -> io::Result<Stream> {
        let name = CString::new(address)?;
        let mut socket = -1;
        // SAFETY: the name ends with a 0.
        let fault = unsafe { ffi::rughvadi_dial_within(name.as_ptr(), in_ms(most), &mut socket) };
        if fault != 0 {
            return Err(io::Error::last_os_error());
        }
        // SAFETY: the socket is open, and nobody else has it. It is of this kind by its address.
        Ok(unsafe {
            if address.contains('/') {
                Stream::Local(UnixStream::from_raw_fd(socket))
            } else {
                Stream::Remote(TcpStream::from_raw_fd(socket))
            }
        })
    }

    /// Sets how long a read waits.
    pub fn set_read_timeout(&self, most: Option<Duration>) -> io::Result<()> {
        match self {
            Stream::Local(stream) => stream.set_read_timeout(most),
            Stream::Remote(stream) => stream.set_read_timeout(most),
        }
    }

    /// Sets how long a write waits while the other end takes no byte.
    pub fn set_write_timeout(&self, most: Option<Duration>) -> io::Result<()> {
        match self {
            Stream::Local(stream) => stream.set_write_timeout(most),
            Stream::Remote(stream) => stream.set_write_timeout(most),
        }
    }
}

impl AsRawFd for Stream {
    fn as_raw_fd(&self) -> RawFd {
        match self {
            Stream::Local(stream) => stream.as_raw_fd(),
            Stream::Remote(stream) => stream.as_raw_fd(),
        }
    }
}

/// So many milliseconds, at least.
fn in_ms(most: Duration) -> c_int {
    c_int::try_from(most.as_nanos().div_euclid(1_000_000) + 1).unwrap_or(c_int::MAX)
}

impl Read for Stream {
    fn read(&mut self, room: &mut [u8]) -> io::Result<usize> {
        match self {
            Stream::Local(stream) => stream.read(room),
            Stream::Remote(stream) => stream.read(room),
        }
    }
}

impl Write for Stream {
    fn write(&mut self, bytes: &[u8]) -> io::Result<usize> {
        match self {
            Stream::Local(stream) => stream.write(bytes),
            Stream::Remote(stream) => stream.write(bytes),
        }
    }

    fn flush(&mut self) -> io::Result<()> {
        match self {
            Stream::Local(stream) => stream.flush(),
            Stream::Remote(stream) => stream.flush(),
        }
    }
}

fn token_of(digits: &str) -> Option<Token> {
    if digits.len() != 64 || !digits.is_ascii() {
        return None;
    }
    let mut token = [0; 32];
    for (place, byte) in token.iter_mut().enumerate() {
        *byte = u8::from_str_radix(&digits[2 * place..2 * place + 2], 16).ok()?;
    }
    Some(token)
}

/// The token of a client, from a file of lines: a client's number and 64 hexadecimal digits.
pub fn read_token(path: impl AsRef<Path>, client: u32) -> Result<Token> {
    let text = fs::read_to_string(path)?;
    let number = client.to_string();
    text.lines()
        .map(|line| line.split_whitespace().collect::<Vec<_>>())
        .find(|words| words.first() == Some(&number.as_str()))
        .and_then(|words| token_of(words.get(1)?))
        .ok_or(Error::Refused(Refusal::Token))
}

/// Shows a token: the client's number, its incarnation and the limits.
fn greet(
    stream: &Stream,
    token: &Token,
    store: &str,
    most: Duration,
) -> Result<(u32, u64, Limits)> {
    let name = match CString::new(store) {
        Ok(name) if store.len() <= NAME => name,
        _ => return Err(Error::Refused(Refusal::Store)),
    };
    let mut seat = ffi::Seat::default();
    let socket = stream.as_raw_fd();
    // SAFETY: the socket is open, the token as long as it has to be, and the name ends with a 0.
    let fault = unsafe {
        ffi::rughvadi_greet_within(
            socket,
            token.as_ptr(),
            name.as_ptr(),
            in_ms(most),
            &mut seat,
        )
    };
    match fault {
        0 => Ok((seat.client, seat.incarnation, Limits::from_c(&seat.limits))),
        SYSTEM => Err(io::Error::last_os_error().into()),
        CLOSED => Err(Error::Closed),
        refused => Err(Error::Refused(Refusal::of(refused.wrapping_sub(ANSWERS)))),
    }
}

/// Where a store is served, and how long its client waits. A program that connects again once its
/// link is gone keeps this value, since each call of [`Gateways::connect`] begins behind the
/// address that was tried last.
#[derive(Clone)]
pub struct Gateways {
    addresses: Vec<String>,
    /// The place of the address that is tried next.
    next: usize,
    token: Token,
    store: String,
    connect: Duration,
    greeting: Duration,
    answer: Duration,
    send: Duration,
}

impl Gateways {
    /// The gateways at these addresses, which are separated by commas. Each is HOST:PORT, or the
    /// path of a Unix socket, with a `/` in it.
    pub fn new(addresses: &str, token: &Token, store: &str) -> Gateways {
        Gateways {
            addresses: addresses.split(',').map(str::to_string).collect(),
            next: 0,
            token: *token,
            store: store.to_string(),
            connect: CONNECT,
            greeting: GREETING,
            answer: ANSWER,
            send: SEND,
        }
    }

    /// Sets how long a connection is awaited at each address (5 seconds at first).
    pub fn connect_timeout(self, connect: Duration) -> Gateways {
        Gateways { connect, ..self }
    }

    /// Sets how long the whole answer to the greeting is awaited (10 seconds at first).
    pub fn greeting_timeout(self, greeting: Duration) -> Gateways {
        Gateways { greeting, ..self }
    }

    /// Sets how long a link awaits an answer before it resends what may be lost, 30 times at most
    /// (1 second at first; not zero).
    pub fn answer_timeout(self, answer: Duration) -> Gateways {
        Gateways { answer, ..self }
    }

    /// Sets how long the other end may take no byte of a frame before the link is gone (30 seconds
    /// at first; not zero).
    pub fn send_timeout(self, send: Duration) -> Gateways {
        Gateways { send, ..self }
    }

    /// A link to the store, and the store's limits. Each address is tried once. The next one is
    /// tried if nobody answers in time, the connection fails or ends, or the store isn't served
    /// there ([`Refusal::Down`]). The last error is returned.
    pub fn connect(&mut self) -> Result<(Link<Stream>, Limits)> {
        let mut answer = Err(Error::Closed);
        for _ in 0..self.addresses.len() {
            let place = self.next;
            self.next = (place + 1) % self.addresses.len();
            answer = self.connect_to(&self.addresses[place]);
            match &answer {
                Err(Error::Closed | Error::Io(_) | Error::Refused(Refusal::Down)) => {}
                _ => break,
            }
        }
        answer
    }

    fn connect_to(&self, address: &str) -> Result<(Link<Stream>, Limits)> {
        let stream = Stream::dial_within(address, self.connect)?;
        let (client, incarnation, limits) =
            greet(&stream, &self.token, &self.store, self.greeting)?;
        stream.set_read_timeout(Some(self.answer))?;
        stream.set_write_timeout(Some(self.send))?;
        let link = Link::open_socket(&limits, client, incarnation, stream)?;
        Ok((link, limits))
    }
}

impl fmt::Debug for Gateways {
    /// Without the token, which is a secret.
    fn fmt(&self, f: &mut fmt::Formatter<'_>) -> fmt::Result {
        f.debug_struct("Gateways")
            .field("addresses", &self.addresses)
            .field("next", &self.next)
            .field("store", &self.store)
            .finish_non_exhaustive()
    }
}

impl Link<Stream> {
    /// A link to a store of one of the gateways at these addresses, and the store's limits:
    /// [`Gateways::connect`], once.
    pub fn connect(addresses: &str, token: &Token, store: &str) -> Result<(Link<Stream>, Limits)> {
        Gateways::new(addresses, token, store).connect()
    }
}
