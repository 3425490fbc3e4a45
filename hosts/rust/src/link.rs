//! A client over a stream, for programs that may block.
use crate::client::{Client, Ended, Status};
use crate::error::{Error, Result};
use crate::socket::comes;
use crate::Limits;
use std::collections::hash_map::RandomState;
use std::collections::VecDeque;
use std::fmt;
use std::hash::{BuildHasher, Hasher};
use std::io::{self, ErrorKind, Read, Write};
use std::os::unix::io::{AsRawFd, RawFd};
use std::time::{Duration, Instant};

/// How often it resends what may be lost, before it gives up.
const TRIES: u32 = 30;
/// How many bytes are received at once.
const ROOM: usize = 65536;

/// The longest pause between two tries of a job: after the first try, and in the end.
const FIRST_PAUSE: Duration = Duration::from_micros(500);
const LONGEST_PAUSE: Duration = Duration::from_millis(100);

/// Whether a read's time-out passed. A socket says that by `WouldBlock`; its `TimedOut` says that
/// TCP gave the connection up.
fn is_late(error: &io::Error) -> bool {
    match error.kind() {
        ErrorKind::WouldBlock => true,
        ErrorKind::TimedOut => error.raw_os_error().is_none(),
        _ => false,
    }
}

/// How long [`Link::run_within`] goes on. A field that is `None` sets no bound.
#[derive(Clone, Copy, Debug, Default, PartialEq, Eq)]
pub struct Bound {
    /// The most tries.
    pub tries: Option<u32>,
    /// No try but the first begins later than this after the call.
    pub time: Option<Duration>,
}

impl Bound {
    /// Whether no further try may begin at that moment, after that many of them.
    fn is_reached(&self, tries: u32, after: Duration) -> bool {
        self.tries.map_or(false, |most| tries >= most)
            || self.time.map_or(false, |most| after > most)
    }
}

/// A client over a connected stream, which blocks. If the stream has a time-out for reads, what may
/// be lost is sent again after each time-out. Once the stream fails, ends, or gives bytes that
/// can't be taken, the client is gone: each later call returns [`Error::Closed`], even for a page
/// that the client holds. The client is also gone if a frame was sent in part: the stream's
/// time-out for writes passed, or a panic left a call of the stream.
pub struct Link<S> {
    client: Client,
    stream: S,
    /// The socket that the stream is, if it is one: it can be asked whether something came.
    socket: Option<RawFd>,
    gone: bool,
    /// Whether the open transaction has sent nothing yet.
    is_silent: bool,
    /// The Drop of a transaction that sent nothing else: it goes out before all that is sent next.
    late: VecDeque<Vec<u8>>,
    /// What came and isn't taken yet.
    came: Vec<u8>,
    room: Box<[u8]>,
    /// The numbers from which pauses are drawn; not 0.
    draws: u64,
}

impl<S: Read + Write + AsRawFd> Link<S> {
    /// The same as [`Link::open`] over a socket, whose bytes are the link's alone. Such a link
    /// takes what came as a transaction begins, and between the tries of a job.
    pub fn open_socket(
        limits: &Limits,
        client: u32,
        incarnation: u64,
        socket: S,
    ) -> Result<Link<S>> {
        let number = socket.as_raw_fd();
        Link::greet(limits, client, incarnation, socket, Some(number))
    }
}

impl<S: Read + Write> Link<S> {
    /// Greets the server over a stream of any kind, and waits until the client is welcome.
    pub fn open(limits: &Limits, client: u32, incarnation: u64, stream: S) -> Result<Link<S>> {
        Link::greet(limits, client, incarnation, stream, None)
    }

    fn greet(
        limits: &Limits,
        client: u32,
        incarnation: u64,
        stream: S,
        socket: Option<RawFd>,
    ) -> Result<Link<S>> {
        let mut link = Link {
            client: Client::new(limits, client, incarnation)?,
            stream,
            socket,
            gone: false,
            is_silent: false,
            late: VecDeque::new(),
            came: Vec::new(),
            room: vec![0; ROOM].into_boxed_slice(),
            draws: RandomState::new().build_hasher().finish() | 1,
        };
        link.client.hello()?;
        link.wait_while(Status::NotWelcome)?;
        Ok(link)
    }

    /// The client.
    pub fn client(&self) -> &Client {
        &self.client
    }

    /// The stream, for example to set its time-outs.
    pub fn stream(&self) -> &S {
        &self.stream
    }

    /// Begins a transaction, which is dropped unless it is committed. A link over a socket takes
    /// what came first. Over another stream nothing is received by transactions that read only held
    /// pages and are dropped. A program with such transactions calls [`Link::serve`] in between,
    /// since others may wait for these pages.
    pub fn transaction(&mut self) -> Result<Transaction<'_, S>> {
        self.check()?;
        self.serve_until(Instant::now())?;
        self.client.begin()?;
        self.is_silent = true;
        Ok(Transaction { link: self })
    }

    /// Does the job in a transaction and commits it. It begins again as often as the transaction is
    /// aborted or the job returns [`Error::Aborted`]. Returns what the job returned, and the
    /// commit's number.
    ///
    /// Over a socket it pauses between two tries, and takes what comes. The pause is drawn evenly
    /// between 0 and a bound, which is half a millisecond at first and doubles after each try, up
    /// to a tenth of a second.
    pub fn run<T>(
        &mut self,
        job: impl FnMut(&mut Transaction<'_, S>) -> Result<T>,
    ) -> Result<(T, u64)> {
        self.run_within(Bound::default(), job)
    }

    /// The same within a bound. [`Error::Aborted`] if it is reached; nothing is committed then.
    pub fn run_within<T>(
        &mut self,
        bound: Bound,
        mut job: impl FnMut(&mut Transaction<'_, S>) -> Result<T>,
    ) -> Result<(T, u64)> {
        let begun = Instant::now();
        let mut tries = 0;
        loop {
            let ended = self.try_job(&mut job);
            if !matches!(ended, Err(Error::Aborted)) {
                return ended;
            }
            tries += 1;
            let next = Instant::now() + self.pause(tries);
            if bound.is_reached(tries, next - begun) {
                return ended;
            }
            self.serve_until(next)?;
        }
    }

    fn try_job<T>(
        &mut self,
        job: &mut impl FnMut(&mut Transaction<'_, S>) -> Result<T>,
    ) -> Result<(T, u64)> {
        let mut transaction = self.transaction()?;
        let answer = job(&mut transaction)?;
        Ok((answer, transaction.commit()?))
    }

    /// How long the next try waits, after that many were aborted. The waits are drawn, so clients
    /// that aborted each other hardly meet again. Without a socket it doesn't wait, since others
    /// would wait for it.
    fn pause(&mut self, aborted: u32) -> Duration {
        if self.socket.is_none() {
            return Duration::ZERO;
        }
        self.draws ^= self.draws << 13;
        self.draws ^= self.draws >> 7;
        self.draws ^= self.draws << 17;
        let most = FIRST_PAUSE.saturating_mul(1 << (aborted - 1).min(16));
        let most = most.min(LONGEST_PAUSE).as_nanos() as u64;
        Duration::from_nanos(self.draws % (most + 1))
    }

    /// Takes what the stream gives next, and answers. Others may wait for that, since they want
    /// pages that the client holds. `false` if the stream's time-out for reads passed first.
    pub fn serve(&mut self) -> Result<bool> {
        self.check()?;
        self.send_said()?;
        self.receive()
    }

    fn check(&self) -> Result<()> {
        if self.gone {
            return Err(Error::Closed);
        }
        Ok(())
    }

    /// Takes what comes until that moment; nothing without a socket.
    fn serve_until(&mut self, until: Instant) -> Result<()> {
        while let Some(socket) = self.socket {
            let ready = comes(socket, until);
            self.gone |= ready.is_err();
            if !ready? {
                break;
            }
            self.receive()?;
        }
        Ok(())
    }

    /// Sends a Drop that waits, and all frames of the client. From when a frame is fetched until
    /// all of it is sent, the link counts as gone. It therefore stays gone if an error or a panic
    /// of the stream ends this early.
    fn send_said(&mut self) -> Result<()> {
        self.check()?;
        while let Some(frame) = self.next_said()? {
            self.gone = true;
            self.stream.write_all(&frame)?;
            self.gone = false;
        }
        self.gone = true;
        self.stream.flush()?;
        self.gone = false;
        Ok(())
    }

    fn next_said(&mut self) -> Result<Option<Vec<u8>>> {
        if let Some(frame) = self.late.pop_front() {
            return Ok(Some(frame));
        }
        let frame = self.client.next_frame()?;
        self.is_silent &= frame.is_none();
        Ok(frame)
    }

    /// Sends the frames of a transaction's end. If the transaction sent nothing else, its Drop
    /// waits until something else is sent. It replaces a Drop that waits already, since the server
    /// knows nothing of either.
    fn send_drop(&mut self) -> Result<()> {
        if self.is_silent {
            self.late.clear();
            self.late.extend(self.client.next_frame()?);
            match self.client.next_frame()? {
                Some(more) => self.late.push_back(more),
                None => return Ok(()),
            }
        }
        self.send_said()
    }

    /// Receives once, and takes each whole frame; `false` if nothing came in time.
    fn receive(&mut self) -> Result<bool> {
        self.check()?;
        self.gone = true;
        let got = match self.stream.read(&mut self.room) {
            Ok(0) => return Err(Error::Closed),
            Ok(got) => got,
            Err(error) => {
                let is_interrupted = error.kind() == ErrorKind::Interrupted;
                if !is_interrupted && !is_late(&error) {
                    return Err(error.into());
                }
                self.gone = false;
                return Ok(is_interrupted);
            }
        };
        self.gone = false;
        self.came.extend_from_slice(&self.room[..got]);
        self.take_frames()?;
        Ok(true)
    }

    /// Takes each whole frame that came, and sends the answers.
    fn take_frames(&mut self) -> Result<()> {
        let mut at = 0;
        while at < self.came.len() {
            match self.client.take(&self.came[at..]) {
                Ok(used) => at += used,
                Err(Error::FrameShort) => break,
                Err(error) => {
                    self.gone = true;
                    return Err(error);
                }
            }
            self.send_said()?;
        }
        self.came.drain(..at);
        Ok(())
    }

    /// Waits while the client has that status, and resends what may be lost.
    fn wait_while(&mut self, status: Status) -> Result<()> {
        let mut silent = 0;
        while self.client.status() == status {
            self.send_said()?;
            if self.receive()? {
                continue;
            }
            silent += 1;
            if silent > TRIES {
                return Err(Error::Io(ErrorKind::TimedOut.into()));
            }
            self.client.again()?;
        }
        Ok(())
    }

    /// Makes `NoTransaction` into `Aborted`, if that is how the last transaction ended.
    fn aborted_or(&self, error: Error) -> Error {
        match (&error, self.client.last()) {
            (Error::NoTransaction, Some(Ended::Aborted)) => Error::Aborted,
            _ => error,
        }
    }

    fn fetch(&mut self, page: u32, room: &mut [u8]) -> Result<()> {
        loop {
            self.wait_while(Status::Waiting)?;
            self.check()?;
            match self.client.read(page, room) {
                Ok(true) => return Ok(()),
                Ok(false) => {}
                Err(error) => return Err(self.aborted_or(error)),
            }
        }
    }

    fn want(&mut self, page: u32) -> Result<()> {
        loop {
            self.wait_while(Status::Waiting)?;
            self.check()?;
            match self.client.want(page) {
                Ok(true) => return Ok(()),
                Ok(false) => {}
                Err(Error::NotHere) => {
                    let mut room = vec![0u8; self.client.page_size()];
                    self.fetch(page, &mut room)?;
                }
                Err(error) => return Err(self.aborted_or(error)),
            }
        }
    }

    fn commit(&mut self) -> Result<u64> {
        self.check()?;
        if let Err(error) = self.client.finish() {
            return Err(self.aborted_or(error));
        }
        let waited = self.wait_while(Status::Committing);
        if self.client.status() == Status::Committing {
            waited?;
        }
        // Once it has ended, whatever fails behind that is told by later calls.
        match self.client.last() {
            Some(Ended::Committed(number)) => Ok(number),
            _ => Err(Error::Aborted),
        }
    }
}

impl<S> fmt::Debug for Link<S> {
    fn fmt(&self, f: &mut fmt::Formatter<'_>) -> fmt::Result {
        f.debug_struct("Link")
            .field("client", &self.client)
            .field("gone", &self.gone)
            .finish_non_exhaustive()
    }
}

/// An open transaction. Unless it is committed, it is dropped, without waiting for an answer, and
/// what it wrote is undone. If the server heard nothing of it, nothing is sent then: its Drop goes
/// out before the link's next frame.
pub struct Transaction<'l, S: Read + Write> {
    link: &'l mut Link<S>,
}

impl<'l, S: Read + Write> Transaction<'l, S> {
    /// Reads a page into the room, which is as long as a page. Nobody writes the page before the
    /// transaction ends, unless the server restarts or is told that the client left.
    pub fn read_into(&mut self, page: u32, room: &mut [u8]) -> Result<()> {
        self.link.fetch(page, room)
    }

    /// The bytes of a page.
    pub fn read(&mut self, page: u32) -> Result<Vec<u8>> {
        let mut room = vec![0u8; self.link.client.page_size()];
        self.link.fetch(page, &mut room)?;
        Ok(room)
    }

    /// Asks to write a page that the transaction has read, and doesn't wait for the answer. Returns
    /// whether it may be written already.
    pub fn ask_to_write(&mut self, page: u32) -> Result<bool> {
        self.link.check()?;
        match self.link.client.want(page) {
            Ok(may) => self.link.send_said().map(|()| may),
            Err(error) => Err(self.link.aborted_or(error)),
        }
    }

    /// Writes a page that the transaction has read.
    pub fn write(&mut self, page: u32, bytes: &[u8]) -> Result<()> {
        self.link.want(page)?;
        match self.link.client.write(page, bytes) {
            Ok(()) => Ok(()),
            Err(error) => Err(self.link.aborted_or(error)),
        }
    }

    /// Commits, and waits until the commit is on disk. Returns its number.
    pub fn commit(self) -> Result<u64> {
        // What is left to drop is nothing, unless the commit was refused.
        self.link.commit()
    }
}

impl<S: Read + Write> Drop for Transaction<'_, S> {
    fn drop(&mut self) {
        if !self.link.gone
            && matches!(self.link.client.status(), Status::Open | Status::Waiting)
            && self.link.client.drop_transaction().is_ok()
        {
            // Where the stream fails, the next call says so.
            let _ = self.link.send_drop();
        }
    }
}

impl<S: Read + Write> fmt::Debug for Transaction<'_, S> {
    fn fmt(&self, f: &mut fmt::Formatter<'_>) -> fmt::Result {
        f.debug_struct("Transaction")
            .field("link", &self.link)
            .finish()
    }
}
