//! A link whose server is in the test's own process. What the link writes is taken by the server at
//! once, and what that says lies in the link's socket then. So no test rests on a schedule. A
//! second client, `other`, talks to the server without a socket.
use rughvadi::{Client, Limits, Link, Server};
use std::cell::RefCell;
use std::io::{self, Read, Write};
use std::os::unix::io::{AsRawFd, RawFd};
use std::os::unix::net::UnixStream;
use std::rc::Rc;

pub const LIMITS: Limits = Limits::new(2, 4, 64, 4).with_keep_write(true);
pub const OTHER: u32 = 0;
pub const OURS: u32 = 1;

/// What a test does as the link writes.
pub trait Watch {
    /// Before the server gets these bytes, of a frame of which so many went before: how many go.
    fn before(&mut self, bytes: &[u8], before: &[u8]) -> io::Result<usize> {
        let _ = before;
        Ok(bytes.len())
    }

    /// A frame of this kind was taken, and answered.
    fn behind(&mut self, kind: u8, inside: &mut Inside) {
        let _ = (kind, inside);
    }

    /// The link reads what came.
    fn reads(&mut self) {}
}

/// The server, the other client, and the server's end of the link's socket.
pub struct Inside {
    pub server: Server,
    pub other: Client,
    theirs: UnixStream,
}

impl Inside {
    /// Hands on what both say, until neither has more to say, and nothing is left to write.
    pub fn pass(&mut self) {
        loop {
            if let Some((client, frame)) = self.server.next_frame().unwrap() {
                if client == OURS {
                    self.theirs.write_all(&frame).unwrap();
                } else {
                    assert_eq!(self.other.take(&frame).unwrap(), frame.len());
                }
            } else if let Some(frame) = self.other.next_frame().unwrap() {
                assert_eq!(self.server.take(&frame).unwrap(), frame.len());
            } else if let Some(batch) = self.server.batch().unwrap() {
                self.server.flushed(batch.number).unwrap();
                self.server.forget(batch.number).unwrap();
            } else {
                return;
            }
        }
    }

    /// The other client begins a transaction and reads a page.
    pub fn other_reads(&mut self, page: u32) {
        self.other.begin().unwrap();
        self.other.read(page, &mut [0; 64]).unwrap();
        self.pass();
    }

    /// The other client wants to write a page that it has read.
    pub fn other_wants(&mut self, page: u32) {
        assert!(self.other.read(page, &mut [0; 64]).unwrap());
        self.other.want(page).unwrap();
        self.pass();
    }

    pub fn other_drops(&mut self) {
        self.other.drop_transaction().unwrap();
        self.pass();
    }
}

/// The link's end.
pub struct Wire<W> {
    ours: UnixStream,
    inside: Rc<RefCell<Inside>>,
    watch: Rc<RefCell<W>>,
    sent: Vec<u8>,
}

impl<W: Watch> Wire<W> {
    pub fn new(watch: &Rc<RefCell<W>>) -> (Wire<W>, Rc<RefCell<Inside>>) {
        let (ours, theirs) = UnixStream::pair().unwrap();
        ours.set_nonblocking(true).unwrap();
        let mut inside = Inside {
            server: Server::new(&LIMITS).unwrap(),
            other: Client::new(&LIMITS, OTHER, 1).unwrap(),
            theirs,
        };
        inside.other.hello().unwrap();
        inside.pass();
        let inside = Rc::new(RefCell::new(inside));
        let wire = Wire {
            ours,
            inside: Rc::clone(&inside),
            watch: Rc::clone(watch),
            sent: Vec::new(),
        };
        (wire, inside)
    }

    pub fn opened(self) -> rughvadi::Result<Link<Wire<W>>> {
        Link::open_socket(&LIMITS, OURS, 1, self)
    }
}

impl<W: Watch> Write for Wire<W> {
    fn write(&mut self, bytes: &[u8]) -> io::Result<usize> {
        let goes = self.watch.borrow_mut().before(bytes, &self.sent)?;
        self.sent.extend_from_slice(&bytes[..goes]);
        if rughvadi::read_frame(&LIMITS, &self.sent).is_ok() {
            let frame = std::mem::take(&mut self.sent);
            let mut inside = self.inside.borrow_mut();
            assert_eq!(inside.server.take(&frame).unwrap(), frame.len());
            inside.pass();
            self.watch.borrow_mut().behind(frame[1], &mut inside);
        }
        Ok(goes)
    }

    fn flush(&mut self) -> io::Result<()> {
        Ok(())
    }
}

impl<W: Watch> Read for Wire<W> {
    fn read(&mut self, room: &mut [u8]) -> io::Result<usize> {
        self.watch.borrow_mut().reads();
        self.ours.read(room)
    }
}

impl<W> AsRawFd for Wire<W> {
    fn as_raw_fd(&self) -> RawFd {
        self.ours.as_raw_fd()
    }
}
