//! What is left of a client whose stream ended: each call says so, also of a page that it holds.
use rughvadi::{Error, Limits, Link, Server};
use std::cell::Cell;
use std::io::{self, ErrorKind, Read, Write};
use std::net::Shutdown;
use std::os::unix::net::UnixStream;
use std::rc::Rc;
use std::thread::{self, JoinHandle};

const LIMITS: Limits = Limits {
    clients: 2,
    pages: 4,
    page_size: 64,
    slots: 4,
    kin: 1,
    kout: 4,
    keep_write: false,
};

/// A server for one connection, until that ends.
fn serve(mut stream: UnixStream) {
    let mut server = Server::new(&LIMITS).expect("a server");
    let (mut came, mut room) = (Vec::new(), [0u8; 4096]);
    loop {
        match stream.read(&mut room) {
            Ok(0) | Err(_) => return,
            Ok(got) => came.extend_from_slice(&room[..got]),
        }
        while let Ok(used) = server.take(&came) {
            came.drain(..used);
            while let Some((_, frame)) = server.next_frame().expect("a frame") {
                stream.write_all(&frame).expect("sent");
            }
        }
    }
}

fn is_closed<T>(answer: Result<T, Error>) -> bool {
    matches!(answer, Err(Error::Closed))
}

/// A link to a server, a stream that ends both, and the server's thread.
fn served() -> (Link<UnixStream>, UnixStream, JoinHandle<()>) {
    let (ours, theirs) = UnixStream::pair().expect("a pair");
    let end = theirs.try_clone().expect("a clone");
    let server = thread::spawn(move || serve(theirs));
    (
        Link::open(&LIMITS, 0, 1, ours).expect("a link"),
        end,
        server,
    )
}

#[test]
fn a_held_page_is_gone_with_the_stream() {
    let (mut link, end, server) = served();
    let answer = link.run(|transaction| {
        let mut page = transaction.read(2)?;
        page[0] += 1;
        transaction.write(2, &page)?;
        end.shutdown(Shutdown::Both).map_err(Error::Io)?;
        Ok(())
    });
    // The Commit is written to a stream that is shut, or its answer doesn't come.
    assert!(matches!(answer, Err(Error::Closed | Error::Io(_))));
    assert!(is_closed(link.serve()));
    assert!(is_closed(link.run(|transaction| transaction.read(2))));
    server.join().expect("the server's thread");
}

#[test]
fn an_open_transaction_is_gone_with_the_stream() {
    let (mut link, end, server) = served();
    let mut transaction = link.transaction().expect("a transaction");
    let page = transaction.read(2).expect("a page");
    transaction.write(2, &page).expect("it may write");
    end.shutdown(Shutdown::Both).expect("the end");
    // The ask for a page that isn't here finds the stream's end.
    assert!(matches!(
        transaction.read(3),
        Err(Error::Closed | Error::Io(_))
    ));
    assert!(is_closed(transaction.read(2)));
    assert!(is_closed(transaction.ask_to_write(2)));
    assert!(is_closed(transaction.write(2, &page)));
    assert!(is_closed(transaction.commit()));
    server.join().expect("the server's thread");
}

/// A stream whose reads fail by this number of the system's, or by a time-out of its own at 0.
struct Failing {
    stream: UnixStream,
    fails: Rc<Cell<Option<i32>>>,
}

impl Read for Failing {
    fn read(&mut self, room: &mut [u8]) -> io::Result<usize> {
        match self.fails.get() {
            None => self.stream.read(room),
            Some(0) => Err(ErrorKind::TimedOut.into()),
            Some(number) => Err(io::Error::from_raw_os_error(number)),
        }
    }
}

impl Write for Failing {
    fn write(&mut self, bytes: &[u8]) -> io::Result<usize> {
        self.stream.write(bytes)
    }

    fn flush(&mut self) -> io::Result<()> {
        Ok(())
    }
}

#[test]
fn a_wait_that_passed_is_no_end_and_a_connection_that_tcp_gave_up_is() {
    const AGAIN: i32 = 11;
    const TIMED_OUT: i32 = 110;
    let (stream, theirs) = UnixStream::pair().expect("a pair");
    let server = thread::spawn(move || serve(theirs));
    let fails = Rc::new(Cell::new(None));
    let failing = Failing {
        stream,
        fails: Rc::clone(&fails),
    };
    let mut link = Link::open(&LIMITS, 0, 1, failing).expect("a link");
    for late in [0, AGAIN] {
        fails.set(Some(late));
        assert!(!link.serve().expect("it is late"));
    }
    fails.set(Some(TIMED_OUT));
    assert!(matches!(link.serve(), Err(Error::Io(_))));
    assert!(is_closed(link.serve()));
    drop(link);
    server.join().expect("the server's thread");
}
