//! A server and clients in one process: the clients' streams hand their frames to the server at
//! once, and what it says is read from them. So no test rests on time or on a schedule.
use rughvadi::{read_frame, Client, Ended, Error, Limits, Link, Server, Status};
use std::cell::RefCell;
use std::collections::VecDeque;
use std::io::{self, Read, Write};
use std::rc::Rc;

const LIMITS: Limits = Limits {
    clients: 2,
    pages: 4,
    page_size: 64,
    slots: 4,
    kin: 1,
    kout: 4,
    keep_write: false,
};

/// A server, its disk, and what is on its way to each client.
struct Host {
    server: Server,
    disk: Vec<(u64, Vec<u8>)>,
    last_commit: u64,
    to_clients: Vec<VecDeque<u8>>,
}

impl Host {
    fn new() -> Rc<RefCell<Host>> {
        Rc::new(RefCell::new(Host {
            server: Server::new(&LIMITS).unwrap(),
            disk: vec![(0, vec![0; 64]); 4],
            last_commit: 0,
            to_clients: vec![VecDeque::new(), VecDeque::new()],
        }))
    }

    fn deliver(&mut self) {
        while let Some((client, frame)) = self.server.next_frame().unwrap() {
            self.to_clients[client as usize].extend(frame);
        }
    }

    fn flush(&mut self) {
        if let Some(batch) = self.server.batch().unwrap() {
            for page in batch.pages {
                self.disk[page.page as usize] = (page.version, page.bytes);
            }
            self.last_commit = batch.number;
            assert!(self.server.can_flush(batch.number));
            self.server.flushed(batch.number).unwrap();
            self.server.forget(batch.number).unwrap();
            self.deliver();
        }
    }
}

/// A client's end of the connection.
struct Stream {
    host: Rc<RefCell<Host>>,
    client: usize,
}

impl Write for Stream {
    fn write(&mut self, bytes: &[u8]) -> io::Result<usize> {
        let mut host = self.host.borrow_mut();
        let used = host.server.take(bytes).map_err(io::Error::other_of)?;
        host.deliver();
        Ok(used)
    }

    fn flush(&mut self) -> io::Result<()> {
        Ok(())
    }
}

impl Read for Stream {
    fn read(&mut self, room: &mut [u8]) -> io::Result<usize> {
        let mut host = self.host.borrow_mut();
        host.flush();
        host.to_clients[self.client].read(room)
    }
}

trait OtherOf {
    fn other_of(error: Error) -> io::Error;
}

impl OtherOf for io::Error {
    fn other_of(error: Error) -> io::Error {
        io::Error::new(io::ErrorKind::Other, error.to_string())
    }
}

fn open(host: &Rc<RefCell<Host>>, client: u32) -> Link<Stream> {
    let stream = Stream {
        host: Rc::clone(host),
        client: client as usize,
    };
    Link::open(&LIMITS, client, 1, stream).unwrap()
}

/// Adds one to the first byte of a page; what it was.
fn count(link: &mut Link<Stream>, page: u32) -> (u8, u64) {
    link.run(|transaction| {
        let mut bytes = transaction.read(page)?;
        let was = bytes[0];
        bytes[0] += 1;
        transaction.write(page, &bytes)?;
        Ok(was)
    })
    .unwrap()
}

#[test]
fn a_client_counts_and_the_disk_has_it() {
    let host = Host::new();
    let mut link = open(&host, 0);
    for wanted in 0..5 {
        let (was, number) = count(&mut link, 2);
        assert_eq!((was, number), (wanted, u64::from(wanted) + 1));
    }
    assert_eq!(host.borrow().disk[2].1[0], 5);
    assert_eq!(host.borrow().last_commit, 5);
    assert!(!host.borrow().server.can_flush(5));
    assert_eq!(link.client().last(), Some(Ended::Committed(5)));
    assert_eq!(link.client().peek(2).unwrap().unwrap()[0], 5);
    assert_eq!(link.client().peek(3).unwrap(), None);
}

/// A client counts the page up, while the other answers what is asked of it.
fn count_beside(one: &mut Link<Stream>, other: &mut Link<Stream>) -> u8 {
    let mut transaction = one.transaction().unwrap();
    let mut bytes = transaction.read(1).unwrap();
    let was = bytes[0];
    bytes[0] += 1;
    // The ask calls the other's copy back, if it has one; it is given up as that one is served.
    if !transaction.ask_to_write(1).unwrap() && other.client().peek(1).unwrap().is_some() {
        assert!(other.serve().unwrap());
        assert_eq!(other.client().peek(1).unwrap(), None);
    }
    transaction.write(1, &bytes).unwrap();
    transaction.commit().unwrap();
    was
}

#[test]
fn two_clients_see_each_others_commits() {
    let host = Host::new();
    let (mut one, mut other) = (open(&host, 0), open(&host, 1));
    for round in 0..4 {
        assert_eq!(count_beside(&mut one, &mut other), 2 * round);
        assert_eq!(count_beside(&mut other, &mut one), 2 * round + 1);
    }
    assert_eq!(host.borrow().disk[1].1[0], 8);
}

#[test]
fn a_transaction_that_is_let_go_is_undone() {
    let host = Host::new();
    let mut link = open(&host, 0);
    {
        let mut transaction = link.transaction().unwrap();
        let mut bytes = transaction.read(0).unwrap();
        bytes[0] = 9;
        transaction.write(0, &bytes).unwrap();
    }
    assert_eq!(link.client().last(), Some(Ended::Dropped));
    assert_eq!(count(&mut link, 0).0, 0);
}

#[test]
fn a_server_opens_over_what_was_written() {
    let host = Host::new();
    count(&mut open(&host, 0), 3);
    let (number, rows) = {
        let host = host.borrow();
        (host.last_commit, host.disk.clone())
    };
    let host = Host::new();
    host.borrow_mut().server = Server::open(&LIMITS, number, rows).unwrap();
    let mut link = open(&host, 0);
    assert_eq!(count(&mut link, 3), (1, 2));
}

/// Whether the server welcomes the client in this incarnation.
fn welcomes(server: &mut Server, client: u32, incarnation: u64) -> bool {
    let mut client = Client::new(&LIMITS, client, incarnation).unwrap();
    client.hello().unwrap();
    let hello = client.next_frame().unwrap().unwrap();
    server.take(&hello).unwrap();
    server.next_frame().unwrap().map_or(false, |(_, welcome)| {
        client.take(&welcome).unwrap();
        client.status() == Status::Idle
    })
}

#[test]
fn a_server_in_a_life_takes_nothing_below_its_floor() {
    let rows = || (0..4).map(|_| (1, vec![0; 64]));
    let mut server = Server::open_life(&LIMITS, 1, 5, rows()).unwrap();
    assert_eq!(server.next_incarnation(1).unwrap(), 6);
    assert!(!welcomes(&mut server, 0, 4));
    assert!(welcomes(&mut server, 0, 6));
    let server = Server::open_life(&LIMITS, 1, 0, rows()).unwrap();
    assert_eq!(server.next_incarnation(1).unwrap(), 1);
    assert!(Server::open_life(&LIMITS, 1, (1 << 62) - 1, rows()).is_ok());
    assert!(matches!(
        Server::open_life(&LIMITS, 1, 1 << 62, rows()).err(),
        Some(Error::Range)
    ));
}

#[test]
fn faults_have_names_and_texts() {
    let mut limits = LIMITS;
    limits.kin = 4;
    let fault = Server::new(&limits).err().unwrap();
    assert!(matches!(fault, Error::Limits(0x205)));
    assert_eq!(fault.to_string(), "kin: 1 to one less than the slots");
    let mut client = Client::new(&LIMITS, 0, 1).unwrap();
    assert_eq!(client.status(), Status::NotWelcome);
    assert!(matches!(client.begin(), Err(Error::NotWelcome)));
    client.hello().unwrap();
    assert!(matches!(client.hello(), Err(Error::Unfetched)));
    assert!(matches!(client.take(&[2]), Err(Error::Unfetched)));
    let frame = client.next_frame().unwrap().unwrap();
    let head = read_frame(&LIMITS, &frame).unwrap();
    assert_eq!(
        (head.length, head.client, head.kind, head.incarnation),
        (16, 0, 1, 1)
    );
    assert!(matches!(
        read_frame(&LIMITS, &frame[..15]),
        Err(Error::FrameShort)
    ));
    assert!(matches!(client.take(&[0; 16]), Err(Error::Frame(0x102))));
    assert!(matches!(
        Client::new(&LIMITS, 2, 1).err(),
        Some(Error::Range)
    ));
    assert_eq!(rughvadi::version(), 1);
}

#[test]
fn limits_have_defaults_that_every_pool_takes() {
    for slots in [2, 3, 4, 7, 8, 1024] {
        let limits = Limits::new(8, 16, 64, slots);
        assert_eq!(limits.kin, (slots / 4).max(1));
        assert_eq!(limits.kout, (slots / 2).max(1));
        assert!(!limits.keep_write);
        assert!(Client::new(&limits, 7, 1).is_ok());
    }
    let limits = Limits::new(8, 16, 64, 8).with_kin(3).with_kout(5);
    assert_eq!((limits.kin, limits.kout), (3, 5));
    assert!(limits.with_keep_write(true).keep_write);
}

#[test]
fn a_client_that_went_away_is_left() {
    let host = Host::new();
    let mut link = open(&host, 1);
    count(&mut link, 0);
    drop(link);
    let mut host = host.borrow_mut();
    assert_eq!(host.server.next_incarnation(1).unwrap(), 2);
    host.server.leave(1).unwrap();
    let (client, _welcome) = host.server.next_frame().unwrap().unwrap();
    assert_eq!(client, 1);
    assert_eq!(host.server.next_incarnation(1).unwrap(), 3);
    assert!(matches!(host.server.leave(2), Err(Error::Range)));
}
