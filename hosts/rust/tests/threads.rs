//! Servers and clients that move between threads. Each client uses a page of its own, so none waits
//! for another: no test rests on time or on a schedule.
use rughvadi::{Limits, Link, Result, Server};
use std::io::{self, ErrorKind, Read, Write};
use std::sync::mpsc::{channel, Receiver, Sender};
use std::thread;

const CLIENTS: u32 = 4;
const ROUNDS: u8 = 50;
const LIMITS: Limits = Limits {
    clients: CLIENTS,
    pages: CLIENTS,
    page_size: 64,
    slots: 4,
    kin: 1,
    kout: 4,
    keep_write: false,
};

/// A client's end of the connection.
struct Pipe {
    to_server: Sender<Vec<u8>>,
    from_server: Receiver<Vec<u8>>,
    came: Vec<u8>,
}

impl Write for Pipe {
    fn write(&mut self, bytes: &[u8]) -> io::Result<usize> {
        let sent = self.to_server.send(bytes.to_vec());
        sent.map_err(|_| io::Error::from(ErrorKind::BrokenPipe))?;
        Ok(bytes.len())
    }

    fn flush(&mut self) -> io::Result<()> {
        Ok(())
    }
}

impl Read for Pipe {
    fn read(&mut self, room: &mut [u8]) -> io::Result<usize> {
        if self.came.is_empty() {
            // Where the server is gone nothing comes, which is the stream's end.
            self.came = self.from_server.recv().unwrap_or_default();
        }
        let size = room.len().min(self.came.len());
        room[..size].copy_from_slice(&self.came[..size]);
        self.came.drain(..size);
        Ok(size)
    }
}

/// Serves until each client is gone; the server, and the first byte of each page on disk.
fn serve(mut server: Server, frames: Receiver<Vec<u8>>, clients: Vec<Sender<Vec<u8>>>) -> Served {
    let mut disk = vec![0; CLIENTS as usize];
    for frame in frames {
        server.take(&frame).unwrap();
        send_said(&mut server, &clients);
        if let Some(batch) = server.batch().unwrap() {
            for page in batch.pages {
                disk[page.page as usize] = page.bytes[0];
            }
            server.flushed(batch.number).unwrap();
            server.forget(batch.number).unwrap();
            send_said(&mut server, &clients);
        }
    }
    (server, disk)
}

type Served = (Server, Vec<u8>);

fn send_said(server: &mut Server, clients: &[Sender<Vec<u8>>]) {
    while let Some((client, frame)) = server.next_frame().unwrap() {
        // To a client that is gone nothing is sent.
        let _ = clients[client as usize].send(frame);
    }
}

/// Adds one to the first byte of the page so often.
fn count(link: &mut Link<Pipe>, page: u32, rounds: u8) -> Result<()> {
    for _ in 0..rounds {
        link.run(|transaction| {
            let mut bytes = transaction.read(page)?;
            bytes[0] += 1;
            transaction.write(page, &bytes)
        })?;
    }
    Ok(())
}

#[test]
fn a_server_and_its_clients_move_to_threads_and_back() {
    let (to_server, frames) = channel();
    let (mut senders, mut receivers) = (Vec::new(), Vec::new());
    for _ in 0..CLIENTS {
        let (sender, receiver) = channel();
        senders.push(sender);
        receivers.push(receiver);
    }
    let server = Server::new(&LIMITS).unwrap();
    let served = thread::spawn(move || serve(server, frames, senders));

    // Each client is made here, counts on a thread of its own, comes back, and counts here.
    let mut counting = Vec::new();
    for (client, from_server) in (0..CLIENTS).zip(receivers) {
        let pipe = Pipe {
            to_server: to_server.clone(),
            from_server,
            came: Vec::new(),
        };
        let mut link = Link::open(&LIMITS, client, 1, pipe).unwrap();
        counting.push(thread::spawn(move || {
            count(&mut link, client, ROUNDS).unwrap();
            link
        }));
    }
    drop(to_server);
    for (client, counted) in (0..CLIENTS).zip(counting) {
        let mut link = counted.join().unwrap();
        count(&mut link, client, 1).unwrap();
        assert_eq!(link.client().peek(client).unwrap().unwrap()[0], ROUNDS + 1);
    }

    // The server ends once the last client is gone, and is used on.
    let (server, disk) = served.join().unwrap();
    assert_eq!(disk, vec![ROUNDS + 1; CLIENTS as usize]);
    assert_eq!(server.next_incarnation(0).unwrap(), 2);
}
