//! server SOCKET FILE: serves eight clients on a Unix socket, each by two threads.
//!
//! FILE has the number of the last commit, a bound of incarnations, and of each page its version
//! and bytes. It is made anew for each change, synced, and put in the former one's place. So it has
//! a whole batch or none of it.
use rughvadi::{read_frame, Batch, Error, FrameHead, Limits, Result, Server};
use std::fs::{self, File};
use std::io::{self, ErrorKind, Read, Write};
use std::net::Shutdown;
use std::os::unix::net::{UnixListener, UnixStream};
use std::path::{Path, PathBuf};
use std::process::exit;
use std::sync::mpsc::{sync_channel, Receiver, SyncSender};
use std::sync::{Arc, Condvar, Mutex, MutexGuard};
use std::{env, thread};

const LIMITS: Limits = Limits::new(8, 16, 64, 8);
/// How many frames may wait for a client; one that reads slower is disconnected.
const WAITING: usize = 1024;
/// A header; alone, of version 2 and kind 0, it asks for an incarnation.
const HEADER: usize = 16;
const HELLO: u32 = 1;
/// The bound is so much above an incarnation, and none may be so great that no bound is left.
const ABOVE: u64 = 1 << 20;
const MOST: u64 = 3 << 60;

/// The pages with their versions, the number of the last commit, and what each incarnation that was
/// ever welcome is below, as they are on disk.
struct Store {
    path: PathBuf,
    number: u64,
    below: u64,
    rows: Vec<(u64, Vec<u8>)>,
}

impl Store {
    fn open(path: &Path) -> io::Result<Store> {
        let row_size = 8 + LIMITS.page_size;
        let size = 16 + row_size * LIMITS.pages as usize;
        let bytes = match fs::read(path) {
            Err(error) if error.kind() == ErrorKind::NotFound => vec![0; size],
            other => other?,
        };
        if bytes.len() != size {
            return Err(ErrorKind::InvalidData.into());
        }
        let row = |bytes: &[u8]| (number_of(bytes), bytes[8..].to_vec());
        Ok(Store {
            path: path.to_path_buf(),
            number: number_of(&bytes),
            below: number_of(&bytes[8..]).max(1),
            rows: bytes[16..].chunks(row_size).map(row).collect(),
        })
    }

    fn write(&mut self, batch: Batch) -> io::Result<()> {
        self.number = batch.number;
        for page in batch.pages {
            self.rows[page.page as usize] = (page.version, page.bytes);
        }
        self.sync()
    }

    /// The bound is above this incarnation from now on, also after a crash.
    fn raise_above(&mut self, incarnation: u64) -> io::Result<()> {
        if incarnation >= self.below {
            self.below = incarnation + ABOVE;
            self.sync()?;
        }
        Ok(())
    }

    fn sync(&self) -> io::Result<()> {
        let mut bytes = self.number.to_le_bytes().to_vec();
        bytes.extend_from_slice(&self.below.to_le_bytes());
        for (version, page) in &self.rows {
            bytes.extend_from_slice(&version.to_le_bytes());
            bytes.extend_from_slice(page);
        }
        let new = self.path.with_extension("new");
        let mut file = File::create(&new)?;
        file.write_all(&bytes)?;
        file.sync_all()?;
        fs::rename(&new, &self.path)?;
        let folder = self.path.parent().filter(|it| !it.as_os_str().is_empty());
        File::open(folder.unwrap_or_else(|| Path::new(".")))?.sync_all()
    }
}

fn number_of(bytes: &[u8]) -> u64 {
    let mut number = [0; 8];
    number.copy_from_slice(&bytes[..8]);
    u64::from_le_bytes(number)
}

/// A client's connection, and the thread that writes to it.
struct Connected {
    connection: UnixStream,
    frames: SyncSender<Vec<u8>>,
}

/// The server, and each client that is connected.
struct Served {
    server: Server,
    clients: Vec<Option<Connected>>,
}

impl Served {
    /// Hands on what the server says. Nothing is sent under the lock.
    fn send_said(&mut self) -> Result<()> {
        while let Some((client, frame)) = self.server.next_frame()? {
            self.send(client, frame);
        }
        Ok(())
    }

    fn send(&self, client: u32, frame: Vec<u8>) {
        if let Some(to) = &self.clients[client as usize] {
            if to.frames.try_send(frame).is_err() {
                // It reads too slowly. The thread that reads from it finds its end.
                let _ = to.connection.shutdown(Shutdown::Both);
            }
        }
    }
}

const PANICKED: &str = "a thread panicked under the lock";

struct Host {
    store: Mutex<Store>,
    /// Nobody waits for the store's lock who has this one.
    served: Mutex<Served>,
    /// A commit may have come.
    came: Condvar,
}

impl Host {
    fn lock(&self) -> MutexGuard<'_, Served> {
        self.served.lock().expect(PANICKED)
    }

    /// A client's first frame came by this connection: its number is free, or it is refused.
    fn join(&self, client: u32, connection: &UnixStream) -> Result<()> {
        let mut served = self.lock();
        let place = &mut served.clients[client as usize];
        if place.is_some() {
            return Err(Error::Closed);
        }
        let (frames, receiver) = sync_channel(WAITING);
        let to = connection.try_clone()?;
        thread::spawn(move || send_all(&to, &receiver));
        let connection = connection.try_clone()?;
        *place = Some(Connected { connection, frames });
        Ok(())
    }

    /// Tells a client the incarnation that it may greet with.
    fn tell_incarnation(&self, client: u32) -> Result<()> {
        let served = self.lock();
        let incarnation = served.server.next_incarnation(client)?;
        let mut header = vec![2, 0];
        header.extend_from_slice(&(client as u16).to_be_bytes());
        header.extend_from_slice(&incarnation.to_be_bytes());
        header.resize(HEADER, 0);
        served.send(client, header);
        Ok(())
    }

    /// Hands the server a frame, unless its incarnation would leave none for later lives. What
    /// greets is below the bound.
    fn take(&self, head: &FrameHead, frame: &[u8]) -> Result<()> {
        if head.incarnation >= MOST {
            return Ok(());
        }
        if head.kind == HELLO {
            let mut store = self.store.lock().expect(PANICKED);
            store.raise_above(head.incarnation)?;
        }
        let mut served = self.lock();
        served.server.take(frame)?;
        self.came.notify_one();
        served.send_said()
    }

    /// The others would wait for what it holds.
    fn leave(&self, client: u32) -> Result<()> {
        let next = self.lock().server.next_incarnation(client)?;
        self.store.lock().expect(PANICKED).raise_above(next)?;
        let mut served = self.lock();
        served.clients[client as usize] = None;
        served.server.leave(client)?;
        served.send_said()
    }

    /// Writes what is committed. What comes meanwhile shares the next sync.
    fn write_batches(&self) -> Result<()> {
        let mut served = self.lock();
        loop {
            let batch = match served.server.batch()? {
                Some(batch) => batch,
                None => {
                    let waited = self.came.wait(served);
                    served = waited.expect(PANICKED);
                    continue;
                }
            };
            drop(served);
            let number = batch.number;
            self.store.lock().expect(PANICKED).write(batch)?;
            served = self.lock();
            served.server.flushed(number)?;
            served.server.forget(number)?;
            served.send_said()?;
        }
    }
}

fn send_all(mut connection: &UnixStream, frames: &Receiver<Vec<u8>>) {
    for frame in frames {
        if connection.write_all(&frame).is_err() {
            break;
        }
    }
    // The thread that reads finds its end.
    let _ = connection.shutdown(Shutdown::Both);
}

/// What the bytes begin with, once it is whole: the head of a frame, or of a header alone.
fn whole(bytes: &[u8]) -> Result<Option<FrameHead>> {
    if bytes.len() < HEADER {
        return Ok(None);
    }
    if bytes[..2] == [2, 0] {
        let client = u32::from(u16::from_be_bytes([bytes[2], bytes[3]]));
        if client >= LIMITS.clients {
            return Err(Error::Range);
        }
        return Ok(Some(FrameHead {
            length: HEADER,
            client,
            kind: 0,
            incarnation: 0,
        }));
    }
    match read_frame(&LIMITS, bytes) {
        Ok(head) => Ok(Some(head)),
        Err(Error::FrameShort) => Ok(None),
        Err(error) => Err(error),
    }
}

/// Takes what comes until the connection ends, or says what it may not. `client` is who it speaks
/// for: one alone.
fn receive(host: &Host, mut connection: &UnixStream, client: &mut Option<u32>) -> Result<()> {
    let (mut came, mut room) = (Vec::new(), vec![0; 1 << 16]);
    loop {
        let got = connection.read(&mut room)?;
        if got == 0 {
            return Ok(());
        }
        came.extend_from_slice(&room[..got]);
        while let Some(head) = whole(&came)? {
            if client.is_none() {
                host.join(head.client, connection)?;
                *client = Some(head.client);
            }
            if *client != Some(head.client) {
                return Err(Error::Range);
            }
            if head.kind == 0 {
                host.tell_incarnation(head.client)?;
            } else {
                host.take(&head, &came[..head.length])?;
            }
            came.drain(..head.length);
        }
    }
}

fn serve(host: &Host, connection: &UnixStream) -> Result<()> {
    let mut client = None;
    // Whatever ended it, the client is to connect anew.
    let _ = receive(host, connection, &mut client);
    client.map_or(Ok(()), |client| host.leave(client))
}

/// The whole program ends where what it serves can't go on.
fn must(done: Result<()>) {
    if let Err(error) = done {
        eprintln!("server: {}", error);
        exit(1);
    }
}

fn main() -> Result<()> {
    let words: Vec<String> = env::args().collect();
    let mut store = Store::open(Path::new(&words[2]))?;
    let floor = store.below;
    store.raise_above(floor)?;
    // It takes no frame of an incarnation below the floor.
    let server = Server::open_life(&LIMITS, store.number, floor, store.rows.iter().cloned())?;
    let clients = (0..LIMITS.clients).map(|_| None).collect();
    let host = Arc::new(Host {
        store: Mutex::new(store),
        served: Mutex::new(Served { server, clients }),
        came: Condvar::new(),
    });
    let listener = UnixListener::bind(&words[1])?;
    let writing = Arc::clone(&host);
    thread::spawn(move || must(writing.write_batches()));
    println!("ready");
    for connection in listener.incoming() {
        let (host, connection) = (Arc::clone(&host), connection?);
        thread::spawn(move || must(serve(&host, &connection)));
    }
    Ok(())
}
