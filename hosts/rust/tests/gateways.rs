//! Connecting to gateways: which of several addresses is taken, and what ends a wait. Each gateway
//! here is a thread; no test rests on a schedule.
use rughvadi::{Error, Gateways, Limits, Refusal, Server, Token};
use std::fs;
use std::io::{Read, Write};
use std::os::unix::net::{UnixListener, UnixStream};
use std::path::PathBuf;
use std::sync::mpsc::{channel, Receiver, Sender};
use std::thread::{self, JoinHandle};
use std::time::Duration;

const LIMITS: Limits = Limits::new(2, 4, 64, 4);
const TOKEN: Token = [7; 32];
const SHORT: Duration = Duration::from_millis(20);

/// A folder of its own, with sockets; it goes at the end.
struct Folder(PathBuf);

impl Folder {
    fn new(name: &str) -> Folder {
        let path = std::env::temp_dir().join(format!("rughvadi_{}_{}", name, std::process::id()));
        fs::create_dir(&path).unwrap();
        Folder(path)
    }

    fn path(&self, name: &str) -> String {
        self.0.join(name).to_str().unwrap().to_string()
    }

    fn listener(&self, name: &str) -> UnixListener {
        UnixListener::bind(self.path(name)).unwrap()
    }

    fn gateways(&self, names: &str) -> Gateways {
        let paths: Vec<_> = names.split(' ').map(|name| self.path(name)).collect();
        Gateways::new(&paths.join(","), &TOKEN, "main")
    }
}

impl Drop for Folder {
    fn drop(&mut self) {
        let _ = fs::remove_dir_all(&self.0);
    }
}

/// Answers a greeting by this number.
fn answer(stream: &mut UnixStream, what: u8) {
    let mut greeting = [0; 46];
    stream.read_exact(&mut greeting).unwrap();
    assert_eq!(&greeting[..10], b"rughvadi\x01\x04");
    assert_eq!(&greeting[10..42], &TOKEN);
    assert_eq!(&greeting[42..], b"main");
    let mut answer = vec![1, what, 0, 1];
    answer.extend_from_slice(&9u64.to_be_bytes());
    for number in [2u32, 4, 64, 4, 1, 2, 0] {
        answer.extend_from_slice(&number.to_be_bytes());
    }
    stream.write_all(&answer).unwrap();
}

/// Serves one connection: until it ends, or for so many frames and then until the sender is gone.
fn serve(stream: &mut UnixStream, frames: usize, is_over: &Receiver<()>) {
    let mut server = Server::new(&LIMITS).unwrap();
    let (mut came, mut room, mut taken) = (Vec::new(), [0u8; 4096], 0);
    loop {
        match stream.read(&mut room) {
            Ok(0) | Err(_) => return,
            Ok(got) => came.extend_from_slice(&room[..got]),
        }
        while let Ok(used) = server.take(&came) {
            came.drain(..used);
            while let Some((_, frame)) = server.next_frame().unwrap() {
                let _ = stream.write_all(&frame);
            }
            taken += 1;
            if taken == frames {
                let _ = is_over.recv();
                return;
            }
        }
    }
}

/// A gateway that answers so many connections by this number, one after another.
fn gateway(listener: UnixListener, what: u8, count: usize) -> JoinHandle<()> {
    let (_sender, receiver): (Sender<()>, _) = channel();
    thread::spawn(move || {
        for _ in 0..count {
            let (mut stream, _) = listener.accept().unwrap();
            answer(&mut stream, what);
            if what == 0 {
                serve(&mut stream, usize::MAX, &receiver);
            }
        }
    })
}

/// Connects, and reads a page.
fn connects(gateways: &mut Gateways) -> Result<(), Error> {
    let (mut link, limits) = gateways.connect()?;
    assert_eq!(limits, LIMITS);
    assert_eq!(link.transaction()?.read(1)?, vec![0; 64]);
    Ok(())
}

#[test]
fn it_goes_on_where_the_store_is_not_served() {
    let folder = Folder::new("goes_on");
    let up = gateway(folder.listener("up"), 0, 1);
    let down = gateway(folder.listener("down"), 5, 2);
    let mut gateways = folder.gateways("absent down up");
    connects(&mut gateways).unwrap();
    up.join().unwrap();
    let answer = connects(&mut folder.gateways("absent down"));
    assert!(matches!(answer, Err(Error::Refused(Refusal::Down))));
    down.join().unwrap();
    let answer = connects(&mut folder.gateways("down absent"));
    assert!(matches!(answer, Err(Error::Io(_))));
}

#[test]
fn a_refusal_is_told_at_once() {
    let refusals = [
        Refusal::Greeting,
        Refusal::Token,
        Refusal::Store,
        Refusal::Client,
    ];
    for (what, wanted) in (1..).zip(refusals) {
        let folder = Folder::new(&format!("refused_{}", what));
        let refuses = gateway(folder.listener("refuses"), what, 1);
        // Who would go on would wait there.
        let _up = folder.listener("up");
        match connects(&mut folder.gateways("refuses up")) {
            Err(Error::Refused(refusal)) => assert_eq!(refusal, wanted),
            other => panic!("{:?}", other),
        }
        refuses.join().unwrap();
    }
}

#[test]
fn each_call_begins_behind_the_address_that_was_tried_last() {
    let folder = Folder::new("turns");
    let mut gateways = folder.gateways("one two");
    let one = gateway(folder.listener("one"), 0, 2);
    let two = gateway(folder.listener("two"), 0, 1);
    connects(&mut gateways).unwrap(); // one
    connects(&mut gateways).unwrap(); // two, which ends
    two.join().unwrap();
    connects(&mut gateways).unwrap(); // one, which ends
    one.join().unwrap();
    assert!(matches!(connects(&mut gateways), Err(Error::Io(_))));
}

#[test]
fn a_silent_gateway_is_left() {
    let folder = Folder::new("silent");
    let _silent = folder.listener("silent");
    let mut gateways = folder.gateways("silent").greeting_timeout(SHORT);
    match connects(&mut gateways) {
        Err(Error::Io(error)) => assert_eq!(error.kind(), std::io::ErrorKind::TimedOut),
        other => panic!("{:?}", other),
    }
}

#[test]
fn a_sending_has_a_limit() {
    let folder = Folder::new("stuffed");
    let listener = folder.listener("stuffed");
    let (is_over, receiver) = channel();
    let reads_once = thread::spawn(move || {
        let (mut stream, _) = listener.accept().unwrap();
        answer(&mut stream, 0);
        serve(&mut stream, 1, &receiver);
    });
    let mut gateways = folder.gateways("stuffed").send_timeout(SHORT);
    let (mut link, _) = gateways.connect().unwrap();
    let soon = Some(Duration::from_millis(1));
    link.stream().set_read_timeout(soon).unwrap();
    // What isn't read fills the socket, until no frame fits any more.
    while link.transaction().map(drop).is_ok() {
        let _ = link.serve(); // sends the Drop
    }
    assert!(matches!(link.serve(), Err(Error::Closed)));
    drop(is_over);
    reads_once.join().unwrap();
}

#[test]
fn a_name_that_no_store_has() {
    let folder = Folder::new("names");
    let _up = folder.listener("up");
    for name in ["a\0b".to_string(), "a".repeat(64)] {
        let answer = Gateways::new(&folder.path("up"), &TOKEN, &name).connect();
        assert!(matches!(answer, Err(Error::Refused(Refusal::Store))));
    }
}
