//! held_reads SIZE: times reads of what a process has at hand, in Rust.
//!
//! For pages of so many bytes: a link of the crate over a Unix socket, whose client holds the
//! pages, at a server on a thread of its own. It has 512 pages, drawn evenly, and copies what it
//! reads. It takes forty short turns; each begins with reads that aren't counted, and the fastest
//! counts.
//!
//! It prints nanoseconds of a read within a transaction, of a transaction of one, and of one of
//! eight, which drop.
use rughvadi::{Error, Limits, Link, Server};
use std::io::{Read, Write};
use std::os::unix::net::UnixStream;
use std::time::Instant;
use std::{env, error, thread};

const COUNT: u32 = 512;
const TURNS: usize = 40;
/// So many reads has a transaction: of the first way each read is told, of the others the whole.
const WAYS: [u32; 3] = [1000, 1, 8];

type Outcome<T = ()> = Result<T, Box<dyn error::Error>>;

/// The library: a link, and room for a page.
struct Linked {
    link: Link<UnixStream>,
    room: Vec<u8>,
}

impl Linked {
    /// Reads so many pages in one transaction, beginning with that one.
    fn read(&mut self, from: u32, many: u32) -> Outcome {
        let mut transaction = self.link.transaction()?;
        for page in (0..many).map(|at| (from ^ at) % COUNT) {
            transaction.read_into(page, &mut self.room)?;
        }
        Ok(())
    }
}

/// A link that holds all pages.
fn linked(size: usize) -> Outcome<Linked> {
    let limits = Limits::new(1, COUNT, size, COUNT as usize);
    let (ours, theirs) = UnixStream::pair()?;
    thread::spawn(move || serve(&limits, theirs).expect("a server"));
    let link = Link::open_socket(&limits, 0, 1, ours)?;
    let room = vec![0; size];
    let mut linked = Linked { link, room };
    linked.read(0, COUNT)?;
    Ok(linked)
}

/// Serves one client until its connection ends.
fn serve(limits: &Limits, mut end: UnixStream) -> rughvadi::Result<()> {
    let mut server = Server::new(limits)?;
    let (mut came, mut room) = (Vec::new(), vec![0; 1 << 16]);
    loop {
        let got = end.read(&mut room)?;
        if got == 0 {
            return Ok(());
        }
        came.extend_from_slice(&room[..got]);
        take_frames(&mut server, &mut came, &mut end)?;
    }
}

/// Takes each whole frame that came, and sends what is said to it.
fn take_frames(
    server: &mut Server,
    came: &mut Vec<u8>,
    end: &mut UnixStream,
) -> rughvadi::Result<()> {
    let mut taken = 0;
    while taken < came.len() {
        match server.take(&came[taken..]) {
            Ok(used) => taken += used,
            Err(Error::FrameShort) => break,
            Err(error) => return Err(error),
        }
        send_said(server, end)?;
    }
    came.drain(..taken);
    Ok(())
}

fn send_said(server: &mut Server, end: &mut UnixStream) -> rughvadi::Result<()> {
    while let Some((_, frame)) = server.next_frame()? {
        end.write_all(&frame)?;
    }
    Ok(())
}

/// Drawn evenly.
struct Draws(u64);

impl Draws {
    fn next(&mut self) -> u32 {
        self.0 ^= self.0 << 13;
        self.0 ^= self.0 >> 7;
        self.0 ^= self.0 << 17;
        (self.0 % u64::from(COUNT)) as u32
    }
}

/// Nanoseconds of a transaction of so many reads; of a read, where they are a thousand.
fn timed(linked: &mut Linked, many: u32, draws: &mut Draws) -> Outcome<f64> {
    let times = if many > 8 { 1 } else { 400 / many };
    let mut turn = || (0..times).try_for_each(|_| linked.read(draws.next(), many));
    turn()?;
    let begun = Instant::now();
    turn()?;
    let each = if many > 8 { many } else { times };
    Ok(begun.elapsed().as_nanos() as f64 / f64::from(each))
}

fn main() -> Outcome {
    let size = env::args().nth(1).ok_or("SIZE")?.parse()?;
    let mut linked = linked(size)?;
    let mut draws = Draws(88172645463325252);
    let mut best = [f64::INFINITY; WAYS.len()];
    for turn in 0..TURNS * WAYS.len() {
        let way = turn % WAYS.len();
        best[way] = timed(&mut linked, WAYS[way], &mut draws)?.min(best[way]);
    }
    let [read, one, eight] = best;
    print!("Rust, {size} bytes, a link: read {read:.0} ns, ");
    println!("transaction of 1 {one:.0} ns, of 8 {eight:.0} ns");
    Ok(())
}
