//! counter SOCKET CLIENT COUNT: adds one to the counter of page 5, so many times.
use rughvadi::{Limits, Link, Result, Transaction};
use std::env;
use std::error::Error;
use std::io::{self, Read, Write};
use std::os::unix::net::UnixStream;

const LIMITS: Limits = Limits::new(8, 16, 64, 8);

/// In a transaction that is open; it is called anew where that is aborted.
fn count(transaction: &mut Transaction<'_, UnixStream>) -> Result<u64> {
    let mut page = transaction.read(5)?;
    let mut counter = [0; 8];
    counter.copy_from_slice(&page[..8]);
    let number = u64::from_le_bytes(counter) + 1;
    page[..8].copy_from_slice(&number.to_le_bytes());
    transaction.write(5, &page)?;
    Ok(number)
}

/// Asks the server for an incarnation that no earlier one of this client had.
fn ask_incarnation(stream: &mut UnixStream, client: u32) -> io::Result<u64> {
    let mut header = [0; 16];
    header[0] = 2;
    header[2..4].copy_from_slice(&(client as u16).to_be_bytes());
    stream.write_all(&header)?;
    stream.read_exact(&mut header)?;
    let mut incarnation = [0; 8];
    incarnation.copy_from_slice(&header[4..12]);
    Ok(u64::from_be_bytes(incarnation))
}

fn main() -> std::result::Result<(), Box<dyn Error>> {
    let words: Vec<String> = env::args().collect();
    let (client, times): (u32, u64) = (words[2].parse()?, words[3].parse()?);
    let mut stream = UnixStream::connect(&words[1])?;
    let incarnation = ask_incarnation(&mut stream, client)?;
    let mut link = Link::open_socket(&LIMITS, client, incarnation, stream)?;
    for _ in 0..times {
        link.run(count)?;
    }
    println!("counted {}", times);
    Ok(())
}
