//! kv ADDRESSES TOKENS CLIENT STORE[,STORE..] (put KEY VALUE | get KEY | delete KEY | fill COUNT)
//!
//! ADDRESSES are those of the stores' gateways, with commas between them: where a connection ends
//! it goes on at the next one.
//!
//! Values by keys, on pages: a hash of one level. A key's hash says in which of the stores it is,
//! and on which page there; a page has its entries one after another. `fill` puts the keys k0, k1,
//! .. with their numbers, and reads all of them back.
//!
//! Each store has a thread of its own. It goes on to answer the store's server while the others
//! wait: a client that holds pages of one store and waits at another would else hold up everybody.
use rughvadi::{read_token, Error, Gateways, Limits, Link, Refusal, Result, Stream, Token};
use std::env;
use std::process::exit;
use std::sync::mpsc::{channel, Receiver, RecvTimeoutError, Sender};
use std::thread::{self, sleep};
use std::time::Duration;

/// So often an idle link is looked at.
const IDLE: Duration = Duration::from_millis(5);
/// For so long an answer is awaited, before what may be lost is said again.
const ANSWER: Duration = Duration::from_secs(1);

/// Keys and values are shorter than this.
const MOST: usize = 256;

/// FNV-1a, of 64 bits.
fn hash(key: &str) -> u64 {
    key.bytes().fold(0xcbf2_9ce4_8422_2325, |hash, byte| {
        (hash ^ u64::from(byte)).wrapping_mul(0x0100_0000_01b3)
    })
}

/// The entries of a page: the key's length, the value's, the key, the value. A length of 0 ends
/// them.
struct Bucket {
    entries: Vec<(String, String)>,
}

impl Bucket {
    fn of(page: &[u8]) -> Bucket {
        let mut entries = Vec::new();
        let mut rest = page;
        while rest.len() > 2 && rest[0] > 0 {
            let key_end = 2 + usize::from(rest[0]);
            let end = key_end + usize::from(rest[1]);
            if end > rest.len() {
                break; // it isn't a page of ours
            }
            let text = |bytes: &[u8]| String::from_utf8_lossy(bytes).into_owned();
            entries.push((text(&rest[2..key_end]), text(&rest[key_end..end])));
            rest = &rest[end..];
        }
        Bucket { entries }
    }

    /// The page with these entries; `None` where it has no room for them.
    fn page(&self, size: usize) -> Option<Vec<u8>> {
        let mut page = Vec::with_capacity(size);
        for (key, value) in &self.entries {
            page.extend_from_slice(&[key.len() as u8, value.len() as u8]);
            page.extend_from_slice(key.as_bytes());
            page.extend_from_slice(value.as_bytes());
        }
        if page.len() > size {
            return None;
        }
        page.resize(size, 0);
        Some(page)
    }

    fn get(&self, key: &str) -> Option<&str> {
        let found = self.entries.iter().find(|(other, _)| other == key);
        found.map(|(_, value)| value.as_str())
    }

    fn set(&mut self, key: &str, value: Option<&str>) {
        self.entries.retain(|(other, _)| other != key);
        if let Some(value) = value {
            self.entries.push((key.to_string(), value.to_string()));
        }
    }
}

/// What is to be done with a key. The answer is the value that it had before.
enum What {
    Get,
    Put(String),
    Delete,
}

struct Request {
    key: String,
    what: What,
    reply: Sender<Result<Option<String>>>,
}

/// A store, and the link to it while there is one.
struct Store {
    gateways: Gateways,
    link: Option<(Link<Stream>, Limits)>,
}

impl Store {
    /// Answers requests until there are no more, and in between what the server wants back.
    fn serve(mut self, requests: &Receiver<Request>) {
        loop {
            match requests.recv_timeout(IDLE) {
                Ok(request) => {
                    let answer = self.answer(&request.key, &request.what);
                    // Whoever asked may have gone.
                    let _ = request.reply.send(answer);
                }
                Err(RecvTimeoutError::Timeout) => self.answer_server(),
                Err(RecvTimeoutError::Disconnected) => return,
            }
        }
    }

    /// Takes what came: other clients wait for the pages that this one holds.
    fn answer_server(&mut self) {
        let served = match &mut self.link {
            Some((link, _)) => serve_idle(link),
            None => return,
        };
        if served.is_err() {
            self.link = None;
        }
    }

    /// In a transaction; where the server was gone all is done anew, which does no harm.
    fn answer(&mut self, key: &str, what: &What) -> Result<Option<String>> {
        for _ in 0..300 {
            match self.try_answer(key, what) {
                Err(Error::Closed | Error::Io(_) | Error::Refused(Refusal::Down)) => {
                    self.link = None;
                    sleep(Duration::from_millis(100));
                }
                other => return other,
            }
        }
        Err(Error::Closed)
    }

    fn try_answer(&mut self, key: &str, what: &What) -> Result<Option<String>> {
        if self.link.is_none() {
            self.link = Some(self.gateways.connect()?);
        }
        let (link, limits) = self.link.as_mut().ok_or(Error::Closed)?;
        let page = (hash(key) >> 32) as u32 % limits.pages;
        let answer = link.run(|transaction| {
            let bytes = transaction.read(page)?;
            let mut bucket = Bucket::of(&bytes);
            let before = bucket.get(key).map(str::to_string);
            match what {
                What::Get => return Ok(before),
                What::Put(value) => bucket.set(key, Some(value)),
                What::Delete => bucket.set(key, None),
            }
            let bytes = bucket.page(bytes.len()).ok_or(Error::Room)?;
            transaction.write(page, &bytes)?;
            Ok(before)
        });
        answer.map(|(before, _)| before)
    }
}

fn serve_idle(link: &mut Link<Stream>) -> Result<()> {
    link.stream()
        .set_read_timeout(Some(Duration::from_millis(1)))?;
    while link.serve()? {}
    link.stream().set_read_timeout(Some(ANSWER))?;
    Ok(())
}

/// The stores that the keys are spread over.
struct Map {
    stores: Vec<Sender<Request>>,
}

impl Map {
    fn new(addresses: &str, token: &Token, names: &str) -> Map {
        let begun = |name: &str| {
            let store = Store {
                gateways: Gateways::new(addresses, token, name),
                link: None,
            };
            let (sender, receiver) = channel();
            thread::spawn(move || store.serve(&receiver));
            sender
        };
        Map {
            stores: names.split(',').map(begun).collect(),
        }
    }

    /// Asks a key's store, and doesn't wait for the answer.
    fn ask(&self, key: &str, what: What) -> Receiver<Result<Option<String>>> {
        let (reply, answer) = channel();
        let request = Request {
            key: key.to_string(),
            what,
            reply,
        };
        let place = hash(key) % self.stores.len() as u64;
        // A thread that has ended gives no answer: that is seen there.
        let _ = self.stores[place as usize].send(request);
        answer
    }
}

fn awaited(answer: &Receiver<Result<Option<String>>>) -> Result<Option<String>> {
    answer.recv().unwrap_or(Err(Error::Closed))
}

/// Puts so many keys, and reads them back; whether all are as they were put.
fn fill(map: &Map, count: u64) -> Result<bool> {
    let key = |number: u64| format!("k{}", number);
    let put = |number: u64| map.ask(&key(number), What::Put(number.to_string()));
    for answer in (0..count).map(put).collect::<Vec<_>>() {
        awaited(&answer)?;
    }
    let get = |number: u64| (number, map.ask(&key(number), What::Get));
    for (number, answer) in (0..count).map(get).collect::<Vec<_>>() {
        if awaited(&answer)? != Some(number.to_string()) {
            return Ok(false);
        }
    }
    println!("{} keys in {} stores", count, map.stores.len());
    Ok(true)
}

fn run(words: &[&str]) -> Result<bool> {
    let (addresses, tokens, client, stores, what) = match words {
        [addresses, tokens, client, stores, what @ ..] => (addresses, tokens, client, stores, what),
        _ => return Ok(false),
    };
    let token = read_token(tokens, client.parse().unwrap_or(u32::MAX))?;
    let map = Map::new(addresses, &token, stores);
    match what {
        ["put", key, value] if !key.is_empty() && key.len() < MOST && value.len() < MOST => {
            awaited(&map.ask(key, What::Put(value.to_string())))?;
            Ok(true)
        }
        ["get", key] => {
            let found = awaited(&map.ask(key, What::Get))?;
            println!("{}", found.as_deref().unwrap_or(""));
            Ok(found.is_some())
        }
        ["delete", key] => Ok(awaited(&map.ask(key, What::Delete))?.is_some()),
        ["fill", count] => fill(&map, count.parse().unwrap_or(0)),
        _ => Ok(false),
    }
}

fn main() {
    let words: Vec<String> = env::args().skip(1).collect();
    let words: Vec<&str> = words.iter().map(String::as_str).collect();
    match run(&words) {
        Ok(true) => {}
        Ok(false) => {
            eprintln!("kv: no such key, or other words than it knows");
            exit(1);
        }
        Err(error) => {
            eprintln!("kv: {}", error);
            exit(1);
        }
    }
}
