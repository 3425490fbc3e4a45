//! Whatever ends the sending of a frame early, the link is gone and sends nothing more. A scene has
//! each kind of frame that a client says. It is played anew for each of them, each count of its
//! bytes and each way to end there.
mod inside;

use inside::{Inside, Watch, Wire};
use rughvadi::{Error, Link, Result};
use std::cell::RefCell;
use std::io::{self, ErrorKind};
use std::panic::{catch_unwind, resume_unwind, AssertUnwindSafe};
use std::rc::Rc;

#[derive(Clone, Copy, PartialEq)]
enum How {
    Panic,
    Failure,
    Timeout,
    NoByte,
}

/// The kinds of frame that a client says are numbered from 1 to this.
const KINDS: usize = 8;
const DROP: u8 = 7;
const DOWNGRADED: u8 = 8;

/// Where the sending ends, and what went before and behind it.
#[derive(Default)]
struct Plan {
    /// The kind of the frame, how many of its bytes go, and how it ends then.
    ends: Option<(u8, usize, How)>,
    ended: bool,
    more: bool,
    lengths: [usize; KINDS + 1],
}

impl Watch for Plan {
    fn before(&mut self, bytes: &[u8], before: &[u8]) -> io::Result<usize> {
        let kind = *before.get(1).unwrap_or_else(|| &bytes[1 - before.len()]);
        self.more |= self.ended;
        if before.is_empty() {
            self.lengths[kind as usize] = bytes.len();
        }
        let (most, how) = match self.ends {
            Some((ends, most, how)) if ends == kind && !self.ended => (most, how),
            _ => return Ok(bytes.len()),
        };
        if before.len() < most {
            return Ok(most - before.len());
        }
        self.ended = true;
        match how {
            How::Panic => resume_unwind(Box::new("left")),
            How::Failure => Err(ErrorKind::ConnectionReset.into()),
            How::Timeout => Err(ErrorKind::WouldBlock.into()),
            How::NoByte => Ok(0),
        }
    }
}

type Ours = Link<Wire<Plan>>;

/// Sends a frame of each kind; if `waits`, the first Drop as the link answers something. The link
/// stays with the caller, also where a panic leaves this.
fn play(
    link: &mut Option<Ours>,
    wire: Wire<Plan>,
    inside: &RefCell<Inside>,
    waits: bool,
) -> Result<()> {
    let link = link.insert(wire.opened()?);
    link.run(|transaction| {
        let page = transaction.read(1)?;
        transaction.write(1, &page)
    })?;
    if waits {
        // What it reads is held.
        link.transaction()?.read(1)?;
    }
    // The permission to write page 1 was kept: the other reads it, and then wants to write it.
    inside.borrow_mut().other_reads(1);
    link.serve()?;
    inside.borrow_mut().other_wants(1);
    link.serve()?;
    inside.borrow_mut().other_drops();
    // The other wants to write what an open transaction has read, and what it then asks for says
    // that the page is in use.
    let mut transaction = link.transaction()?;
    transaction.read(2)?;
    inside.borrow_mut().other_reads(2);
    inside.borrow_mut().other_wants(2);
    transaction.read(3)?;
    drop(transaction);
    link.serve()?;
    Ok(())
}

fn is_closed<T>(answer: Result<T>) -> bool {
    matches!(answer, Err(Error::Closed))
}

/// Plays the scene; whether it ended early, and how long the frames of each kind are.
fn played(ends: Option<(u8, usize, How)>, waits: bool) -> (bool, [usize; KINDS + 1]) {
    let plan = Rc::new(RefCell::new(Plan {
        ends,
        ..Plan::default()
    }));
    let (wire, inside) = Wire::new(&plan);
    let mut link = None;
    let answer = catch_unwind(AssertUnwindSafe(|| play(&mut link, wire, &inside, waits)));
    let left = match (answer, ends) {
        (Err(_), Some((_, _, how))) => how == How::Panic,
        (Ok(Err(error)), Some((_, _, how))) => match error {
            Error::Io(_) => how != How::Panic,
            // A Drop that can't be sent is told by the next call.
            Error::Closed => true,
            _ => false,
        },
        (Ok(Ok(())), None) => true,
        _ => false,
    };
    assert!(left);
    if let (Some(link), Some(_)) = (&mut link, ends) {
        assert!(is_closed(link.run(|transaction| transaction.read(1))));
        assert!(is_closed(link.serve()));
        assert!(is_closed(link.transaction().map(|_| ())));
    }
    let plan = plan.borrow();
    assert!(!plan.more);
    (plan.ended, plan.lengths)
}

#[test]
fn a_link_is_gone_wherever_a_sending_ends() {
    let (ended, lengths) = played(None, false);
    assert!(!ended);
    for (kind, length) in lengths.iter().enumerate().skip(1) {
        assert!(*length > 0, "no frame of kind {}", kind);
        ends_behind_each_byte(kind as u8, *length, false);
    }
}

#[test]
fn a_link_is_gone_wherever_the_sending_of_a_drop_that_waited_ends() {
    let (_, lengths) = played(None, true);
    ends_behind_each_byte(DROP, lengths[DROP as usize], true);
}

#[test]
fn a_commit_that_has_ended_is_told_whatever_fails_behind_it() {
    let plan = Rc::new(RefCell::new(Plan {
        ends: Some((DOWNGRADED, 0, How::Failure)),
        ..Plan::default()
    }));
    let (wire, inside) = Wire::new(&plan);
    let mut link = wire.opened().unwrap();
    let mut transaction = link.transaction().unwrap();
    let page = transaction.read(1).unwrap();
    transaction.write(1, &page).unwrap();
    // The other waits for the page, which the link hands on once its commit is done.
    inside.borrow_mut().other_reads(1);
    assert_eq!(transaction.commit().unwrap(), 1);
    assert!(plan.borrow().ended);
    assert!(is_closed(link.serve()));
}

fn ends_behind_each_byte(kind: u8, length: usize, waits: bool) {
    for most in 0..length {
        for how in [How::Panic, How::Failure, How::Timeout, How::NoByte] {
            let (ended, _) = played(Some((kind, most, how)), waits);
            assert!(ended);
        }
    }
}
