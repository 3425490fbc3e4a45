//! The tries of a job: what bounds them, and that a link over a socket waits between them and takes
//! what comes meanwhile. No test rests on a schedule: what is slow makes a wait longer.
mod inside;

use inside::{Inside, Watch, Wire, LIMITS, OURS};
use rughvadi::{Bound, Error, Link};
use std::cell::RefCell;
use std::io::{Read, Write};
use std::rc::Rc;
use std::time::{Duration, Instant};

const GIVE_BACK: u8 = 4;
const DROP: u8 = 7;

/// Behind each try the other client wants to write the page, until the link gave it back.
#[derive(Default)]
struct Beside {
    wants: bool,
    asked: bool,
    read_at: Option<Instant>,
    /// How long the tries began after the link had read what came since the one before.
    waited: Duration,
    given_back: u32,
}

impl Watch for Beside {
    fn behind(&mut self, kind: u8, inside: &mut Inside) {
        if kind == DROP && self.wants {
            inside.other_reads(1);
            inside.other_wants(1);
            assert!(!inside.other.may_write(1));
            self.asked = true;
        } else if kind == GIVE_BACK {
            assert!(inside.other.may_write(1));
            inside.other_drops();
            self.given_back += 1;
        }
    }

    fn reads(&mut self) {
        if self.asked {
            self.asked = false;
            self.read_at = Some(Instant::now());
        }
    }
}

/// Runs a job that is aborted each time, and reads a page; how often it began.
fn aborted<S: Read + Write>(link: &mut Link<S>, bound: Bound, mut begins: impl FnMut()) -> u32 {
    let mut calls = 0;
    let answer = link.run_within(bound, |transaction| -> rughvadi::Result<()> {
        begins();
        calls += 1;
        transaction.read(1)?;
        Err(Error::Aborted)
    });
    assert!(matches!(answer, Err(Error::Aborted)));
    // Nothing of it is left.
    let (page, _) = link.run(|transaction| transaction.read(1)).unwrap();
    assert_eq!(page, vec![0; 64]);
    calls
}

fn within_tries(tries: u32) -> Bound {
    Bound {
        tries: Some(tries),
        ..Bound::default()
    }
}

fn within_time(time: Duration) -> Bound {
    Bound {
        time: Some(time),
        ..Bound::default()
    }
}

#[test]
fn tries_have_a_bound() {
    let watch = Rc::new(RefCell::new(Beside::default()));
    let (wire, _inside) = Wire::new(&watch);
    let mut link = wire.opened().unwrap();
    for tries in 1..8 {
        assert_eq!(aborted(&mut link, within_tries(tries), || ()), tries);
    }
}

#[test]
fn time_has_a_bound() {
    let watch = Rc::new(RefCell::new(Beside::default()));
    let (wire, _inside) = Wire::new(&watch);
    let mut link = wire.opened().unwrap();
    assert_eq!(aborted(&mut link, within_time(Duration::ZERO), || ()), 1);
    assert!(aborted(&mut link, within_time(Duration::from_millis(20)), || ()) >= 1);
}

#[test]
fn a_stream_that_is_no_socket_is_not_waited_for() {
    let watch = Rc::new(RefCell::new(Beside::default()));
    let (wire, _inside) = Wire::new(&watch);
    let mut link = Link::open(&LIMITS, OURS, 1, wire).unwrap();
    assert_eq!(aborted(&mut link, within_tries(100), || ()), 100);
}

#[test]
fn what_comes_between_two_tries_is_answered_as_it_comes() {
    let watch = Rc::new(RefCell::new(Beside {
        wants: true,
        ..Beside::default()
    }));
    let (wire, _inside) = Wire::new(&watch);
    let mut link = wire.opened().unwrap();
    let tries = 20;
    aborted(&mut link, within_tries(tries), || {
        let mut watch = watch.borrow_mut();
        assert!(!watch.asked);
        if let Some(read_at) = watch.read_at.take() {
            watch.waited += read_at.elapsed();
        }
    });
    let watch = watch.borrow();
    assert!(watch.given_back >= tries - 1);
    // The pauses add up to some 900 milliseconds; that they are a tenth of that doesn't happen.
    assert!(watch.waited >= Duration::from_millis(90));
}
