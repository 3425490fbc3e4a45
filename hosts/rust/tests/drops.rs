//! A transaction that read held pages alone, and is dropped, sends nothing. Its Drop waits, in
//! place of one that waits already, and goes before whatever the link sends next.
mod inside;

use inside::{Inside, Watch, Wire};
use rughvadi::{Link, Transaction};
use std::cell::RefCell;
use std::rc::Rc;

const ASK_READ: u8 = 2;
const GIVE_BACK: u8 = 4;
const COMMIT: u8 = 6;
const DROP: u8 = 7;
const DOWNGRADED: u8 = 8;
/// The page that the link holds.
const HELD: u32 = 1;

/// The kinds of the frames that were sent.
#[derive(Default)]
struct Sent(Vec<u8>);

impl Watch for Sent {
    fn behind(&mut self, kind: u8, _: &mut Inside) {
        self.0.push(kind);
    }
}

type Ours = Link<Wire<Sent>>;

/// A link that holds the page, the server, and what was sent.
struct Scene {
    link: Ours,
    inside: Rc<RefCell<Inside>>,
    sent: Rc<RefCell<Sent>>,
}

impl Scene {
    fn new() -> Scene {
        let sent = Rc::new(RefCell::new(Sent::default()));
        let (wire, inside) = Wire::new(&sent);
        let link = wire.opened().unwrap();
        let mut scene = Scene { link, inside, sent };
        scene.look();
        assert_eq!(scene.sent(), [1, ASK_READ, DROP]);
        scene
    }

    /// A transaction that reads the held page.
    fn look(&mut self) {
        let mut transaction = self.link.transaction().unwrap();
        transaction.read(HELD).unwrap();
    }

    /// Writes the page; the permission to write it is kept.
    fn write(&mut self, first: u8) {
        let job = |transaction: &mut Transaction<'_, Wire<Sent>>| {
            let mut page = transaction.read(HELD)?;
            page[0] = first;
            transaction.write(HELD, &page)
        };
        self.link.run(job).unwrap();
        self.sent();
    }

    /// What was sent since the last look.
    fn sent(&mut self) -> Vec<u8> {
        std::mem::take(&mut self.sent.borrow_mut().0)
    }
}

#[test]
fn of_several_drops_the_last_goes_as_the_link_serves() {
    let mut scene = Scene::new();
    for _ in 0..3 {
        scene.look();
    }
    assert_eq!(scene.sent(), []);
    scene.inside.borrow_mut().other_reads(HELD);
    scene.inside.borrow_mut().other_wants(HELD);
    assert!(scene.link.serve().unwrap());
    assert_eq!(scene.sent(), [DROP, GIVE_BACK]);
    assert!(scene.inside.borrow().other.may_write(HELD));
}

#[test]
fn a_drop_goes_before_an_ask_and_a_commit() {
    let mut scene = Scene::new();
    scene.look();
    scene.link.transaction().unwrap().read(2).unwrap();
    assert_eq!(scene.sent(), [DROP, ASK_READ, DROP]);
    scene.look();
    let job = |transaction: &mut Transaction<'_, Wire<Sent>>| transaction.read(HELD);
    scene.link.run(job).unwrap();
    assert_eq!(scene.sent(), [DROP, COMMIT]);
}

#[test]
fn what_came_is_answered_as_a_transaction_begins() {
    let mut scene = Scene::new();
    scene.look();
    scene.inside.borrow_mut().other_reads(HELD);
    scene.inside.borrow_mut().other_wants(HELD);
    assert_eq!(scene.sent(), []);
    drop(scene.link.transaction().unwrap());
    assert_eq!(scene.sent(), [DROP, GIVE_BACK]);
    assert!(scene.inside.borrow().other.may_write(HELD));
    scene.inside.borrow_mut().other_drops();
    scene.look();
    assert_eq!(scene.sent(), [DROP, ASK_READ, DROP]);
}

#[test]
fn a_dropped_write_gives_the_page_back_at_once() {
    let mut scene = Scene::new();
    scene.write(0x22);
    let mut transaction = scene.link.transaction().unwrap();
    let page = transaction.read(HELD).unwrap();
    transaction.write(HELD, &[0x33; 64]).unwrap();
    drop(transaction);
    assert_eq!(scene.sent(), [DROP, GIVE_BACK]);
    let again = scene.link.transaction().unwrap().read(HELD).unwrap();
    assert_eq!((page[0], again), (0x22, page));
}

#[test]
fn a_permission_that_was_kept_goes_behind_the_drop() {
    let mut scene = Scene::new();
    scene.write(0x44);
    scene.look();
    scene.inside.borrow_mut().other_reads(HELD);
    assert!(scene.link.serve().unwrap());
    assert_eq!(scene.sent(), [DROP, DOWNGRADED]);
    let mut page = [0; 64];
    let there = scene.inside.borrow_mut().other.read(HELD, &mut page);
    assert!(there.unwrap() && page[0] == 0x44);
}
