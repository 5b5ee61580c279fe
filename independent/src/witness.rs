//! Sessions on a settling disk behind a stop, each call made together with
//! the ledger's; what the ledger foretells and the reply are asserted to agree.

use crate::disk::{Block, Content, Disk, DiskFault, Settling, Stop};
use crate::edit::Edit;
use crate::fault::Fault;
use crate::ledger::{Foretold, Gone, Ledger, Told};
use crate::listing::listing;
use crate::session::{Batch, Session};
use crate::solid::Solid;
use std::cell::Cell;

/// A layer that keeps the place of a 20 until it is asked for it.
#[derive(Debug)]
pub struct Watch<D> {
    below: D,
    gone: Cell<Gone>,
}

impl<D> Watch<D> {
    fn watched<T>(&self, answer: Result<T, DiskFault>) -> Result<T, DiskFault> {
        if let Err(DiskFault::PowerGone { place }) = answer {
            self.gone.set(Some(place));
        }
        answer
    }
}

impl<D: Disk> Disk for Watch<D> {
    fn size(&self) -> usize {
        self.below.size()
    }

    fn read(&mut self, block: usize) -> Result<Content, DiskFault> {
        let answer = self.below.read(block);
        self.watched(answer)
    }

    fn write(&mut self, block: usize, bytes: Block) -> Result<(), DiskFault> {
        let answer = self.below.write(block, bytes);
        self.watched(answer)
    }

    fn flush(&mut self) -> Result<(), DiskFault> {
        let answer = self.below.flush();
        self.watched(answer)
    }
}

type Path = Watch<Stop<Settling>>;

fn told(fault: Fault) -> Told {
    Told { number: fault.number(), place: fault.place() }
}

fn assert_foretold(call: &str, foretold: Option<Foretold>, reply: Result<usize, Fault>) {
    if let Some(foretold) = foretold {
        assert_eq!(foretold, reply.map_err(told), "{call}: the ledger and the reply differ");
    }
}

/// A session without a fault has the solid of the acknowledged edits.
fn assert_solid(ledger: &Ledger, session: &Session<Path>) {
    if session.fault().is_none() {
        let acknowledged = listing(&ledger.solid());
        assert_eq!(acknowledged, listing(session.solid()), "another solid than the ledger's");
    }
}

/// A disk without a session, and its ledger.
#[derive(Debug)]
pub struct Idle {
    ledger: Ledger,
    disk: Settling,
}

impl Idle {
    pub fn blank(count: usize) -> Idle {
        Idle { ledger: Ledger::new(count), disk: Settling::blank(count) }
    }

    pub fn open(mut self, stop: u32) -> (Opened, Result<usize, Fault>) {
        let path = Watch { below: Stop::new(self.disk, stop), gone: Cell::new(None) };
        let (session, reply) = Session::open(path);
        let foretold = self.ledger.open(session.disk().gone.take());
        assert_foretold("open", foretold, reply);
        assert_solid(&self.ledger, &session);
        (Opened { ledger: self.ledger, session }, reply)
    }

    /// Loses the power.
    pub fn lose(mut self, letters: &[u8]) -> Idle {
        self.disk.lose(letters);
        self.ledger.lose(&self.disk.contents());
        self
    }
}

/// A session, and its ledger.
#[derive(Debug)]
pub struct Opened {
    ledger: Ledger,
    session: Session<Path>,
}

impl Opened {
    pub fn begin(mut self) -> Begun {
        self.ledger.begin();
        Begun { ledger: self.ledger, batch: self.session.begin() }
    }

    pub fn close(self) -> Idle {
        Idle { ledger: self.ledger, disk: self.session.close().below.into_below() }
    }

    pub fn solid(&self) -> &Solid {
        self.session.solid()
    }
}

/// A batch, and its ledger.
#[derive(Debug)]
pub struct Begun {
    ledger: Ledger,
    batch: Batch<Path>,
}

impl Begun {
    pub fn edit(&mut self, edit: &Edit) -> Result<usize, Fault> {
        let reply = self.batch.edit(edit);
        assert_foretold("edit", Some(self.ledger.edit(edit)), reply);
        reply
    }

    pub fn commit(mut self) -> (Opened, Result<usize, Fault>) {
        let (session, reply) = self.batch.commit();
        let foretold = self.ledger.commit(session.disk().gone.take());
        assert_foretold("commit", foretold, reply);
        assert_solid(&self.ledger, &session);
        (Opened { ledger: self.ledger, session }, reply)
    }

    pub fn abandon(mut self) -> Opened {
        self.ledger.abandon();
        let session = self.batch.abandon();
        assert_solid(&self.ledger, &session);
        Opened { ledger: self.ledger, session }
    }

    /// Loses the power while the batch is begun.
    pub fn lose(self, letters: &[u8]) -> Idle {
        Opened { ledger: self.ledger, session: self.batch.abandon() }.close().lose(letters)
    }
}
