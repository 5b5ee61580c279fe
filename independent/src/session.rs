//! Sessions and batches.

use crate::disk::Disk;
use crate::edit::Edit;
use crate::fault::Fault;
use crate::journal::{self, Standing, BATCH_EDITS};
use crate::rules;
use crate::solid::Solid;

/// An open journal, without a batch.
#[derive(Debug)]
pub struct Session<D> {
    disk: D,
    standing: Standing,
    /// Of a refused open, or a 20; repeated by each call that can refuse.
    fault: Option<Fault>,
}

/// An open journal and the batch that was begun.
#[derive(Debug)]
pub struct Batch<D> {
    session: Session<D>,
    edits: Vec<Edit>,
    /// With the batch's edits.
    solid: Solid,
}

impl<D: Disk> Session<D> {
    /// Gives a session and, beside it, the count of whole batches or a fault.
    pub fn open(mut disk: D) -> (Session<D>, Result<usize, Fault>) {
        match journal::read(&mut disk) {
            Ok(standing) => {
                let batches = standing.batches;
                (Session { disk, standing, fault: None }, Ok(batches))
            }
            Err(fault) => {
                let standing = Standing::default();
                (Session { disk, standing, fault: Some(fault) }, Err(fault))
            }
        }
    }

    pub fn begin(self) -> Batch<D> {
        let solid = self.standing.solid.clone();
        Batch { session: self, edits: vec![], solid }
    }

    pub fn close(self) -> D {
        self.disk
    }

    pub fn solid(&self) -> &Solid {
        &self.standing.solid
    }

    pub fn fault(&self) -> Option<Fault> {
        self.fault
    }

    pub fn disk(&self) -> &D {
        &self.disk
    }
}

impl<D: Disk> Batch<D> {
    /// Answers the edit's position.
    pub fn edit(&mut self, edit: &Edit) -> Result<usize, Fault> {
        if let Some(fault) = self.session.fault {
            return Err(fault);
        }
        let position = self.edits.len();
        if position == BATCH_EDITS {
            return Err(Fault::BatchFull { position });
        }
        rules::apply(&mut self.solid, edit)
            .map_err(|refusal| Fault::Refused { refusal, position })?;
        self.edits.push(*edit);
        Ok(position)
    }

    /// Answers the batch's number.
    pub fn commit(self) -> (Session<D>, Result<usize, Fault>) {
        let Batch { mut session, edits, solid } = self;
        if let Some(fault) = session.fault {
            return (session, Err(fault));
        }
        let number = session.standing.batches + 1;
        let tail = session.standing.tail;
        match journal::append(&mut session.disk, tail, number, &edits) {
            Ok(()) => {
                let tail = tail + edits.len() + 1;
                session.standing = Standing { batches: number, tail, solid };
                (session, Ok(number))
            }
            Err(fault) => {
                session.fault = fault.is_power_gone().then_some(fault);
                (session, Err(fault))
            }
        }
    }

    pub fn abandon(self) -> Session<D> {
        self.session
    }
}
