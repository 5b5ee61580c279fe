//! The ledger: what a run of sessions must answer, told from the calls with
//! their arguments, each 20 that a disk call was answered with, and what
//! each next disk reads.

use crate::disk::Content;
use crate::edit::Edit;
use crate::journal::{decode, Record, BATCH_EDITS};
use crate::solid::Solid;

/// A fault as the caller sees it.
#[derive(Clone, Copy, Debug, PartialEq, Eq)]
pub struct Told {
    pub number: u32,
    pub place: usize,
}

/// What a call is to answer.
pub type Foretold = Result<usize, Told>;

/// The place of a 20 that came within a call, if one did.
pub type Gone = Option<usize>;

#[derive(Clone, Debug)]
pub struct Ledger {
    /// The disk's count of blocks.
    blocks: usize,
    acknowledged: Vec<Vec<Edit>>,
    begun: Option<Vec<Edit>>,
    in_doubt: Option<Vec<Edit>>,
    /// The session's fault.
    fault: Option<Told>,
}

impl Ledger {
    /// The ledger of a blank disk.
    pub fn new(blocks: usize) -> Ledger {
        Ledger { blocks, acknowledged: vec![], begun: None, in_doubt: None, fault: None }
    }

    /// The solid of the acknowledged edits.
    pub fn solid(&self) -> Solid {
        let mut solid = Solid::default();
        for edit in self.acknowledged.iter().flatten() {
            solid.apply(edit).expect("an acknowledged edit is accepted");
        }
        solid
    }

    /// Each batch takes a block an edit and a last one, in order from 0.
    fn tail(&self) -> usize {
        self.acknowledged.iter().map(|edits| edits.len() + 1).sum()
    }

    /// None where a 20 came within.
    pub fn open(&mut self, gone: Gone) -> Option<Foretold> {
        if !(2..=1000).contains(&self.blocks) {
            self.fault = Some(Told { number: 10, place: self.blocks });
        } else {
            self.fault = gone.map(|place| Told { number: 20, place });
        }
        match self.fault {
            Some(Told { number: 20, .. }) => None,
            Some(fault) => Some(Err(fault)),
            None => Some(Ok(self.acknowledged.len())),
        }
    }

    pub fn begin(&mut self) {
        self.begun = Some(vec![]);
    }

    pub fn edit(&mut self, edit: &Edit) -> Foretold {
        let mut solid = self.solid();
        let edits = self.begun.as_mut().expect("a batch was begun");
        let position = edits.len();
        if let Some(fault) = self.fault {
            return Err(fault);
        }
        if position == BATCH_EDITS {
            return Err(Told { number: 5, place: position });
        }
        for begun in edits.iter() {
            solid.apply(begun).expect("an edit of the batch is accepted");
        }
        solid.apply(edit).map_err(|refusal| Told { number: refusal.number(), place: position })?;
        edits.push(*edit);
        Ok(position)
    }

    /// None where a 20 came within.
    pub fn commit(&mut self, gone: Gone) -> Option<Foretold> {
        let edits = self.begun.take().expect("a batch was begun");
        let tail = self.tail();
        if let Some(fault) = self.fault {
            return Some(Err(fault));
        }
        if edits.is_empty() {
            return Some(Err(Told { number: 6, place: tail }));
        }
        if self.blocks - tail < edits.len() + 1 {
            return Some(Err(Told { number: 7, place: tail }));
        }
        if let Some(place) = gone {
            self.fault = Some(Told { number: 20, place });
            self.in_doubt = Some(edits);
            return None;
        }
        self.acknowledged.push(edits);
        Some(Ok(self.acknowledged.len()))
    }

    pub fn abandon(&mut self) {
        self.begun = None;
    }

    /// A loss of power, and what each block of the next disk reads. The
    /// batch in doubt is acknowledged exactly when its last block reads as
    /// its closing record.
    pub fn lose(&mut self, reads: &[Content]) {
        self.begun = None;
        self.fault = None;
        let Some(edits) = self.in_doubt.take() else { return };
        let number = self.acknowledged.len() + 1;
        let closing = Record::Closing { number, count: edits.len() };
        if decode(&reads[self.tail() + edits.len()]) == Some(closing) {
            self.acknowledged.push(edits);
        }
    }
}
