//! What the caller of a session is told.

use crate::disk::DiskFault;
use crate::operators::Refusal;

#[derive(Clone, Copy, Debug, PartialEq, Eq)]
pub enum Fault {
    /// 1 to 4: the solid refuses the edit.
    Refused { refusal: Refusal, position: usize },
    /// 5: a seventeenth edit.
    BatchFull { position: usize },
    /// 6: commit of no edits.
    NoEdits { tail: usize },
    /// 7: the journal is full.
    JournalFull { tail: usize },
    /// 10: a count of blocks below 2 or above 1,000.
    BadCount { count: usize },
    /// 20 and 21.
    Disk(DiskFault),
    /// 30: an edit in a whole batch is refused.
    BadBatch { block: usize, refusal: Refusal },
}

impl From<DiskFault> for Fault {
    fn from(fault: DiskFault) -> Fault {
        Fault::Disk(fault)
    }
}

impl Fault {
    pub fn number(self) -> u32 {
        match self {
            Fault::Refused { refusal, .. } => refusal.number(),
            Fault::BatchFull { .. } => 5,
            Fault::NoEdits { .. } => 6,
            Fault::JournalFull { .. } => 7,
            Fault::BadCount { .. } => 10,
            Fault::Disk(fault) => fault.number(),
            Fault::BadBatch { .. } => 30,
        }
    }

    pub fn place(self) -> usize {
        match self {
            Fault::Refused { position, .. } | Fault::BatchFull { position } => position,
            Fault::NoEdits { tail } | Fault::JournalFull { tail } => tail,
            Fault::BadCount { count } => count,
            Fault::Disk(fault) => fault.place(),
            Fault::BadBatch { block, .. } => block,
        }
    }

    pub fn is_power_gone(self) -> bool {
        matches!(self, Fault::Disk(DiskFault::PowerGone { .. }))
    }
}
