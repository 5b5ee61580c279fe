//! The journal: its records, reading what stands, and appending a batch.

use crate::disk::{Block, Content, Disk, BLOCK_BYTES};
use crate::edit::{Edit, Operator};
use crate::fault::Fault;
use crate::rules;
use crate::solid::Solid;

/// The most edits that a batch has.
pub const BATCH_EDITS: usize = 16;
const CLOSING_KIND: u8 = 100;

/// A batch's number counts from 1, an edit's position from 0.
#[derive(Clone, Copy, Debug, PartialEq, Eq)]
pub enum Record {
    Change { number: usize, position: usize, edit: Edit },
    Closing { number: usize, count: usize },
}

/// A block's parts.
struct Parts {
    kind: u8,
    number: usize,
    position: usize,
    fields: [i64; 5],
    coordinates: [i64; 3],
}

fn lay(parts: &Parts) -> Block {
    let narrow = "the numbers of an accepted edit fit";
    let mut bytes = [0; BLOCK_BYTES];
    bytes[0] = parts.kind;
    let number = u32::try_from(parts.number).expect("a batch number fits");
    bytes[2..6].copy_from_slice(&number.to_le_bytes());
    let position = u16::try_from(parts.position).expect("a position fits");
    bytes[6..8].copy_from_slice(&position.to_le_bytes());
    for (field, part) in parts.fields.iter().zip(bytes[8..18].chunks_exact_mut(2)) {
        part.copy_from_slice(&u16::try_from(*field).expect(narrow).to_le_bytes());
    }
    for (coordinate, part) in parts.coordinates.iter().zip(bytes[20..].chunks_exact_mut(4)) {
        part.copy_from_slice(&i32::try_from(*coordinate).expect(narrow).to_le_bytes());
    }
    bytes
}

/// None where a byte that no part has is not zero.
fn take_apart(bytes: &Block) -> Option<Parts> {
    let pair = |at: usize| u16::from_le_bytes([bytes[at], bytes[at + 1]]);
    let four = |at: usize| [bytes[at], bytes[at + 1], bytes[at + 2], bytes[at + 3]];
    if bytes[1] != 0 || bytes[18] != 0 || bytes[19] != 0 {
        return None;
    }
    Some(Parts {
        kind: bytes[0],
        number: u32::from_le_bytes(four(2)) as usize,
        position: usize::from(pair(6)),
        fields: [8, 10, 12, 14, 16].map(|at| i64::from(pair(at))),
        coordinates: [20, 24, 28].map(|at| i64::from(i32::from_le_bytes(four(at)))),
    })
}

pub fn encode(record: &Record) -> Block {
    match *record {
        Record::Change { number, position, edit } => lay(&Parts {
            kind: edit.operator.kind(),
            number,
            position,
            fields: edit.fields,
            coordinates: edit.coordinates,
        }),
        Record::Closing { number, count } => lay(&Parts {
            kind: CLOSING_KIND,
            number,
            position: count,
            fields: [0; 5],
            coordinates: [0; 3],
        }),
    }
}

/// The record that a block is, if it is one. Whether an edit's numbers are
/// in range is the solid's question.
pub fn decode(content: &Content) -> Option<Record> {
    let Content::Bytes(bytes) = content else { return None };
    let parts = take_apart(bytes)?;
    if parts.number == 0 {
        return None;
    }
    if parts.kind == CLOSING_KIND {
        closing(&parts)
    } else {
        change(&parts)
    }
}

fn closing(parts: &Parts) -> Option<Record> {
    let empty = parts.fields == [0; 5] && parts.coordinates == [0; 3];
    let good = empty && (1..=BATCH_EDITS).contains(&parts.position);
    good.then_some(Record::Closing { number: parts.number, count: parts.position })
}

fn change(parts: &Parts) -> Option<Record> {
    let operator = Operator::by_kind(parts.kind)?;
    let unused_fields = &parts.fields[operator.field_count()..];
    let good = unused_fields.iter().all(|&field| field == 0)
        && (operator.has_coordinates() || parts.coordinates == [0; 3])
        && parts.position < BATCH_EDITS;
    let edit = Edit { operator, fields: parts.fields, coordinates: parts.coordinates };
    good.then_some(Record::Change { number: parts.number, position: parts.position, edit })
}

/// What an open finds.
#[derive(Clone, Debug, Default)]
pub struct Standing {
    /// How many whole batches stand.
    pub batches: usize,
    /// The first block that starts no whole batch.
    pub tail: usize,
    pub solid: Solid,
}

/// The batch that begins at the tail, as far as it was read.
enum Beginning {
    Edits(Vec<Edit>),
    /// A block was read with which the batch cannot be whole.
    Broken,
}

/// Reads every block once, rising, until a 20 or a 30 ends it.
pub fn read<D: Disk>(disk: &mut D) -> Result<Standing, Fault> {
    let count = disk.size();
    if !(2..=1000).contains(&count) {
        return Err(Fault::BadCount { count });
    }
    let mut standing = Standing::default();
    let mut beginning = Beginning::Edits(vec![]);
    for block in 0..count {
        let record = decode(&disk.read(block)?);
        if let Beginning::Edits(edits) = beginning {
            beginning = standing.take(block, record, edits)?;
        }
    }
    Ok(standing)
}

impl Standing {
    /// Takes one more block behind the edits of the batch at the tail. A
    /// closing record that makes it whole has its edits applied at once.
    fn take(
        &mut self,
        block: usize,
        record: Option<Record>,
        mut edits: Vec<Edit>,
    ) -> Result<Beginning, Fault> {
        let awaited = self.batches + 1;
        match record {
            Some(Record::Change { number, position, edit })
                if number == awaited && position == edits.len() =>
            {
                edits.push(edit);
                Ok(Beginning::Edits(edits))
            }
            Some(Record::Closing { number, count })
                if number == awaited && count == edits.len() =>
            {
                self.apply(&edits)?;
                self.batches = number;
                self.tail = block + 1;
                Ok(Beginning::Edits(vec![]))
            }
            _ => Ok(Beginning::Broken),
        }
    }

    fn apply(&mut self, edits: &[Edit]) -> Result<(), Fault> {
        for (position, edit) in edits.iter().enumerate() {
            let block = self.tail + position;
            rules::apply(&mut self.solid, edit)
                .map_err(|refusal| Fault::BadBatch { block, refusal })?;
        }
        Ok(())
    }
}

/// Appends a batch at the tail: its edits, a flush, the closing record, a flush.
pub fn append<D: Disk>(
    disk: &mut D,
    tail: usize,
    number: usize,
    edits: &[Edit],
) -> Result<(), Fault> {
    let count = edits.len();
    if count == 0 {
        return Err(Fault::NoEdits { tail });
    }
    if tail + count + 1 > disk.size() {
        return Err(Fault::JournalFull { tail });
    }
    for (position, &edit) in edits.iter().enumerate() {
        disk.write(tail + position, encode(&Record::Change { number, position, edit }))?;
    }
    disk.flush()?;
    disk.write(tail + count, encode(&Record::Closing { number, count }))?;
    disk.flush()?;
    Ok(())
}
