//! Trials of the disks and of the journal.

use crate::disk::{Content, Disk, DiskFault, Settling, Stop, BLOCK_BYTES};
use crate::edit::{Edit, Operator};
use crate::journal;
use crate::listing::counts;

/// The blocks of each trial's disk.
const BLOCKS: usize = 8;

pub fn bench() -> String {
    TRIALS.iter().map(Trial::text).collect()
}

pub fn cuts() -> String {
    (0..=DISK_CALLS).map(cut_text).collect()
}

#[derive(Clone, Copy)]
enum Call {
    Read { block: usize },
    Write { block: usize, byte: u8 },
    Flush,
}

const CALLS: [Call; 12] = [
    Call::Write { block: 0, byte: 100 },
    Call::Write { block: 1, byte: 101 },
    Call::Write { block: 2, byte: 102 },
    Call::Write { block: 3, byte: 103 },
    Call::Flush,
    Call::Write { block: 0, byte: 200 },
    Call::Write { block: 1, byte: 201 },
    Call::Write { block: 2, byte: 202 },
    Call::Write { block: 4, byte: 204 },
    Call::Read { block: 0 },
    Call::Read { block: 8 },
    Call::Flush,
];

/// A life behind two stops, a loss, and a second life in which all blocks
/// are read, behind a stop where one is given.
struct Trial {
    inner: u32,
    outer: u32,
    letters: &'static str,
    second: Option<u32>,
}

const TRIALS: [Trial; 5] = [
    Trial { inner: 99, outer: 99, letters: "nuxunuxu", second: None },
    Trial { inner: 10, outer: 99, letters: "nuxun", second: None },
    Trial { inner: 99, outer: 9, letters: "un", second: None },
    Trial { inner: 7, outer: 9, letters: "nnnnnnnn", second: None },
    Trial { inner: 4, outer: 4, letters: "xun", second: Some(3) },
];

impl Trial {
    fn text(&self) -> String {
        let Trial { inner, outer, letters, second } = self;
        let mut disk = Stop::new(Stop::new(Settling::blank(BLOCKS), *inner), *outer);
        let answers = CALLS.map(|call| answer(&mut disk, call)).concat();
        let mut settling = disk.into_below().into_below();
        settling.lose(letters.as_bytes());
        let reads = match second {
            Some(count) => all_reads(Stop::new(settling, *count)),
            None => all_reads(settling),
        };
        format!(
            "stops {inner} and {outer}, letters {letters}\n  answers:{answers}\n  reads:{reads}\n"
        )
    }
}

fn all_reads<D: Disk>(mut disk: D) -> String {
    (0..BLOCKS).map(|block| answer(&mut disk, Call::Read { block })).collect()
}

/// A space and the answer to the call.
fn answer<D: Disk>(disk: &mut D, call: Call) -> String {
    let done = "done".to_string();
    let answered: Result<String, DiskFault> = match call {
        Call::Read { block } => disk.read(block).map(content_word),
        Call::Write { block, byte } => disk.write(block, [byte; BLOCK_BYTES]).map(|()| done),
        Call::Flush => disk.flush().map(|()| done),
    };
    match answered {
        Ok(word) => format!(" {word}"),
        Err(fault) => format!(" {}@{}", fault.number(), fault.place()),
    }
}

fn content_word(content: Content) -> String {
    match content {
        Content::Bytes(bytes) => bytes[0].to_string(),
        Content::Unreadable => "unreadable".to_string(),
    }
}

/// Appending the batch makes three writes, a flush, a write and a flush.
const DISK_CALLS: u32 = 6;

fn batch() -> Vec<Edit> {
    let edit =
        |operator, numbers: &[i64]| Edit::new(operator, numbers).expect("the count is right");
    vec![
        edit(Operator::Mvfs, &[0, 0, 0, 0, 0, 0, 0]),
        edit(Operator::Mev, &[512, 0, 1, 256, 0, 0]),
        edit(Operator::Mev, &[1, 1, 2, 256, 256, 0]),
    ]
}

/// The disk on which the batch was appended behind a stop with this count.
fn appended(stop: u32) -> Settling {
    let mut disk = Stop::new(Settling::blank(BLOCKS), stop);
    let acknowledged = journal::append(&mut disk, 0, 1, &batch()).is_ok();
    assert_eq!(acknowledged, stop >= DISK_CALLS, "append stops exactly where the power does");
    disk.into_below()
}

/// A line for every combination of letters at the blocks that wait.
fn cut_text(stop: u32) -> String {
    let waiting = appended(stop).waiting();
    combinations(waiting.len()).iter().map(|letters| cut_line(stop, &waiting, letters)).collect()
}

/// All words of so many letters n, u, s, the last letter changing fastest.
fn combinations(length: usize) -> Vec<String> {
    let mut words = vec![String::new()];
    for _ in 0..length {
        words = words.iter().flat_map(|word| ["n", "u", "s"].map(|l| word.clone() + l)).collect();
    }
    words
}

fn cut_line(stop: u32, waiting: &[usize], letters: &str) -> String {
    let mut disk = appended(stop);
    let mut by_block = [b's'; BLOCKS];
    for (&block, letter) in waiting.iter().zip(letters.bytes()) {
        by_block[block] = letter;
    }
    disk.lose(&by_block);
    let standing = journal::read(&mut disk).expect("a settling disk is read");
    let shown = if letters.is_empty() { "-" } else { letters };
    let batches = standing.batches;
    format!("cut {stop} {shown}: {batches} batches, {}\n", counts(&standing.solid))
}
