//! Disks: the settling disk, and the stop, a layer on any disk.

pub const BLOCK_BYTES: usize = 32;
/// The place of a fault that a flush was answered with.
pub const FLUSH_PLACE: usize = 65_535;

pub type Block = [u8; BLOCK_BYTES];

#[derive(Clone, Copy, Debug, PartialEq, Eq)]
pub enum Content {
    Bytes(Block),
    Unreadable,
}

#[derive(Clone, Copy, Debug, PartialEq, Eq)]
pub enum DiskFault {
    /// 20: the power is gone.
    PowerGone { place: usize },
    /// 21: the block number is not below the count.
    NoSuchBlock { block: usize },
}

impl DiskFault {
    pub fn number(self) -> u32 {
        match self {
            DiskFault::PowerGone { .. } => 20,
            DiskFault::NoSuchBlock { .. } => 21,
        }
    }

    pub fn place(self) -> usize {
        match self {
            DiskFault::PowerGone { place } => place,
            DiskFault::NoSuchBlock { block } => block,
        }
    }
}

pub trait Disk {
    fn size(&self) -> usize;
    fn read(&mut self, block: usize) -> Result<Content, DiskFault>;
    fn write(&mut self, block: usize, bytes: Block) -> Result<(), DiskFault>;
    fn flush(&mut self) -> Result<(), DiskFault>;
}

#[derive(Clone, Copy, Debug)]
struct Cell {
    settled: Content,
    newest: Content,
    waiting: bool,
}

impl Cell {
    fn settle(&mut self, content: Content) {
        *self = Cell { settled: content, newest: content, waiting: false };
    }

    fn reads(&self) -> Content {
        if self.waiting {
            self.newest
        } else {
            self.settled
        }
    }
}

/// It never answers 20.
#[derive(Clone, Debug)]
pub struct Settling {
    cells: Vec<Cell>,
}

impl Settling {
    pub fn blank(count: usize) -> Settling {
        let zero = Content::Bytes([0; BLOCK_BYTES]);
        Settling { cells: vec![Cell { settled: zero, newest: zero, waiting: false }; count] }
    }

    /// Loses the power. At a waiting block the letter n keeps the newest
    /// content, u makes the block unreadable, any other or none keeps the
    /// settled content. Then nothing waits.
    pub fn lose(&mut self, letters: &[u8]) {
        for (block, cell) in self.cells.iter_mut().enumerate() {
            let stands = match (cell.waiting, letters.get(block)) {
                (true, Some(b'n')) => cell.newest,
                (true, Some(b'u')) => Content::Unreadable,
                _ => cell.settled,
            };
            cell.settle(stands);
        }
    }

    /// What every block reads.
    pub fn contents(&self) -> Vec<Content> {
        self.cells.iter().map(Cell::reads).collect()
    }

    /// The blocks that wait, rising.
    pub fn waiting(&self) -> Vec<usize> {
        let waits = |&block: &usize| self.cells[block].waiting;
        (0..self.cells.len()).filter(waits).collect()
    }

    fn cell(&mut self, block: usize) -> Result<&mut Cell, DiskFault> {
        self.cells.get_mut(block).ok_or(DiskFault::NoSuchBlock { block })
    }
}

impl Disk for Settling {
    fn size(&self) -> usize {
        self.cells.len()
    }

    fn read(&mut self, block: usize) -> Result<Content, DiskFault> {
        Ok(self.cell(block)?.reads())
    }

    fn write(&mut self, block: usize, bytes: Block) -> Result<(), DiskFault> {
        let cell = self.cell(block)?;
        cell.newest = Content::Bytes(bytes);
        cell.waiting = true;
        Ok(())
    }

    fn flush(&mut self) -> Result<(), DiskFault> {
        for cell in &mut self.cells {
            cell.settle(cell.reads());
        }
        Ok(())
    }
}

/// Passes on so many reads, writes and flushes with good block numbers, and
/// answers 20 from then on. A bad number is answered 21 and not counted.
#[derive(Debug)]
pub struct Stop<D> {
    below: D,
    left: u32,
}

impl<D: Disk> Stop<D> {
    pub fn new(below: D, count: u32) -> Stop<D> {
        Stop { below, left: count }
    }

    pub fn into_below(self) -> D {
        self.below
    }

    fn pass(&mut self, place: usize) -> Result<&mut D, DiskFault> {
        self.left = self.left.checked_sub(1).ok_or(DiskFault::PowerGone { place })?;
        Ok(&mut self.below)
    }

    fn pass_block(&mut self, block: usize) -> Result<&mut D, DiskFault> {
        if block >= self.below.size() {
            return Err(DiskFault::NoSuchBlock { block });
        }
        self.pass(block)
    }
}

impl<D: Disk> Disk for Stop<D> {
    fn size(&self) -> usize {
        self.below.size()
    }

    fn read(&mut self, block: usize) -> Result<Content, DiskFault> {
        self.pass_block(block)?.read(block)
    }

    fn write(&mut self, block: usize, bytes: Block) -> Result<(), DiskFault> {
        self.pass_block(block)?.write(block, bytes)
    }

    fn flush(&mut self) -> Result<(), DiskFault> {
        self.pass(FLUSH_PLACE)?.flush()
    }
}
