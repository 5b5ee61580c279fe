//! The solid: rows by number, and each ring as a list of half-edges.

use std::collections::{BTreeMap, BTreeSet};

pub const SHELLS: i64 = 8;
pub const FACES: i64 = 96;
pub const LOOPS: i64 = 96;
pub const EDGES: i64 = 192;
pub const VERTICES: i64 = 128;
pub const LEAST_COORDINATE: i64 = -8_388_608;
pub const LARGEST_COORDINATE: i64 = 8_388_607;

#[derive(Clone, Copy, Debug, PartialEq, Eq, PartialOrd, Ord)]
pub struct Shell(pub i64);

#[derive(Clone, Copy, Debug, PartialEq, Eq, PartialOrd, Ord)]
pub struct Face(pub i64);

#[derive(Clone, Copy, Debug, PartialEq, Eq, PartialOrd, Ord)]
pub struct Loop(pub i64);

#[derive(Clone, Copy, Debug, PartialEq, Eq, PartialOrd, Ord)]
pub struct Edge(pub i64);

#[derive(Clone, Copy, Debug, PartialEq, Eq, PartialOrd, Ord)]
pub struct Vertex(pub i64);

#[derive(Clone, Copy, Debug, PartialEq, Eq, PartialOrd, Ord)]
pub struct Half(pub i64);

impl Edge {
    pub fn halves(self) -> [Half; 2] {
        [Half(2 * self.0), Half(2 * self.0 + 1)]
    }
}

impl Half {
    pub fn edge(self) -> Edge {
        Edge(self.0 / 2)
    }

    pub fn mate(self) -> Half {
        let [even, odd] = self.edge().halves();
        if self == even {
            odd
        } else {
            even
        }
    }
}

/// Whole numbers of 1/256 mm.
#[derive(Clone, Copy, Debug, PartialEq, Eq)]
pub struct Point {
    pub x: i64,
    pub y: i64,
    pub z: i64,
}

#[derive(Clone, Copy, Debug, PartialEq, Eq)]
pub struct FaceRow {
    pub shell: Shell,
    pub outer: Loop,
}

#[derive(Clone, Debug)]
pub struct LoopRow {
    pub face: Face,
    pub bound: Bound,
}

/// What a loop consists of. A ring is a closed order: its list may start
/// at any of its half-edges, and the first follows the last.
#[derive(Clone, Debug)]
pub enum Bound {
    Ring(Vec<Half>),
    Lone(Vertex),
}

/// Starts of the half-edges 2k and 2k + 1.
#[derive(Clone, Copy, Debug, PartialEq, Eq)]
pub struct EdgeRow {
    pub starts: [Vertex; 2],
}

/// A row is used exactly when its number is a key.
#[derive(Clone, Debug, Default)]
pub struct Solid {
    pub shells: BTreeSet<Shell>,
    pub faces: BTreeMap<Face, FaceRow>,
    pub loops: BTreeMap<Loop, LoopRow>,
    pub edges: BTreeMap<Edge, EdgeRow>,
    pub vertices: BTreeMap<Vertex, Point>,
    pub handles: i64,
}

/// A half-edge, or a loop that is to have a lone vertex.
#[derive(Clone, Copy, Debug, PartialEq, Eq)]
pub enum Place {
    Half(Half),
    Loop(Loop),
}

/// The questions below are asked about used numbers only.
impl Solid {
    pub fn start(&self, half: Half) -> Vertex {
        let [even, odd] = self.edges[&half.edge()].starts;
        if half == half.edge().halves()[0] {
            even
        } else {
            odd
        }
    }

    pub fn end(&self, half: Half) -> Vertex {
        self.start(half.mate())
    }

    pub fn loop_of(&self, half: Half) -> Loop {
        let holds = |row: &LoopRow| matches!(&row.bound, Bound::Ring(ring) if ring.contains(&half));
        let found = self.loops.iter().find(|(_, row)| holds(row));
        *found.expect("a used half-edge is in a loop").0
    }

    /// The ring that the half-edge is in, from it on.
    pub fn ring_from(&self, half: Half) -> Vec<Half> {
        let Bound::Ring(ring) = &self.loops[&self.loop_of(half)].bound else {
            unreachable!("the loop of a half-edge has a ring")
        };
        let mut turned = ring.clone();
        let first = turned.iter().position(|&h| h == half).expect("the ring holds the half-edge");
        turned.rotate_left(first);
        turned
    }

    pub fn lone_vertex(&self, number: Loop) -> Option<Vertex> {
        match self.loops[&number].bound {
            Bound::Lone(vertex) => Some(vertex),
            Bound::Ring(_) => None,
        }
    }

    pub fn loops_of(&self, face: Face) -> Vec<Loop> {
        let inside = self.loops.iter().filter(|(_, row)| row.face == face);
        inside.map(|(&number, _)| number).collect()
    }

    pub fn faces_of(&self, shell: Shell) -> Vec<Face> {
        let inside = self.faces.iter().filter(|(_, row)| row.shell == shell);
        inside.map(|(&number, _)| number).collect()
    }
}
