//! The ten operators: their refusals, and what each of them changes.

use crate::edit::{Edit, Operator};
use crate::solid::*;

#[derive(Clone, Copy, Debug, PartialEq, Eq)]
pub enum Refusal {
    OutOfRange,
    Taken,
    Unused,
    Condition,
}

impl Refusal {
    pub fn number(self) -> u32 {
        match self {
            Refusal::OutOfRange => 1,
            Refusal::Taken => 2,
            Refusal::Unused => 3,
            Refusal::Condition => 4,
        }
    }
}

/// An edit whose numbers are all in range.
#[derive(Clone, Copy)]
enum Step {
    Mvfs { shell: Shell, face: Face, outer: Loop, vertex: Vertex, at: Point },
    Kvfs { shell: Shell },
    Mev { place: Place, edge: Edge, vertex: Vertex, at: Point },
    Kev { half: Half },
    Mef { from: Half, to: Half, edge: Edge, face: Face, outer: Loop },
    Kef { half: Half },
    Kemr { half: Half, inner: Loop },
    Mekr { place: Place, inner: Place, edge: Edge },
    Kfmrh { kept: Face, killed: Face },
    Move { vertex: Vertex, at: Point },
}

/// A row, as an edit names it. A half-edge is named by its edge, since it
/// is used exactly when its mate is.
enum Row {
    Shell(Shell),
    Face(Face),
    Loop(Loop),
    Edge(Edge),
    Vertex(Vertex),
}

fn below(number: i64, count: i64) -> Option<i64> {
    (0..count).contains(&number).then_some(number)
}

fn shell(number: i64) -> Option<Shell> {
    below(number, SHELLS).map(Shell)
}

fn face(number: i64) -> Option<Face> {
    below(number, FACES).map(Face)
}

fn loop_number(number: i64) -> Option<Loop> {
    below(number, LOOPS).map(Loop)
}

fn edge(number: i64) -> Option<Edge> {
    below(number, EDGES).map(Edge)
}

fn vertex(number: i64) -> Option<Vertex> {
    below(number, VERTICES).map(Vertex)
}

fn half(number: i64) -> Option<Half> {
    below(number, 2 * EDGES).map(Half)
}

fn place(number: i64) -> Option<Place> {
    match number {
        0..=383 => Some(Place::Half(Half(number))),
        512..=607 => Some(Place::Loop(Loop(number - 512))),
        _ => None,
    }
}

fn point(coordinates: [i64; 3]) -> Option<Point> {
    let range = LEAST_COORDINATE..=LARGEST_COORDINATE;
    let [x, y, z] = coordinates;
    coordinates.iter().all(|c| range.contains(c)).then_some(Point { x, y, z })
}

/// The edit's step, or none if one of its numbers is out of range.
fn ranged(edit: &Edit) -> Option<Step> {
    let [a, b, c, d, e] = edit.fields;
    let at = point(edit.coordinates)?;
    Some(match edit.operator {
        Operator::Mvfs => Step::Mvfs {
            shell: shell(a)?,
            face: face(b)?,
            outer: loop_number(c)?,
            vertex: vertex(d)?,
            at,
        },
        Operator::Kvfs => Step::Kvfs { shell: shell(a)? },
        Operator::Mev => Step::Mev { place: place(a)?, edge: edge(b)?, vertex: vertex(c)?, at },
        Operator::Kev => Step::Kev { half: half(a)? },
        Operator::Mef => Step::Mef {
            from: half(a)?,
            to: half(b)?,
            edge: edge(c)?,
            face: face(d)?,
            outer: loop_number(e)?,
        },
        Operator::Kef => Step::Kef { half: half(a)? },
        Operator::Kemr => Step::Kemr { half: half(a)?, inner: loop_number(b)? },
        Operator::Mekr => Step::Mekr { place: place(a)?, inner: place(b)?, edge: edge(c)? },
        Operator::Kfmrh => Step::Kfmrh { kept: face(a)?, killed: face(b)? },
        Operator::Move => Step::Move { vertex: vertex(a)?, at },
    })
}

impl Place {
    fn row(self) -> Row {
        match self {
            Place::Half(half) => Row::Edge(half.edge()),
            Place::Loop(number) => Row::Loop(number),
        }
    }
}

impl Step {
    /// The rows that it names and that must be used.
    fn names(self) -> Vec<Row> {
        match self {
            Step::Mvfs { .. } => vec![],
            Step::Kvfs { shell } => vec![Row::Shell(shell)],
            Step::Mev { place, .. } => vec![place.row()],
            Step::Kev { half } | Step::Kef { half } | Step::Kemr { half, .. } => {
                vec![Row::Edge(half.edge())]
            }
            Step::Mef { from, to, .. } => vec![Row::Edge(from.edge()), Row::Edge(to.edge())],
            Step::Mekr { place, inner, .. } => vec![place.row(), inner.row()],
            Step::Kfmrh { kept, killed } => vec![Row::Face(kept), Row::Face(killed)],
            Step::Move { vertex, .. } => vec![Row::Vertex(vertex)],
        }
    }

    /// The rows that it makes and that must be unused.
    fn makes(self) -> Vec<Row> {
        match self {
            Step::Mvfs { shell, face, outer, vertex, .. } => {
                vec![Row::Shell(shell), Row::Face(face), Row::Loop(outer), Row::Vertex(vertex)]
            }
            Step::Mev { edge, vertex, .. } => vec![Row::Edge(edge), Row::Vertex(vertex)],
            Step::Mef { edge, face, outer, .. } => {
                vec![Row::Edge(edge), Row::Face(face), Row::Loop(outer)]
            }
            Step::Kemr { inner, .. } => vec![Row::Loop(inner)],
            Step::Mekr { edge, .. } => vec![Row::Edge(edge)],
            Step::Kvfs { .. }
            | Step::Kev { .. }
            | Step::Kef { .. }
            | Step::Kfmrh { .. }
            | Step::Move { .. } => vec![],
        }
    }
}

impl Solid {
    /// Carries the edit out, or refuses it and changes nothing.
    pub fn apply(&mut self, edit: &Edit) -> Result<(), Refusal> {
        let step = ranged(edit).ok_or(Refusal::OutOfRange)?;
        if !step.names().iter().all(|row| self.is_used(row)) {
            return Err(Refusal::Unused);
        }
        if step.makes().iter().any(|row| self.is_used(row)) {
            return Err(Refusal::Taken);
        }
        if !self.allows(step) {
            return Err(Refusal::Condition);
        }
        self.carry_out(step);
        Ok(())
    }

    fn is_used(&self, row: &Row) -> bool {
        match row {
            Row::Shell(number) => self.shells.contains(number),
            Row::Face(number) => self.faces.contains_key(number),
            Row::Loop(number) => self.loops.contains_key(number),
            Row::Edge(number) => self.edges.contains_key(number),
            Row::Vertex(number) => self.vertices.contains_key(number),
        }
    }

    /// Whether the operator's condition holds.
    fn allows(&self, step: Step) -> bool {
        match step {
            Step::Mvfs { .. } | Step::Move { .. } => true,
            Step::Kvfs { shell } => self.is_one_point(shell),
            Step::Mev { place, .. } => self.stands(place),
            Step::Kev { half } => self.next(half) == half.mate(),
            Step::Mef { from, to, .. } => from != to && self.loop_of(from) == self.loop_of(to),
            Step::Kef { half } => {
                let own = self.loop_of(half);
                own != self.loop_of(half.mate()) && self.is_only_loop(own)
            }
            Step::Kemr { half, .. } => self.loop_of(half) == self.loop_of(half.mate()),
            Step::Mekr { place, inner, .. } => self.are_joinable(place, inner),
            Step::Kfmrh { kept, killed } => kept != killed && self.loops_of(killed).len() == 1,
        }
    }

    /// One face with one loop with a lone vertex.
    fn is_one_point(&self, shell: Shell) -> bool {
        let [face] = self.faces_of(shell)[..] else { return false };
        let [only] = self.loops_of(face)[..] else { return false };
        self.lone_vertex(only).is_some()
    }

    /// A loop that is named as a place must have a lone vertex.
    fn stands(&self, place: Place) -> bool {
        match place {
            Place::Half(_) => true,
            Place::Loop(number) => self.lone_vertex(number).is_some(),
        }
    }

    fn is_only_loop(&self, number: Loop) -> bool {
        self.loops_of(self.loops[&number].face) == [number]
    }

    /// Two places in different loops of one face, the second not in the outer one.
    fn are_joinable(&self, place: Place, inner: Place) -> bool {
        let (kept, gone) = (self.loop_at(place), self.loop_at(inner));
        let face = self.loops[&gone].face;
        self.stands(place)
            && self.stands(inner)
            && kept != gone
            && self.loops[&kept].face == face
            && self.faces[&face].outer != gone
    }

    fn next(&self, half: Half) -> Half {
        let ring = self.ring_from(half);
        ring[1 % ring.len()]
    }

    fn loop_at(&self, place: Place) -> Loop {
        match place {
            Place::Half(half) => self.loop_of(half),
            Place::Loop(number) => number,
        }
    }

    fn vertex_at(&self, place: Place) -> Vertex {
        match place {
            Place::Half(half) => self.start(half),
            Place::Loop(number) => self.lone_vertex(number).expect("a place has a vertex"),
        }
    }

    /// The ring of the place's loop, from the place on; empty at a lone vertex.
    fn ring_at(&self, place: Place) -> Vec<Half> {
        match place {
            Place::Half(half) => self.ring_from(half),
            Place::Loop(_) => vec![],
        }
    }

    fn carry_out(&mut self, step: Step) {
        match step {
            Step::Mvfs { shell, face, outer, vertex, at } => {
                self.mvfs(shell, face, outer, vertex, at)
            }
            Step::Kvfs { shell } => self.kvfs(shell),
            Step::Mev { place, edge, vertex, at } => self.mev(place, edge, vertex, at),
            Step::Kev { half } => self.kev(half),
            Step::Mef { from, to, edge, face, outer } => self.mef(from, to, edge, face, outer),
            Step::Kef { half } => self.kef(half),
            Step::Kemr { half, inner } => self.kemr(half, inner),
            Step::Mekr { place, inner, edge } => self.mekr(place, inner, edge),
            Step::Kfmrh { kept, killed } => self.kfmrh(kept, killed),
            Step::Move { vertex, at } => {
                self.vertices.insert(vertex, at);
            }
        }
    }

    /// Gives a loop the ring, or the lone vertex where the ring is empty.
    fn bind(&mut self, number: Loop, face: Face, ring: Vec<Half>, lone: Vertex) {
        let bound = if ring.is_empty() { Bound::Lone(lone) } else { Bound::Ring(ring) };
        self.loops.insert(number, LoopRow { face, bound });
    }

    fn mvfs(&mut self, shell: Shell, face: Face, outer: Loop, vertex: Vertex, at: Point) {
        self.shells.insert(shell);
        self.faces.insert(face, FaceRow { shell, outer });
        self.bind(outer, face, vec![], vertex);
        self.vertices.insert(vertex, at);
    }

    fn kvfs(&mut self, shell: Shell) {
        let face = self.faces_of(shell)[0];
        let only = self.loops_of(face)[0];
        let vertex = self.lone_vertex(only).expect("the loop has a lone vertex");
        self.shells.remove(&shell);
        self.faces.remove(&face);
        self.loops.remove(&only);
        self.vertices.remove(&vertex);
    }

    fn mev(&mut self, place: Place, edge: Edge, vertex: Vertex, at: Point) {
        let own = self.loop_at(place);
        let face = self.loops[&own].face;
        let start = self.vertex_at(place);
        // Behind the last of a ring from a on is just before a.
        let mut ring = self.ring_at(place);
        ring.extend(edge.halves());
        self.edges.insert(edge, EdgeRow { starts: [start, vertex] });
        self.vertices.insert(vertex, at);
        self.bind(own, face, ring, start);
    }

    fn kev(&mut self, half: Half) {
        let own = self.loop_of(half);
        let face = self.loops[&own].face;
        let (start, end) = (self.start(half), self.end(half));
        // The ring is the half-edge, its mate and the rest.
        let rest = self.ring_from(half)[2..].to_vec();
        self.bind(own, face, rest, start);
        self.edges.remove(&half.edge());
        self.vertices.remove(&end);
    }

    fn mef(&mut self, from: Half, to: Half, edge: Edge, face: Face, outer: Loop) {
        let own = self.loop_of(from);
        let old_face = self.loops[&own].face;
        let shell = self.faces[&old_face].shell;
        let starts = [self.start(from), self.start(to)];
        let [even, odd] = edge.halves();
        let mut leaving = self.ring_from(from);
        let border = leaving.iter().position(|&h| h == to).expect("both are in one loop");
        let mut staying = leaving.split_off(border);
        leaving.push(odd);
        staying.push(even);
        self.edges.insert(edge, EdgeRow { starts });
        self.faces.insert(face, FaceRow { shell, outer });
        self.bind(outer, face, leaving, starts[0]);
        self.bind(own, old_face, staying, starts[1]);
    }

    fn kef(&mut self, half: Half) {
        let gone = self.loop_of(half);
        let gone_face = self.loops[&gone].face;
        let kept = self.loop_of(half.mate());
        let kept_face = self.loops[&kept].face;
        let start = self.start(half);
        let mut joined = self.ring_from(half)[1..].to_vec();
        joined.extend_from_slice(&self.ring_from(half.mate())[1..]);
        self.edges.remove(&half.edge());
        self.loops.remove(&gone);
        self.faces.remove(&gone_face);
        self.bind(kept, kept_face, joined, start);
    }

    fn kemr(&mut self, half: Half, inner: Loop) {
        let own = self.loop_of(half);
        let face = self.loops[&own].face;
        let (start, end) = (self.start(half), self.end(half));
        let ring = self.ring_from(half);
        let border = ring.iter().position(|&h| h == half.mate()).expect("both are in one ring");
        let leaving = ring[1..border].to_vec();
        let staying = ring[border + 1..].to_vec();
        self.edges.remove(&half.edge());
        self.bind(inner, face, leaving, end);
        self.bind(own, face, staying, start);
    }

    fn mekr(&mut self, place: Place, inner: Place, edge: Edge) {
        let (kept, gone) = (self.loop_at(place), self.loop_at(inner));
        let face = self.loops[&kept].face;
        let starts = [self.vertex_at(place), self.vertex_at(inner)];
        let [even, odd] = edge.halves();
        let mut joined = vec![even];
        joined.extend(self.ring_at(inner));
        joined.push(odd);
        joined.extend(self.ring_at(place));
        self.edges.insert(edge, EdgeRow { starts });
        self.loops.remove(&gone);
        self.bind(kept, face, joined, starts[0]);
    }

    fn kfmrh(&mut self, kept: Face, killed: Face) {
        let (shell, killed_shell) = (self.faces[&kept].shell, self.faces[&killed].shell);
        for row in self.loops.values_mut().filter(|row| row.face == killed) {
            row.face = kept;
        }
        self.faces.remove(&killed);
        if shell == killed_shell {
            self.handles += 1;
            return;
        }
        self.shells.remove(&killed_shell);
        for row in self.faces.values_mut().filter(|row| row.shell == killed_shell) {
            row.shell = shell;
        }
    }
}
