//! The eight rules that every solid keeps.

use crate::edit::Edit;
use crate::operators::Refusal;
use crate::solid::*;
use std::collections::BTreeMap;

/// Carries the edit out as the solid does, and asserts the rules behind it.
pub fn apply(solid: &mut Solid, edit: &Edit) -> Result<(), Refusal> {
    solid.apply(edit)?;
    if let Err(broken) = sound(solid) {
        panic!("{edit:?} broke a rule: {broken}");
    }
    Ok(())
}

type Kept = Result<(), String>;

pub fn sound(solid: &Solid) -> Kept {
    rows_are_named(solid)?;
    rings_continue(solid)?;
    halves_lie_in_one_loop(solid)?;
    halves_at_a_vertex_make_one_ring(solid)?;
    lone_vertices(solid)?;
    outer_loops_and_shells(solid)?;
    mates_lie_in_one_shell(solid)?;
    counts_balance(solid)
}

fn ensure(holds: bool, broken: impl FnOnce() -> String) -> Kept {
    if holds {
        Ok(())
    } else {
        Err(broken())
    }
}

/// Rule 1: every number in a used row is in range and names a used row. A
/// half-edge is used when its edge is, so mates are used together.
fn rows_are_named(solid: &Solid) -> Kept {
    let below = |number: i64, count: i64| (0..count).contains(&number);
    for shell in &solid.shells {
        ensure(below(shell.0, SHELLS), || format!("{shell:?} is out of range"))?;
    }
    for (face, row) in &solid.faces {
        let used = solid.shells.contains(&row.shell) && solid.loops.contains_key(&row.outer);
        ensure(below(face.0, FACES) && used, || format!("{face:?} names {row:?}"))?;
    }
    for (number, row) in &solid.loops {
        let bound = match &row.bound {
            Bound::Lone(vertex) => solid.vertices.contains_key(vertex),
            Bound::Ring(ring) => ring.iter().all(|h| solid.edges.contains_key(&h.edge())),
        };
        let used = bound && solid.faces.contains_key(&row.face);
        ensure(below(number.0, LOOPS) && used, || format!("{number:?} names {row:?}"))?;
    }
    for (edge, row) in &solid.edges {
        let used = row.starts.iter().all(|vertex| solid.vertices.contains_key(vertex));
        ensure(below(edge.0, EDGES) && used, || format!("{edge:?} names {row:?}"))?;
    }
    let range = LEAST_COORDINATE..=LARGEST_COORDINATE;
    for (vertex, at) in &solid.vertices {
        let near = [at.x, at.y, at.z].iter().all(|c| range.contains(c));
        ensure(below(vertex.0, VERTICES) && near, || format!("{vertex:?} at {at:?}"))?;
    }
    Ok(())
}

fn rings(solid: &Solid) -> impl Iterator<Item = &Vec<Half>> {
    solid.loops.values().filter_map(|row| match &row.bound {
        Bound::Ring(ring) => Some(ring),
        Bound::Lone(_) => None,
    })
}

/// Each half-edge of a ring with the one after it.
fn followers(solid: &Solid) -> Vec<(Half, Half)> {
    let of_ring = |ring: &Vec<Half>| -> Vec<(Half, Half)> {
        let after = ring.iter().cycle().skip(1);
        ring.iter().copied().zip(after.copied()).collect()
    };
    rings(solid).flat_map(of_ring).collect()
}

fn used_halves(solid: &Solid) -> Vec<Half> {
    solid.edges.keys().flat_map(|edge| edge.halves()).collect()
}

/// Rule 2: next(h) starts where h ends, and no two half-edges have the same next.
fn rings_continue(solid: &Solid) -> Kept {
    let pairs = followers(solid);
    for (half, next) in &pairs {
        let meets = solid.start(*next) == solid.end(*half);
        ensure(meets, || format!("{next:?} does not start where {half:?} ends"))?;
    }
    let mut nexts: Vec<Half> = pairs.iter().map(|pair| pair.1).collect();
    nexts.sort();
    let twice = nexts.windows(2).find(|pair| pair[0] == pair[1]);
    ensure(twice.is_none(), || format!("{twice:?} is next of two half-edges"))
}

/// Rule 3: a used half-edge is in one loop. That a loop's half-edges make
/// one ring is the form of the list.
fn halves_lie_in_one_loop(solid: &Solid) -> Kept {
    let mut members: Vec<Half> = rings(solid).flatten().copied().collect();
    members.sort();
    let used = used_halves(solid);
    ensure(members == used, || format!("used are {used:?}, in loops {members:?}"))
}

/// Rule 4: the half-edges starting at a vertex make one ring under the step
/// from h to next(mate of h).
fn halves_at_a_vertex_make_one_ring(solid: &Solid) -> Kept {
    let next: BTreeMap<Half, Half> = followers(solid).into_iter().collect();
    let mut starting: BTreeMap<Vertex, Vec<Half>> = BTreeMap::new();
    for half in used_halves(solid) {
        starting.entry(solid.start(half)).or_default().push(half);
    }
    for (vertex, halves) in starting {
        let mut met = vec![halves[0]];
        let mut at = next[&halves[0].mate()];
        while at != halves[0] && met.len() <= halves.len() {
            met.push(at);
            at = next[&at.mate()];
        }
        met.sort();
        ensure(met == halves, || format!("round {vertex:?} are {met:?}, not {halves:?}"))?;
    }
    Ok(())
}

/// Rule 5: a loop has a lone vertex exactly when it has no half-edge. A used
/// vertex is the start of a half-edge, or lone in exactly one loop, not both.
fn lone_vertices(solid: &Solid) -> Kept {
    let empty = rings(solid).any(|ring| ring.is_empty());
    ensure(!empty, || "a loop has neither half-edge nor lone vertex".to_string())?;
    for vertex in solid.vertices.keys() {
        let starts = used_halves(solid).iter().any(|&half| solid.start(half) == *vertex);
        let is_lone = |row: &&LoopRow| matches!(row.bound, Bound::Lone(lone) if lone == *vertex);
        let lone = solid.loops.values().filter(is_lone).count();
        let wanted = if starts { 0 } else { 1 };
        ensure(lone == wanted, || format!("{vertex:?} is lone in {lone} loops, starts: {starts}"))?;
    }
    Ok(())
}

/// Rule 6: a face's outer loop belongs to that face, and every used shell has a face.
fn outer_loops_and_shells(solid: &Solid) -> Kept {
    for (face, row) in &solid.faces {
        let own = solid.loops[&row.outer].face == *face;
        ensure(own, || format!("{:?}, outer in {face:?}, belongs to another", row.outer))?;
    }
    for shell in &solid.shells {
        ensure(!solid.faces_of(*shell).is_empty(), || format!("{shell:?} has no face"))?;
    }
    Ok(())
}

/// Rule 7: the loops of two mates lie in faces of one shell.
fn mates_lie_in_one_shell(solid: &Solid) -> Kept {
    let shell_of = |half: Half| solid.faces[&solid.loops[&solid.loop_of(half)].face].shell;
    for edge in solid.edges.keys() {
        let [even, odd] = edge.halves();
        ensure(shell_of(even) == shell_of(odd), || format!("{edge:?} lies in two shells"))?;
    }
    Ok(())
}

/// Rule 8: v - e + f - r = 2(s - h), where r = l - f.
fn counts_balance(solid: &Solid) -> Kept {
    let count = |rows: usize| rows as i64;
    let (v, e) = (count(solid.vertices.len()), count(solid.edges.len()));
    let (f, l, s) = (count(solid.faces.len()), count(solid.loops.len()), count(solid.shells.len()));
    let r = l - f;
    let h = solid.handles;
    ensure(v - e + f - r == 2 * (s - h), || format!("v {v} e {e} f {f} l {l} s {s} h {h}"))
}
