//! The listing of a solid.

use crate::solid::{Bound, Half, Solid};

/// The line of the counts, without its line feed.
pub fn counts(solid: &Solid) -> String {
    format!(
        "c {} {} {} {} {} {}",
        solid.vertices.len(),
        solid.edges.len(),
        solid.faces.len(),
        solid.loops.len(),
        solid.shells.len(),
        solid.handles
    )
}

pub fn listing(solid: &Solid) -> String {
    let mut lines = vec![counts(solid)];
    for (number, at) in &solid.vertices {
        lines.push(format!("v {} {} {} {}", number.0, at.x, at.y, at.z));
    }
    for (number, row) in &solid.edges {
        let [even, odd] = row.starts;
        lines.push(format!("e {} {} {}", number.0, even.0, odd.0));
    }
    for (number, row) in &solid.faces {
        lines.push(format!("f {} {} {}", number.0, row.shell.0, row.outer.0));
    }
    for (number, row) in &solid.loops {
        lines.push(format!("l {} {}{}", number.0, row.face.0, bound_words(&row.bound)));
    }
    lines.join("\n") + "\n"
}

/// Each word with a space before it.
fn bound_words(bound: &Bound) -> String {
    match bound {
        Bound::Lone(vertex) => format!(" v {}", vertex.0),
        Bound::Ring(ring) => from_smallest(ring).iter().map(|h| format!(" {}", h.0)).collect(),
    }
}

fn from_smallest(ring: &[Half]) -> Vec<Half> {
    let mut turned = ring.to_vec();
    let smallest = ring.iter().min();
    let first = ring.iter().position(|h| Some(h) == smallest);
    turned.rotate_left(first.unwrap_or(0));
    turned
}
