//! A second program for `draw`: it answers the same input and gives the output that is expected of
//! `draw`. It keeps each ring as a list and shares no code with the proved program.
use std::collections::BTreeMap;
use std::fmt::Write as _;
use std::io::{Read, Write as _};

#[derive(Clone, Debug)]
enum Place {
    Half(usize),
    Lone(usize),
}

#[derive(Clone, Debug)]
enum Around {
    Ring(Vec<usize>),
    Lone(usize),
}

#[derive(Clone, Debug)]
struct LoopRow {
    face: usize,
    around: Around,
}

#[derive(Clone, Default)]
struct Model {
    shells: BTreeMap<usize, ()>,
    faces: BTreeMap<usize, (usize, usize)>,
    loops: BTreeMap<usize, LoopRow>,
    starts: BTreeMap<usize, [usize; 2]>,
    vertices: BTreeMap<usize, [i64; 3]>,
    handles: usize,
}

type Answer = Result<(), u32>;

fn ensure(test: bool, number: u32) -> Answer {
    if test { Ok(()) } else { Err(number) }
}

fn number(x: i64, count: i64) -> Result<usize, u32> {
    if (0..count).contains(&x) { Ok(x as usize) } else { Err(1) }
}

fn place(x: i64) -> Result<Place, u32> {
    match x {
        0..=383 => Ok(Place::Half(x as usize)),
        512..=607 => Ok(Place::Lone(x as usize - 512)),
        _ => Err(1),
    }
}

fn point(xyz: &[i64]) -> Result<[i64; 3], u32> {
    for x in xyz {
        ensure((-8_388_608..=8_388_607).contains(x), 1)?;
    }
    Ok([xyz[0], xyz[1], xyz[2]])
}

impl Model {
    fn start(&self, h: usize) -> usize {
        self.starts[&(h / 2)][h % 2]
    }

    fn has_half(&self, h: usize) -> bool {
        self.starts.contains_key(&(h / 2))
    }

    /// The loop whose ring has `h`, and the ring turned so that it begins with `h`.
    fn ring_from(&self, h: usize) -> (usize, Vec<usize>) {
        for (l, row) in &self.loops {
            if let Around::Ring(ring) = &row.around {
                if let Some(at) = ring.iter().position(|x| *x == h) {
                    let mut turned = ring[at..].to_vec();
                    turned.extend_from_slice(&ring[..at]);
                    return (*l, turned);
                }
            }
        }
        panic!("half-edge {h} is on no ring");
    }

    fn loops_of(&self, f: usize) -> Vec<usize> {
        self.loops.iter().filter(|(_, row)| row.face == f).map(|(l, _)| *l).collect()
    }

    fn set_around(&mut self, l: usize, ring: Vec<usize>, lone: usize) {
        let around = if ring.is_empty() { Around::Lone(lone) } else { Around::Ring(ring) };
        self.loops.get_mut(&l).unwrap().around = around;
    }

    fn place_used(&self, p: &Place) -> bool {
        match p {
            Place::Half(h) => self.has_half(*h),
            Place::Lone(l) => self.loops.contains_key(l),
        }
    }

    /// The loop of a place, its ring from the place on, and its vertex; 4 for a loop with no lone vertex.
    fn at(&self, p: &Place) -> Result<(usize, Vec<usize>, usize), u32> {
        match p {
            Place::Half(h) => {
                let (l, ring) = self.ring_from(*h);
                Ok((l, ring, self.start(*h)))
            }
            Place::Lone(l) => match &self.loops[l].around {
                Around::Lone(v) => Ok((*l, vec![], *v)),
                Around::Ring(_) => Err(4),
            },
        }
    }

    fn apply(&mut self, name: &str, n: &[i64]) -> Answer {
        match name {
            "mvfs" => self.mvfs(number(n[0], 8)?, number(n[1], 96)?, number(n[2], 96)?, number(n[3], 128)?, point(&n[4..])?),
            "kvfs" => self.kvfs(number(n[0], 8)?),
            "mev" => self.mev(place(n[0])?, number(n[1], 192)?, number(n[2], 128)?, point(&n[3..])?),
            "kev" => self.kev(number(n[0], 384)?),
            "mef" => self.mef(number(n[0], 384)?, number(n[1], 384)?, number(n[2], 192)?, number(n[3], 96)?, number(n[4], 96)?),
            "kef" => self.kef(number(n[0], 384)?),
            "kemr" => self.kemr(number(n[0], 384)?, number(n[1], 96)?),
            "mekr" => self.mekr(place(n[0])?, place(n[1])?, number(n[2], 192)?),
            "kfmrh" => self.kfmrh(number(n[0], 96)?, number(n[1], 96)?),
            "move" => {
                let v = number(n[0], 128)?;
                let p = point(&n[1..])?;
                ensure(self.vertices.contains_key(&v), 3)?;
                self.vertices.insert(v, p);
                Ok(())
            }
            _ => unreachable!(),
        }
    }

    fn mvfs(&mut self, s: usize, f: usize, l: usize, v: usize, p: [i64; 3]) -> Answer {
        ensure(!self.shells.contains_key(&s) && !self.faces.contains_key(&f), 2)?;
        ensure(!self.loops.contains_key(&l) && !self.vertices.contains_key(&v), 2)?;
        self.shells.insert(s, ());
        self.faces.insert(f, (s, l));
        self.loops.insert(l, LoopRow { face: f, around: Around::Lone(v) });
        self.vertices.insert(v, p);
        Ok(())
    }

    fn kvfs(&mut self, s: usize) -> Answer {
        ensure(self.shells.contains_key(&s), 3)?;
        let faces: Vec<usize> = self.faces.iter().filter(|(_, (t, _))| *t == s).map(|(f, _)| *f).collect();
        let &[f] = &faces[..] else { return Err(4) };
        let loops = self.loops_of(f);
        let &[l] = &loops[..] else { return Err(4) };
        let Around::Lone(v) = self.loops[&l].around else { return Err(4) };
        self.shells.remove(&s);
        self.faces.remove(&f);
        self.loops.remove(&l);
        self.vertices.remove(&v);
        Ok(())
    }

    fn mev(&mut self, a: Place, k: usize, v: usize, p: [i64; 3]) -> Answer {
        ensure(self.place_used(&a), 3)?;
        ensure(!self.starts.contains_key(&k) && !self.vertices.contains_key(&v), 2)?;
        let (l, mut ring, from) = self.at(&a)?;
        // Behind the last of a ring that begins with a is just before a.
        ring.push(2 * k);
        ring.push(2 * k + 1);
        self.starts.insert(k, [from, v]);
        self.vertices.insert(v, p);
        self.set_around(l, ring, 0);
        Ok(())
    }

    fn kev(&mut self, a: usize) -> Answer {
        ensure(self.has_half(a), 3)?;
        let (l, ring) = self.ring_from(a);
        ensure(ring.len() > 1 && ring[1] == a ^ 1, 4)?;
        let (stay, goes) = (self.start(a), self.start(a ^ 1));
        self.set_around(l, ring[2..].to_vec(), stay);
        self.starts.remove(&(a / 2));
        self.vertices.remove(&goes);
        Ok(())
    }

    fn mef(&mut self, a: usize, b: usize, k: usize, f: usize, e: usize) -> Answer {
        ensure(self.has_half(a) && self.has_half(b), 3)?;
        ensure(!self.starts.contains_key(&k) && !self.faces.contains_key(&f) && !self.loops.contains_key(&e), 2)?;
        ensure(a != b, 4)?;
        let (l, ring) = self.ring_from(a);
        let Some(at) = ring.iter().position(|x| *x == b) else { return Err(4) };
        let mut new = ring[..at].to_vec();
        let mut old = ring[at..].to_vec();
        new.push(2 * k + 1);
        old.push(2 * k);
        self.starts.insert(k, [self.start(a), self.start(b)]);
        let shell = self.faces[&self.loops[&l].face].0;
        self.faces.insert(f, (shell, e));
        self.loops.insert(e, LoopRow { face: f, around: Around::Ring(new) });
        self.set_around(l, old, 0);
        Ok(())
    }

    fn kef(&mut self, a: usize) -> Answer {
        ensure(self.has_half(a), 3)?;
        let (l, ring) = self.ring_from(a);
        let (m, other) = self.ring_from(a ^ 1);
        ensure(l != m, 4)?;
        let f = self.loops[&l].face;
        ensure(self.loops_of(f).len() == 1, 4)?;
        let mut all = ring[1..].to_vec();
        all.extend_from_slice(&other[1..]);
        let v = self.start(a);
        self.set_around(m, all, v);
        self.starts.remove(&(a / 2));
        self.loops.remove(&l);
        self.faces.remove(&f);
        Ok(())
    }

    fn kemr(&mut self, a: usize, b: usize) -> Answer {
        ensure(self.has_half(a), 3)?;
        ensure(!self.loops.contains_key(&b), 2)?;
        let (l, ring) = self.ring_from(a);
        let Some(at) = ring.iter().position(|x| *x == a ^ 1) else { return Err(4) };
        let (between, rest) = (ring[1..at].to_vec(), ring[at + 1..].to_vec());
        let (first, last) = (self.start(a), self.start(a ^ 1));
        let face = self.loops[&l].face;
        self.loops.insert(b, LoopRow { face, around: Around::Lone(last) });
        self.set_around(b, between, last);
        self.set_around(l, rest, first);
        self.starts.remove(&(a / 2));
        Ok(())
    }

    fn mekr(&mut self, a: Place, b: Place, k: usize) -> Answer {
        ensure(self.place_used(&a) && self.place_used(&b), 3)?;
        ensure(!self.starts.contains_key(&k), 2)?;
        let (l, mut of_a, v) = self.at(&a)?;
        let (i, mut of_b, w) = self.at(&b)?;
        ensure(l != i && self.loops[&l].face == self.loops[&i].face, 4)?;
        ensure(self.faces[&self.loops[&i].face].1 != i, 4)?;
        let mut all = vec![2 * k];
        all.append(&mut of_b);
        all.push(2 * k + 1);
        all.append(&mut of_a);
        self.starts.insert(k, [v, w]);
        self.set_around(l, all, 0);
        self.loops.remove(&i);
        Ok(())
    }

    fn kfmrh(&mut self, a: usize, b: usize) -> Answer {
        ensure(self.faces.contains_key(&a) && self.faces.contains_key(&b), 3)?;
        ensure(a != b, 4)?;
        let loops = self.loops_of(b);
        let &[l] = &loops[..] else { return Err(4) };
        let (s, t) = (self.faces[&a].0, self.faces[&b].0);
        self.loops.get_mut(&l).unwrap().face = a;
        self.faces.remove(&b);
        if s == t {
            self.handles += 1;
        } else {
            self.shells.remove(&t);
            for (shell, _) in self.faces.values_mut() {
                if *shell == t {
                    *shell = s;
                }
            }
        }
        Ok(())
    }

    fn listing(&self) -> String {
        let mut out = String::new();
        let (v, e, f) = (self.vertices.len(), self.starts.len(), self.faces.len());
        writeln!(out, "c {v} {e} {f} {} {} {}", self.loops.len(), self.shells.len(), self.handles).unwrap();
        for (k, p) in &self.vertices {
            writeln!(out, "v {k} {} {} {}", p[0], p[1], p[2]).unwrap();
        }
        for (k, s) in &self.starts {
            writeln!(out, "e {k} {} {}", s[0], s[1]).unwrap();
        }
        for (k, (s, l)) in &self.faces {
            writeln!(out, "f {k} {s} {l}").unwrap();
        }
        for (k, row) in &self.loops {
            write!(out, "l {k} {}", row.face).unwrap();
            match &row.around {
                Around::Lone(v) => write!(out, " v {v}").unwrap(),
                Around::Ring(ring) => {
                    let least = *ring.iter().min().unwrap();
                    for h in self.ring_from(least).1 {
                        write!(out, " {h}").unwrap();
                    }
                }
            }
            out.push('\n');
        }
        out
    }
}

const OPERATORS: [(&str, usize); 10] = [
    ("mvfs", 7),
    ("kvfs", 1),
    ("mev", 6),
    ("kev", 1),
    ("mef", 5),
    ("kef", 1),
    ("kemr", 2),
    ("mekr", 3),
    ("kfmrh", 2),
    ("move", 4),
];

/// An optional minus and 1 to 9 digits.
fn numeral(word: &[u8]) -> Option<i64> {
    let digits = word.strip_prefix(b"-").unwrap_or(word);
    if digits.is_empty() || digits.len() > 9 || !digits.iter().all(u8::is_ascii_digit) {
        return None;
    }
    std::str::from_utf8(word).unwrap().parse().ok()
}

fn answer(model: &mut Model, words: &[&[u8]]) -> Answer {
    let Some((name, count)) = OPERATORS.iter().find(|(name, _)| name.as_bytes() == words[0]) else {
        return Err(40);
    };
    let numbers: Option<Vec<i64>> = words[1..].iter().map(|word| numeral(word)).collect();
    match numbers {
        Some(numbers) if numbers.len() == *count => model.apply(name, &numbers),
        _ => Err(41),
    }
}

fn main() {
    let mut input = Vec::new();
    std::io::stdin().take(32768).read_to_end(&mut input).unwrap();
    let mut model = Model::default();
    let mut out = String::new();
    for (at, line) in input.split(|b| *b == b'\n').enumerate() {
        let words: Vec<&[u8]> = line.split(|b| *b == b' ').filter(|word| !word.is_empty()).collect();
        if words.is_empty() {
            continue;
        }
        match answer(&mut model, &words) {
            Ok(()) => out.push_str("ok\n"),
            Err(number) => writeln!(out, "no {number} {}", at + 1).unwrap(),
        }
    }
    out.push_str(&model.listing());
    std::io::stdout().write_all(out.as_bytes()).unwrap();
}
