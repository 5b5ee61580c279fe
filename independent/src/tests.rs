//! Small values, worked out by hand from the rules.

use crate::bench::{bench, cuts};
use crate::disk::{Content, Disk, DiskFault, Settling, Stop};
use crate::draw::draw;
use crate::edit::{Edit, Operator};
use crate::fault::Fault;
use crate::journal::{self, decode, encode, Record};
use crate::operators::Refusal;
use crate::rules::sound;
use crate::script::script;
use crate::session::Session;
use crate::solid::{Bound, Face, Half, Loop, Shell, Solid, Vertex};

const PATH: &str = "mvfs 0 0 0 0 0 0 0\nmev 512 0 1 256 0 0\nmev 1 1 2 256 256 0\n";

fn edit(line: &str) -> Edit {
    let mut words = line.split(' ');
    let operator = Operator::by_name(words.next().unwrap().as_bytes()).unwrap();
    let numbers: Vec<i64> = words.map(|word| word.parse().unwrap()).collect();
    Edit::new(operator, &numbers).unwrap()
}

fn built(lines: &str) -> Solid {
    let mut solid = Solid::default();
    for line in lines.lines() {
        solid.apply(&edit(line)).unwrap();
        sound(&solid).unwrap();
    }
    solid
}

fn triangle() -> Solid {
    built(&format!("{PATH}mef 0 3 2 1 1\n"))
}

/// The last lines of what `draw` writes for the path and these lines.
fn drawn_end(lines: &str, count: usize) -> Vec<String> {
    let text = draw(format!("{PATH}{lines}").as_bytes());
    let all: Vec<String> = text.lines().map(str::to_string).collect();
    all[all.len() - count..].to_vec()
}

#[test]
fn script_of_the_triangle() {
    let input = format!("blank 8\nopen\nbegin\n{PATH}mef 0 3 2 1 1\ncommit\nshow");
    let expected = "ok\nok 0\nok\nok 0\nok 1\nok 2\nok 3\nok 1\n\
        c 3 3 2 2 1 0\nv 0 0 0 0\nv 1 256 0 0\nv 2 256 256 0\n\
        e 0 0 1\ne 1 1 2\ne 2 0 2\nf 0 0 0\nf 1 0 1\nl 0 0 1 4 3\nl 1 1 0 2 5\nok\n";
    assert_eq!(script(input.as_bytes()), expected);
}

#[test]
fn kemr_leaves_a_lone_vertex() {
    assert_eq!(drawn_end("kemr 2 1\n", 2), ["l 0 0 0 1", "l 1 0 v 2"]);
}

#[test]
fn mekr_undoes_kemr() {
    assert_eq!(drawn_end("kemr 2 1\nmekr 1 513 1\n", 1), ["l 0 0 0 2 3 1"]);
}

#[test]
fn kfmrh_in_one_shell_counts_a_handle() {
    let mut solid = triangle();
    assert_eq!(solid.apply(&edit("kfmrh 0 1")), Ok(()));
    assert_eq!(crate::listing::counts(&solid), "c 3 3 1 2 1 1");
    assert_eq!(sound(&solid), Ok(()));
}

#[test]
fn kfmrh_of_two_shells_counts_none() {
    let solid = built("mvfs 0 0 0 0 0 0 0\nmvfs 1 1 1 1 0 0 0\nkfmrh 0 1\n");
    assert_eq!(
        crate::listing::listing(&solid),
        "c 2 0 1 2 1 0\nv 0 0 0 0\nv 1 0 0 0\nf 0 0 0\nl 0 0 v 0\nl 1 0 v 1\n"
    );
}

#[test]
fn mef_of_one_half_edge_is_refused() {
    assert_eq!(triangle().apply(&edit("mef 0 0 3 2 2")), Err(Refusal::Condition));
}

#[test]
fn kef_undoes_mef() {
    // The mate's ring is the run after 5, which is 0 2, and that after 4, 3 1.
    let mut solid = triangle();
    solid.apply(&edit("kef 5")).unwrap();
    assert!(crate::listing::listing(&solid).ends_with("f 0 0 0\nl 0 0 0 2 3 1\n"));
}

#[test]
fn limits_of_coordinates() {
    let mut solid = triangle();
    assert_eq!(solid.apply(&edit("move 0 8388607 -8388608 0")), Ok(()));
    assert_eq!(solid.apply(&edit("move 0 8388608 0 0")), Err(Refusal::OutOfRange));
    assert_eq!(solid.apply(&edit("move 0 0 0 -8388609")), Err(Refusal::OutOfRange));
}

#[test]
fn order_of_refusals() {
    let mut solid = triangle();
    let mut refused = |line: &str| solid.apply(&edit(line)).unwrap_err();
    // Edge 9 is unused and vertex 0 used; vertex 128 is out of range.
    assert_eq!(refused("mev 18 0 128 0 0 0"), Refusal::OutOfRange);
    assert_eq!(refused("mev 18 0 0 0 0 0"), Refusal::Unused);
    // Loop 0 has a ring; edge 0 is used.
    assert_eq!(refused("mev 512 0 5 0 0 0"), Refusal::Taken);
    assert_eq!(refused("mev 512 5 5 0 0 0"), Refusal::Condition);
    assert_eq!(refused("mev -1 5 5 0 0 0"), Refusal::OutOfRange);
    assert_eq!(refused("mev 384 5 5 0 0 0"), Refusal::OutOfRange);
    assert_eq!(refused("mev 608 5 5 0 0 0"), Refusal::OutOfRange);
    assert_eq!(refused("mev 607 5 5 0 0 0"), Refusal::Unused);
    assert_eq!(refused("kvfs 9223372036854775807"), Refusal::OutOfRange);
}

#[test]
fn broken_rules_are_seen() {
    let breaks = |change: fn(&mut Solid)| {
        let mut solid = triangle();
        change(&mut solid);
        sound(&solid).is_err()
    };
    assert!(!breaks(|_| ()));
    assert!(breaks(|solid| solid.faces.get_mut(&Face(1)).unwrap().shell = Shell(1)));
    assert!(breaks(|solid| swap_ring(solid, [4, 1, 3])));
    assert!(breaks(|solid| swap_ring(solid, [1, 4, 5])));
    assert!(breaks(|solid| solid.loops.get_mut(&Loop(0)).unwrap().bound = Bound::Lone(Vertex(0))));
    assert!(breaks(|solid| solid.faces.get_mut(&Face(1)).unwrap().outer = Loop(0)));
    assert!(breaks(|solid| solid.handles = 1));
    assert!(breaks(|solid| {
        solid.shells.insert(Shell(7));
    }));
}

fn swap_ring(solid: &mut Solid, ring: [i64; 3]) {
    solid.loops.get_mut(&Loop(0)).unwrap().bound = Bound::Ring(ring.map(Half).to_vec());
}

#[test]
fn draw_tells_number_and_line() {
    let input =
        b"\nmvfs 0 0 0 0 0 0 -0\n7\nmove 0\nmove 0 1 2 1234567890\nkvfs\t0\nkvfs -1\nkvfs 1";
    let expected = "ok\nno 40 3\nno 41 4\nno 41 5\nno 40 6\nno 1 7\nno 3 8\n\
        c 1 0 1 1 1 0\nv 0 0 0 0\nf 0 0 0\nl 0 0 v 0\n";
    assert_eq!(draw(input), expected);
}

#[test]
fn a_record_byte_by_byte() {
    let record = Record::Change { number: 258, position: 3, edit: edit("mev 512 0 1 256 -1 0") };
    let mut bytes = [0; 32];
    bytes[..8].copy_from_slice(&[3, 0, 2, 1, 0, 0, 3, 0]);
    bytes[8..14].copy_from_slice(&[0, 2, 0, 0, 1, 0]);
    bytes[20..28].copy_from_slice(&[0, 1, 0, 0, 255, 255, 255, 255]);
    assert_eq!(encode(&record), bytes);
    assert_eq!(decode(&Content::Bytes(bytes)), Some(record));
    for (at, byte) in [(0, 11), (0, 0), (1, 1), (14, 1), (18, 1), (19, 1), (6, 16), (7, 1)] {
        let mut other = bytes;
        other[at] = byte;
        assert_eq!(decode(&Content::Bytes(other)), None, "byte {at} as {byte}");
    }
    bytes[2..4].copy_from_slice(&[0, 0]);
    assert_eq!(decode(&Content::Bytes(bytes)), None);
}

#[test]
fn closing_records_have_1_to_16_edits() {
    for (count, good) in [(0, false), (1, true), (16, true), (17, false)] {
        let record = Record::Closing { number: 1, count };
        assert_eq!(decode(&Content::Bytes(encode(&record))).is_some(), good);
    }
}

/// The replies to sixteen edits, a seventeenth, and the commit.
fn sixteen_edits(blocks: usize) -> (Result<usize, Fault>, Result<usize, Fault>) {
    let (session, opened) = Session::open(Settling::blank(blocks));
    assert_eq!(opened, Ok(0));
    let mut batch = session.begin();
    assert_eq!(batch.edit(&edit("mvfs 0 0 0 0 0 0 0")), Ok(0));
    for position in 1..16 {
        assert_eq!(batch.edit(&edit("move 0 1 1 1")), Ok(position));
    }
    // The seventeenth is out of range, too, but 5 comes first.
    let seventeenth = batch.edit(&edit("move -1 1 1 1"));
    (seventeenth, batch.commit().1)
}

#[test]
fn sixteen_edits_need_seventeen_blocks() {
    let full = Err(Fault::BatchFull { position: 16 });
    assert_eq!(sixteen_edits(17), (full, Ok(1)));
    assert_eq!(sixteen_edits(16), (full, Err(Fault::JournalFull { tail: 0 })));
}

#[test]
fn an_unreadable_tail_is_no_fault() {
    let mut disk = Settling::blank(8);
    let first = Record::Change { number: 1, position: 0, edit: edit("mvfs 0 0 0 0 0 0 0") };
    disk.write(0, encode(&first)).unwrap();
    disk.write(1, [0; 32]).unwrap();
    disk.lose(b"nu");
    assert_eq!(disk.read(1), Ok(Content::Unreadable));
    assert_eq!(Session::open(disk).1, Ok(0));
}

/// Batch 1 is sound, the second edit of batch 2 is refused; its closing
/// record is block 4.
fn disk_with_a_bad_batch() -> Settling {
    let mut disk = Settling::blank(8);
    journal::append(&mut disk, 0, 1, &[edit("mvfs 0 0 0 0 0 0 0")]).unwrap();
    let edits = [edit("move 0 1 1 1"), edit("move 1 1 1 1")];
    journal::append(&mut disk, 2, 2, &edits).unwrap();
    disk
}

#[test]
fn a_refused_edit_of_a_whole_batch() {
    let fault = Fault::BadBatch { block: 3, refusal: Refusal::Unused };
    let (session, opened) = Session::open(disk_with_a_bad_batch());
    assert_eq!(opened, Err(fault));
    assert!(session.solid().vertices.is_empty());
    let mut batch = session.begin();
    assert_eq!(batch.edit(&edit("move -1 0 0 0")), Err(fault));
    assert_eq!(batch.commit().1, Err(fault));
}

#[test]
fn the_closing_record_ends_the_reading_of_a_bad_batch() {
    let opened = |stop| Session::open(Stop::new(disk_with_a_bad_batch(), stop)).1;
    let gone = Fault::Disk(DiskFault::PowerGone { place: 4 });
    assert_eq!(opened(4), Err(gone));
    assert_eq!(opened(5), Err(Fault::BadBatch { block: 3, refusal: Refusal::Unused }));
}

#[test]
fn an_edit_out_of_range_is_a_record_and_then_refused() {
    let mut disk = Settling::blank(4);
    journal::append(&mut disk, 0, 1, &[edit("kvfs 65535")]).unwrap();
    let fault = Fault::BadBatch { block: 0, refusal: Refusal::OutOfRange };
    assert_eq!(Session::open(disk).1, Err(fault));
}

#[test]
fn counts_of_blocks() {
    for (count, good) in [(1, false), (2, true), (1000, true), (1001, false)] {
        let answer = Session::open(Stop::new(Settling::blank(count), 1000)).1;
        assert_eq!(answer, if good { Ok(0) } else { Err(Fault::BadCount { count }) });
    }
}

#[test]
fn a_stop_does_not_count_bad_numbers() {
    let mut disk = Stop::new(Settling::blank(2), 1);
    assert_eq!(disk.read(2), Err(DiskFault::NoSuchBlock { block: 2 }));
    assert_eq!(disk.flush(), Ok(()));
    assert_eq!(disk.flush(), Err(DiskFault::PowerGone { place: 65_535 }));
    assert_eq!(disk.read(1), Err(DiskFault::PowerGone { place: 1 }));
    assert_eq!(disk.read(2), Err(DiskFault::NoSuchBlock { block: 2 }));
}

#[test]
fn bench_worked_by_hand() {
    let text = bench();
    let lines: Vec<&str> = text.lines().collect();
    assert_eq!(lines.len(), 15);
    // All twelve calls are served, so nothing waits at the loss.
    assert_eq!(lines[0], "stops 99 and 99, letters nuxunuxu");
    let served = "done done done done done done done done done 200 21@8 done";
    assert_eq!(lines[1], format!("  answers: {served}"));
    assert_eq!(lines[2], "  reads: 200 201 202 103 204 0 0 0");
    // The eleventh call that counts, the last flush, is not passed on.
    assert_eq!(lines[5], "  reads: 200 unreadable 102 103 204 0 0 0");
    // Seven calls reach the disk, two more the inner stop.
    let stopped = "done done done done done done done 20@2 20@4 20@0 21@8 20@65535";
    assert_eq!(lines[10], format!("  answers: {stopped}"));
    assert_eq!(lines[11], "  reads: 200 201 102 103 0 0 0 0");
    assert_eq!(lines[14], "  reads: 0 unreadable 102 20@3 20@4 20@5 20@6 20@7");
    let cut_text = cuts();
    let cut_lines: Vec<&str> = cut_text.lines().collect();
    assert_eq!(cut_lines.len(), 45);
    assert_eq!(cut_lines[0], "cut 0 -: 0 batches, c 0 0 0 0 0 0");
    assert_eq!(cut_lines[41], "cut 5 n: 1 batches, c 3 2 1 1 1 0");
    assert_eq!(cut_lines[42], "cut 5 u: 0 batches, c 0 0 0 0 0 0");
    assert_eq!(cut_lines[44], "cut 6 -: 1 batches, c 3 2 1 1 1 0");
}

#[test]
fn states_of_a_script() {
    let input = b"open\n\nbegin 1\nfly\nblank 201\nblank 1\npower -1\npower 0\nopen\nshow\nbegin\n\
        mvfs 0 0 0 0 0 0 0\nshow\ncommit\nblank 3\nopen\nclose\npower 4\ncut 7\nblank 3\nopen\nbegin\n\
        mvfs 0 0 0 0 0 0 0\ncommit\nshow\nshow 1\ncut n\nopen\nshow\n";
    let expected = "no 42 1\nno 41 3\nno 40 4\nno 41 5\nok\nno 41 7\nok\nno 10 1\n\
        c 0 0 0 0 0 0\nok\nok\nno 10 1\nno 42 13\nno 10 1\nok\nok 0\nok\nok\nok\nok\nok 0\nok\n\
        ok 0\nno 20 65535\nno 42 25\nno 41 26\nok\nok 0\nc 0 0 0 0 0 0\nok\n";
    assert_eq!(script(input), expected);
}

#[test]
fn a_batch_in_doubt() {
    // Three reads, a write, a flush and the closing record are passed on.
    let run = |letters: &str| {
        let input = format!(
            "blank 3\npower 6\nopen\nbegin\nmvfs 0 0 0 0 0 0 0\ncommit\ncut {letters}\nopen\n"
        );
        script(input.as_bytes()).lines().last().unwrap().to_string()
    };
    assert_eq!(run("sn"), "ok 1");
    assert_eq!(run("su"), "ok 0");
    assert_eq!(run("n"), "ok 0");
}

/// Numbers without order, from a seed.
struct Chance(u64);

impl Chance {
    fn below(&mut self, count: usize) -> usize {
        let factor = 6_364_136_223_846_793_005;
        self.0 = self.0.wrapping_mul(factor).wrapping_add(1_442_695_040_888_963_407);
        (self.0 >> 33) as usize % count
    }

    /// One of these, or now and then, or if there are none, any small number.
    fn one_of(&mut self, numbers: Vec<i64>) -> i64 {
        if numbers.is_empty() || self.below(20) == 0 {
            self.below(20) as i64 - 1
        } else {
            numbers[self.below(numbers.len())]
        }
    }

    /// A capital letter asks for a number that is unused, if one is left,
    /// a small one for a used one.
    fn field(&mut self, solid: &Solid, letter: char) -> i64 {
        let faces: Vec<i64> = solid.faces.keys().map(|face| face.0).collect();
        let loops: Vec<i64> = solid.loops.keys().map(|number| number.0).collect();
        let edges: Vec<i64> = solid.edges.keys().map(|edge| edge.0).collect();
        let vertices: Vec<i64> = solid.vertices.keys().map(|vertex| vertex.0).collect();
        let shells: Vec<i64> = solid.shells.iter().map(|shell| shell.0).collect();
        let halves: Vec<i64> = edges.iter().flat_map(|edge| [2 * edge, 2 * edge + 1]).collect();
        let unused = |used: Vec<i64>| (0..20).filter(|number| !used.contains(number)).collect();
        self.one_of(match letter {
            'F' => unused(faces),
            'L' => unused(loops),
            'E' => unused(edges),
            'V' => unused(vertices),
            'S' => unused(shells),
            'f' => faces,
            's' => shells,
            'v' => vertices,
            'p' => halves.into_iter().chain(loops.iter().map(|number| 512 + number)).collect(),
            _ => halves,
        })
    }

    fn edit(&mut self, solid: &Solid) -> Edit {
        let letters = ["SFLV", "s", "pEV", "h", "hhEFL", "h", "hL", "ppE", "ff", "v"];
        let kind = [0, 1, 2, 2, 2, 2, 3, 4, 4, 4, 4, 5, 6, 6, 7, 7, 8, 9][self.below(18)];
        let mut numbers: Vec<i64> = letters[kind].chars().map(|l| self.field(solid, l)).collect();
        if Operator::ALL[kind].has_coordinates() {
            numbers.extend([0, 256, -256]);
        }
        Edit::new(Operator::ALL[kind], &numbers).unwrap()
    }

    /// Edits by chance, of which each is made for the solid of those before
    /// it that are accepted; and how many of each operator are.
    fn edits(&mut self, count: usize, accepted: &mut [usize; 10]) -> Vec<Edit> {
        let mut solid = Solid::default();
        let mut edits = vec![];
        for _ in 0..count {
            let edit = self.edit(&solid);
            if crate::rules::apply(&mut solid, &edit).is_ok() {
                accepted[edit.operator as usize] += 1;
            }
            edits.push(edit);
        }
        edits
    }

    fn letters(&mut self) -> String {
        (0..100).map(|_| ['n', 'n', 's', 'u'][self.below(4)]).collect()
    }

    /// A command that is no edit, most often none. The power that it gives
    /// is gone soon after an open has read so many blocks.
    fn command(&mut self, blocks: usize) -> String {
        match self.below(40) {
            0 => "close\n".to_string(),
            1..=2 => format!("close\npower {}\nopen\nbegin\n", blocks + self.below(12)),
            3 => format!("cut {}\n", self.letters()),
            4..=6 => "commit\n".to_string(),
            7..=9 => "open\nbegin\n".to_string(),
            10..=12 => "begin\n".to_string(),
            13 => "abandon\nshow\n".to_string(),
            _ => String::new(),
        }
    }
}

/// The rules are asserted behind each edit.
#[test]
fn edits_by_chance() {
    let mut accepted = [0; 10];
    for seed in 0..60 {
        Chance(seed).edits(400, &mut accepted);
    }
    assert!(accepted.iter().all(|&count| count > 50), "{accepted:?}");
}

fn line(edit: &Edit) -> String {
    let coordinates = if edit.operator.has_coordinates() { &edit.coordinates[..] } else { &[] };
    let fields = &edit.fields[..edit.operator.field_count()];
    let numbers = fields.iter().chain(coordinates).map(|number| format!(" {number}"));
    edit.operator.name().to_string() + &numbers.collect::<String>() + "\n"
}

/// The ledger's replies are asserted while the scripts run.
#[test]
fn scripts_by_chance() {
    let mut power_gone = 0;
    for seed in 0..200 {
        let mut chance = Chance(seed);
        let blocks = 1 + chance.below(100);
        let mut input = format!("blank {blocks}\n");
        for edit in chance.edits(300, &mut [0; 10]) {
            input += &(chance.command(blocks) + &line(&edit));
        }
        let text = script(input.as_bytes());
        power_gone += text.lines().filter(|line| line.starts_with("no 20 ")).count();
    }
    assert!(power_gone > 50, "{power_gone}");
}
