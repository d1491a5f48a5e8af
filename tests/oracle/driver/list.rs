//! Makes the stored list of the Rust's answers:  list FILE
//!
//! Made anew it is the same, byte for byte. The maker fails unless every answer occurs ten times.
#![allow(dead_code)]

mod damage;
mod judge;
mod meshes;
mod random;
mod recorder;
mod rules;
mod scripts;
mod table;

use judge::{Judge, COLLAPSE, FLIP, SPLIT_EDGE, SPLIT_FACE};
use meshes::Mesh;
use random::Random;
use recorder::Recorder;
use table::*;

/// Which text of the Rust it is; tests/oracle/rust.sha256 holds it to that.
const RUST_COMMIT: &str = "6175820ed0";
const SEED: u64 = 8;
const RANDOM_MESHES: u64 = 300;
const HEAD_BYTES: usize = 1024;
const MOST_BYTES: usize = 1_500_000;

const HALF: u32 = 0x3f00_0000;
const POINT: [u32; 3] = [HALF, 0x4000_0000, 0xbf80_0000];
const INFINITY: u32 = 0x7f80_0000;
const MINUS_INFINITY: u32 = 0xff80_0000;
const NAN: u32 = 0x7fc0_0000;

fn main() {
    let file = std::env::args().nth(1).expect("list FILE");
    let mut list = Recorder::new();
    worked_examples(&mut list);
    bad_builds(&mut list);
    rooms_of_builds(&mut list);
    refused_commands(&mut list);
    lengths_of_runs(&mut list);
    damaged_tables(&mut list);
    tangled_tables(&mut list);
    random_meshes(&mut list);
    for (answer, &times) in list.answers.iter().enumerate() {
        assert!(times >= 10, "answer {answer} occurs only {times} times");
    }
    let mut bytes = head();
    bytes.extend(list.words.iter().flat_map(|word| word.to_le_bytes()));
    assert!(bytes.len() <= MOST_BYTES, "{} bytes are too many", bytes.len());
    std::fs::write(&file, &bytes).expect("the file can be written");
    println!("{} bytes; answers {:?}", bytes.len(), list.answers);
}

fn head() -> Vec<u8> {
    let text = format!("\
        Answers of the Rust library baby_shark (commit {RUST_COMMIT}) on small meshes, with document 01's refusals around them.\n\
        Made by tests/oracle/driver/list.rs with the command `tests/oracle/list FILE`, seed {SEED}, {RANDOM_MESHES} random meshes;\n\
        made anew it is the same. The Rust itself did every build, edit, ring and move, refused an index that is too large (2), and gave\n\
        both tests of a collapse (11, and the count of 13). R1 to R6 and all other refusals are document 01's. The worked examples came\n\
        out as document 01 prints them.\n\n\
        After these {HEAD_BYTES} bytes come little-endian words of 32 bits, in records: op, n, and n words. Ops: 1 rooms, 2 counts,\n\
        3 put, 4 build, 5 check, 6 run, 7 ring, 8 move, 9 slots; crates/vectors tells how each is replayed.\n");
    let mut bytes = text.into_bytes();
    assert!(bytes.is_ascii() && bytes.len() < HEAD_BYTES);
    bytes.resize(HEAD_BYTES - 1, b' ');
    bytes.push(b'\n');
    bytes
}

fn command(kind: u32, target: u32) -> judge::Command {
    [kind, target, POINT[0], POINT[1], POINT[2]]
}

// ---- everything that can be asked of a table

fn check_and_slots(list: &mut Recorder) {
    list.check();
    list.slots();
}

/// Every ring of every live vertex, with room to spare or just enough, and once a vertex with one too few; one ring of the others.
fn all_rings(list: &mut Recorder) {
    for vertex in 0..=list.table.used_vertices() as u32 {
        let turn = vertex as usize % 5;
        if !list.table.vertex_is_live(vertex) {
            list.ring(turn, vertex, 4);
            continue;
        }
        for kind in 0..5 {
            let mut wide = vec![0; list.table.used_corners() + 2];
            let needed = Judge::of(list.table.clone()).ring(kind, vertex, &mut wide).written as usize;
            list.ring(kind, vertex, needed + (turn + kind) % 3);
            if kind == turn {
                assert_eq!(list.ring(kind, vertex, needed - 1).answer, 16);
            }
        }
    }
}

fn all_moves(list: &mut Recorder) {
    for corner in 0..=list.table.used_corners() as u32 {
        (0..5).for_each(|kind| { list.walk(kind, corner); });
    }
}

/// One ring around each vertex and one move from each corner, the kinds in turn.
fn some_rings_and_moves(list: &mut Recorder) {
    for vertex in 0..list.table.used_vertices() as u32 {
        list.ring(vertex as usize % 5, vertex, list.table.used_corners() + 2);
    }
    for corner in 0..list.table.used_corners() as u32 {
        list.walk(corner as usize % 5, corner);
    }
}

// ---- worked examples

/// What document 01 prints for an example: corners, pairs, and the vertices' corners where it names them.
struct Printed<'a> {
    corners: &'a [u32],
    pairs: &'a [(u32, u32)],
    vertex_corners: &'a [u32],
}

fn expect(table: &Table, printed: Printed) {
    assert_eq!(table.corners as usize, printed.corners.len());
    assert_eq!(&table.parts[CORNER_VERTEX][..printed.corners.len()], printed.corners);
    let mut opposites = vec![ABSENT; printed.corners.len()];
    for &(one, other) in printed.pairs {
        opposites[one as usize] = other;
        opposites[other as usize] = one;
    }
    assert_eq!(&table.parts[CORNER_OPPOSITE][..opposites.len()], opposites);
    assert_eq!(&table.parts[VERTEX_CORNER][..printed.vertex_corners.len()], printed.vertex_corners);
}

fn built(list: &mut Recorder, mesh: Mesh, vertices: usize, corners: usize) {
    list.room(vertices, corners);
    assert_eq!(list.build(&mesh).answer, 0);
}

/// The slots, the rings and the moves of an example.
fn example(list: &mut Recorder, printed: Printed) {
    expect(&list.table, printed);
    assert_eq!(list.check().answer, 0);
    list.slots();
    all_rings(list);
    all_moves(list);
}

fn worked_examples(list: &mut Recorder) {
    example_meshes(list);
    example_edits(list);
    example_collapse(list);
    example_rooms(list);
}

fn example_meshes(list: &mut Recorder) {
    built(list, meshes::a(), 4, 9);
    example(list, Printed { corners: &[0, 1, 2], pairs: &[], vertex_corners: &[0, 1, 2] });
    built(list, meshes::b(), 6, 12);
    example(list, Printed { corners: &[0, 1, 2, 0, 2, 3], pairs: &[(1, 5)], vertex_corners: &[3, 1, 4, 5] });
    built(list, meshes::two_fans(), 7, 9);
    example(list, Printed { corners: &[5, 1, 2, 0, 3, 4], pairs: &[], vertex_corners: &[3] });
    assert_eq!(list.table.vertices, 6);
    list.room(4, 6);
    assert_eq!(list.build(&meshes::skipped()).skipped, 1);
    example(list, Printed { corners: &[0, 1, 2], pairs: &[], vertex_corners: &[0, 1, 2] });
    assert_eq!(list.table.parts[VERTEX_MARK], [0, 0, 0, 1]);
    built(list, meshes::empty(), 2, 3);
    example(list, Printed { corners: &[], pairs: &[], vertex_corners: &[] });
}

fn example_edits(list: &mut Recorder) {
    built(list, meshes::b(), 6, 12);
    assert_eq!(list.run(&[command(FLIP, 0), command(COLLAPSE, 1), command(FLIP, 1)]), [11, 11, 0]);
    example(list, Printed { corners: &[1, 2, 3, 1, 3, 0], pairs: &[(1, 5)], vertex_corners: &[5, 0, 1, 2] });
    built(list, meshes::a(), 4, 9);
    assert_eq!(list.run(&[command(SPLIT_FACE, 0)]), [0]);
    example(list, Printed {
        corners: &[0, 1, 3, 1, 2, 3, 2, 0, 3],
        pairs: &[(0, 4), (3, 7), (1, 6)],
        vertex_corners: &[0, 1, 4, 2],
    });
    built(list, meshes::a(), 4, 9);
    let old_place = list.table.point(1);
    assert_eq!(list.run(&[command(SPLIT_EDGE, 0)]), [0]);
    example(list, Printed { corners: &[0, 1, 2, 0, 3, 1], pairs: &[(2, 4)], vertex_corners: &[] });
    assert_eq!((list.table.point(1), list.table.point(3)), (POINT, old_place));
    built(list, meshes::b(), 6, 12);
    assert_eq!(list.run(&[command(SPLIT_EDGE, 1)]), [0]);
    example(list, Printed {
        corners: &[0, 1, 2, 0, 2, 3, 1, 4, 2, 4, 3, 2],
        pairs: &[(1, 5), (0, 7), (3, 9), (6, 10)],
        vertex_corners: &[3, 1, 2, 5, 7],
    });
}

fn example_collapse(list: &mut Recorder) {
    built(list, meshes::t(), 5, 15);
    example(list, Printed {
        corners: &[0, 1, 2, 0, 2, 3, 0, 3, 1, 1, 3, 2],
        pairs: &[(0, 10), (1, 5), (2, 7), (3, 9), (4, 8), (6, 11)],
        vertex_corners: &[],
    });
    assert_eq!(list.run(&[command(COLLAPSE, 0), command(COLLAPSE, 3)]), [0, 12]);
    list.check();
    list.slots();
    let t = &list.table;
    assert_eq!(t.parts[CORNER_MARK][..12], [1, 1, 1, 0, 0, 0, 0, 0, 0, 1, 1, 1]);
    assert_eq!(t.parts[VERTEX_MARK][..4], [0, 0, 1, 0]);
    assert_eq!((t.vertex(2), t.vertex(11)), (1, 1));
    assert_eq!(t.parts[CORNER_VERTEX][3..9], [0, 1, 3, 0, 3, 1]);
    assert_eq!(t.parts[CORNER_OPPOSITE][3..9], [6, 8, 7, 3, 5, 4]);
    assert_eq!((t.corner(0), t.corner(1), t.corner(3)), (6, 8, 5));
    all_rings(list);
    all_moves(list);
}

/// A with room for 3 vertices; with 4 vertices and 8 corners; with 9.
fn example_rooms(list: &mut Recorder) {
    for (vertices, corners, answer) in [(3, 9, 5), (3, 8, 5), (4, 8, 6), (4, 9, 0)] {
        built(list, meshes::a(), vertices, corners);
        assert_eq!(list.run(&[command(SPLIT_FACE, 0)]), [answer]);
        check_and_slots(list);
    }
}

// ---- builds with bad input

fn bad_builds(list: &mut Recorder) {
    bad_lengths(list);
    bad_indices(list);
    bad_numbers(list);
    orders_of_refusals(list);
}

fn tried(list: &mut Recorder, mesh: &Mesh, answer: u32) {
    list.room(5, 9);
    list.counts(7, 8);
    assert_eq!(list.build(mesh).answer, answer);
    list.slots();
}

fn bad_lengths(list: &mut Recorder) {
    for length in [1, 2, 4, 5, 7, 8, 10, 11] {
        let mut mesh = meshes::b();
        mesh.points.truncate(length);
        tried(list, &mesh, 1);
    }
    for left in [1, 2] {
        let mut mesh = meshes::b();
        mesh.faces.extend(vec![99; left]);
        tried(list, &mesh, 0);
        mesh.faces.truncate(left);
        tried(list, &mesh, 0);
    }
}

fn bad_indices(list: &mut Recorder) {
    for place in 0..6 {
        for index in [4, 5, 65_536, u32::MAX - 1, u32::MAX] {
            let mut mesh = meshes::b();
            mesh.faces[place] = index;
            tried(list, &mesh, 2);
        }
        for other in [1, 2] {
            let mut mesh = meshes::b();
            let face = place - place % 3;
            mesh.faces[place] = mesh.faces[face + (place + other) % 3];
            tried(list, &mesh, 3);
        }
    }
}

fn bad_numbers(list: &mut Recorder) {
    for place in 0..9 {
        for bits in [NAN, INFINITY, MINUS_INFINITY] {
            let mut mesh = meshes::a();
            mesh.points[place] = bits;
            tried(list, &mesh, 4);
        }
    }
    for bits in [0x7f7f_ffff, 0xff7f_ffff, 0x8000_0000, 1, 0x8000_0001, 0x0080_0000] {
        let mut mesh = meshes::a();
        mesh.points[4] = bits;
        tried(list, &mesh, 0);
    }
}

/// Where two refusals could be given, document 01's order decides.
fn orders_of_refusals(list: &mut Recorder) {
    let with = |points: u32, faces: &[[u32; 3]]| Mesh::plain(points, faces);
    tried(list, &with(6, &[[9, 9, 9]]), 5);
    tried(list, &with(4, &[[9, 9, 9]]), 2); // 2 before 3
    tried(list, &with(4, &[[0, 0, 4]]), 2);
    tried(list, &with(4, &[[0, 0, 1], [0, 1, 9]]), 3); // the first face first
    tried(list, &with(4, &[[0, 1, 2], [0, 1, 2], [0, 2, 3], [0, 3, 1], [0, 1, 2]]), 0); // a skipped face needs no room
    tried(list, &with(4, &[[0, 1, 2], [0, 2, 3], [0, 3, 1], [1, 3, 2], [0, 0, 0]]), 6);
    tried(list, &with(4, &[[0, 1, 2], [0, 2, 3], [0, 3, 1], [0, 0, 0]]), 3);
    tried(list, &with(5, &[[0, 1, 2], [0, 3, 4]]), 5); // a duplicate of vertex 0
    let mut mesh = with(6, &[]);
    mesh.points[0] = NAN;
    tried(list, &mesh, 5); // 5 before 4
    mesh.points.pop();
    tried(list, &mesh, 1); // 1 before 5
    let mut mesh = with(4, &[[9, 9, 9]]);
    mesh.points[11] = NAN;
    tried(list, &mesh, 4); // 4 before the faces
}

// ---- rooms

fn in_rooms(list: &mut Recorder, mesh: &Mesh, lengths: [usize; 6], answer: u32) {
    list.lengths(lengths);
    list.counts(3, 3);
    assert_eq!(list.build(mesh).answer, answer);
    list.slots();
}

fn rooms_of_builds(list: &mut Recorder) {
    let (a, t, empty) = (meshes::a(), meshes::t(), meshes::empty());
    for (vertices, corners, answer) in [(0, 0, 5), (1, 1, 5), (2, 3, 5), (3, 0, 6), (3, 1, 6), (3, 2, 6), (3, 3, 0), (4, 4, 0)] {
        in_rooms(list, &a, lengths(vertices, corners), answer);
    }
    for (vertices, corners, answer) in [(3, 12, 5), (4, 11, 6), (4, 12, 0), (4, 9, 6), (5, 14, 0)] {
        in_rooms(list, &t, lengths(vertices, corners), answer);
    }
    for (vertices, corners) in [(0, 0), (1, 0), (0, 1), (1, 1)] {
        in_rooms(list, &empty, lengths(vertices, corners), 0);
    }
    for (vertices, corners, answer) in [(5, 6, 5), (6, 6, 0), (6, 5, 6)] {
        in_rooms(list, &meshes::two_fans(), lengths(vertices, corners), answer);
    }
    largest_rooms(list);
    uneven_rooms(list);
}

fn largest_rooms(list: &mut Recorder) {
    let (vertices, corners) = (MOST_VERTICES, MOST_CORNERS);
    in_rooms(list, &meshes::t(), lengths(vertices, corners), 0);
    list.check();
    assert_eq!(list.run(&[command(SPLIT_FACE, 3), command(COLLAPSE, 0)])[0], 0);
    list.slots();
    let above = [(vertices + 1, corners), (vertices, corners + 1), (vertices, corners + 3), (vertices + 1, 0), (0, corners + 1)];
    for (vertices, corners) in above {
        in_rooms(list, &meshes::a(), lengths(vertices, corners), 1);
        list.check();
        list.run(&[command(FLIP, 0)]);
        list.ring(0, 0, 3);
        list.walk(0, 0);
        list.slots();
    }
}

/// Each of the six parts one too long or one too short, for every entry point.
fn uneven_rooms(list: &mut Recorder) {
    for part in 0..6 {
        for longer in [true, false] {
            let mut uneven = lengths(4, 9);
            uneven[part] = if longer { uneven[part] + 1 } else { uneven[part] - 1 };
            in_rooms(list, &meshes::a(), uneven, 1);
            list.check();
            list.run_with_room(&[1, 2, 3], 0); // 1 before 8
            for kind in 0..5 {
                list.ring(kind, 0, 3);
                list.walk(kind, 0);
            }
            list.slots();
        }
    }
}

// ---- commands

/// Runs one command, which must give this answer; then the slots.
fn refused(list: &mut Recorder, tried: judge::Command, answer: u32) {
    assert_eq!(list.run(&[tried]), [answer], "{tried:?}");
    list.slots();
}

fn refused_commands(list: &mut Recorder) {
    let targets = |count: u32| [count, count + 1, count + 3, 0x5555_5555, u32::MAX - 1, u32::MAX];
    let nan = |kind, target, place: usize, bits| {
        let mut tried = command(kind, target);
        tried[2 + place] = bits;
        tried
    };
    built(list, meshes::t(), 5, 18);
    for kind in [COLLAPSE, FLIP, SPLIT_EDGE] {
        targets(12).into_iter().for_each(|target| refused(list, nan(kind, target, 1, NAN), 9));
    }
    targets(4).into_iter().for_each(|target| refused(list, nan(SPLIT_FACE, target, 1, NAN), 9));
    for kind in [0, 5, 6, 256, 0x1_0001, u32::MAX] {
        refused(list, command(kind, 0), 14);
        refused(list, nan(kind, u32::MAX, 0, NAN), 14);
    }
    for kind in [COLLAPSE, SPLIT_EDGE, SPLIT_FACE] {
        for place in 0..3 {
            [NAN, INFINITY, MINUS_INFINITY].into_iter().for_each(|bits| refused(list, nan(kind, 3, place, bits), 4));
        }
    }
    refused(list, command(COLLAPSE, 0), 0);
    for corner in [0, 1, 2, 9, 10, 11] {
        for kind in [COLLAPSE, FLIP, SPLIT_EDGE] {
            refused(list, nan(kind, corner, 2, INFINITY), 10);
        }
    }
    [0, 3].into_iter().for_each(|face| refused(list, nan(SPLIT_FACE, face, 2, INFINITY), 10));
    for corner in 3..9 {
        refused(list, command(COLLAPSE, corner), 12);
        refused(list, nan(COLLAPSE, corner, 0, NAN), 4); // 4 before 12
    }
    borders(list);
    same_vertex(list);
    unsafe_collapses(list);
    tight_splits(list);
}

fn borders(list: &mut Recorder) {
    built(list, meshes::b(), 6, 18);
    for corner in 0..6 {
        refused(list, command(COLLAPSE, corner), 11);
        if ![1, 5].contains(&corner) {
            refused(list, command(FLIP, corner), 11);
        }
    }
    // An inner edge with one end at the border, either way round, and with both; then a flip that reads no point.
    built(list, meshes::a(), 8, 30);
    refused(list, command(SPLIT_FACE, 0), 0);
    for corner in [0, 1, 3, 4, 6, 7] {
        refused(list, command(COLLAPSE, corner), 11);
    }
    refused(list, [FLIP, 0, NAN, INFINITY, MINUS_INFINITY], 0);
}

/// Pillows: both faces of an edge have the same third vertex.
fn same_vertex(list: &mut Recorder) {
    built(list, Mesh::plain(3, &[[0, 1, 2], [0, 2, 1]]), 6, 24);
    for corner in 0..6 {
        refused(list, command(FLIP, corner), 12);
        refused(list, command(COLLAPSE, corner), 12);
    }
    // The moved vertex has only the two faces of the edge: the second read must see the first write.
    refused(list, command(SPLIT_EDGE, 0), 0);
    all_rings(list);
    refused(list, command(SPLIT_EDGE, 4), 0);
    check_and_slots(list);
}

fn unsafe_collapses(list: &mut Recorder) {
    // A double pyramid over a triangle: the ends of an edge of the middle have three neighbours in common.
    let sides = [[0, 2, 3], [1, 3, 2], [0, 3, 4], [1, 4, 3], [0, 4, 2], [1, 2, 4]];
    built(list, Mesh::plain(5, &sides), 8, 30);
    for corner in [0, 3, 6, 9, 12, 15] {
        refused(list, command(COLLAPSE, corner), 13);
    }
    third_face_alone(list);
}

/// Tables where the Rust's count alone would call a collapse safe, and a third face holds both ends: found by trying.
fn third_face_alone(list: &mut Recorder) {
    let mut found = 0;
    for case in 0..4000 {
        let mut random = Random::of_case(SEED + 1, case);
        let mesh = meshes::any_mesh(&mut random, 2);
        let Some((script, tried)) = third_face_in(&mut random, &mesh) else { continue };
        built(list, mesh, 24, 90);
        list.run(&script);
        refused(list, tried, 13);
        all_rings(list);
        found += 1;
        if found == 6 {
            return;
        }
    }
    panic!("no third face found");
}

fn third_face_in(random: &mut Random, mesh: &Mesh) -> Option<(Vec<judge::Command>, judge::Command)> {
    let mut table = Table::with_room(24, 90, recorder::FILLS);
    if mesh.faces.len() > 30 || judge::build(&mut table, &mesh.points, &mesh.faces).answer != 0 {
        return None;
    }
    let mut judge = Judge::of(table);
    let mut script = Vec::new();
    for _ in 0..6 {
        let unsafe_corner = (0..judge.table.corners).find(|&corner| judge.only_third_face(command(COLLAPSE, corner)));
        if let Some(corner) = unsafe_corner {
            return Some((script, command(COLLAPSE, corner)));
        }
        let tried = scripts::any_command(random, &judge, [1, 6, 1, 1]);
        judge.step(tried);
        script.push(tried);
    }
    None
}

/// One slot of room after the other.
fn tight_splits(list: &mut Recorder) {
    for (vertices, corners) in [(4, 6), (4, 12), (5, 6), (5, 8), (5, 9), (5, 11), (5, 12), (6, 12), (6, 15)] {
        for tried in [command(SPLIT_EDGE, 0), command(SPLIT_EDGE, 1), command(SPLIT_FACE, 1)] {
            built(list, meshes::b(), vertices, corners);
            let mut not_finite = tried;
            not_finite[4] = NAN;
            assert_eq!(list.run(&[not_finite, tried, tried])[0], 4); // 4 before 5 and 6
            list.slots();
        }
    }
}

/// A script that is not in fives, too few answers, and the order 8, 7.
fn lengths_of_runs(list: &mut Recorder) {
    built(list, meshes::b(), 6, 18);
    let script = [command(FLIP, 1), command(SPLIT_FACE, 0)].concat();
    for length in [1, 2, 3, 4, 6, 7, 8, 9] {
        assert_eq!(list.run_with_room(&script[..length], 4).0.answer, 8);
    }
    for room in [0, 1] {
        assert_eq!(list.run_with_room(&script, room).0.answer, 8);
    }
    list.slots();
    list.put(CORNER_MARK, 1, 2);
    assert_eq!(list.run_with_room(&script, 1).0.answer, 8); // 8 before 7
    assert_eq!(list.run_with_room(&[], 3).0.answer, 7);
    list.put(CORNER_MARK, 1, 0);
    assert_eq!(list.run_with_room(&[], 0).0.answer, 0);
    assert_eq!(list.run_with_room(&script, 5).1[..2], [0, 0]);
    list.slots();
}

// ---- damaged tables

/// A damage: slots with what is put there, or the two counts.
type Puts = Vec<(usize, usize, u32)>;

fn damaged_tables(list: &mut Recorder) {
    for (mesh, vertices, corners) in [(meshes::a(), 5, 8), (meshes::b(), 5, 9), (meshes::t(), 6, 15)] {
        built(list, mesh, vertices, corners);
        damaged_counts(list);
        for (rule, damages) in [(2, marks(&list.table)), (3, wrong_vertices(&list.table)), (4, wrong_opposites(&list.table)),
            (5, wrong_fans(&list.table)), (6, wrong_numbers(&list.table))] {
            damages.iter().for_each(|puts| damaged(list, puts, rule));
        }
        list.slots();
    }
    two_damages(list);
    damaged_after_a_collapse(list);
}

/// Damages, asks, and mends.
fn damaged(list: &mut Recorder, puts: &Puts, rule: u32) {
    let before: Puts = puts.iter().map(|&(part, slot, _)| (part, slot, list.table.parts[part][slot])).collect();
    puts.iter().for_each(|&(part, slot, value)| list.put(part, slot, value));
    let checked = list.check();
    assert_eq!((checked.answer, checked.rule), (7, rule), "{puts:?} on {:?}", list.table);
    assert_eq!(list.run_with_room(&command(SPLIT_FACE, 0), 2).0.answer, 7);
    list.slots();
    if [2, 4, 5].contains(&rule) {
        some_rings_and_moves(list); // walks read no vertex and no point
    }
    before.iter().for_each(|&(part, slot, value)| list.put(part, slot, value));
}

fn damaged_counts(list: &mut Recorder) {
    let Table { vertices, corners, .. } = list.table;
    let (vertex_room, corner_room) = (list.table.vertex_room() as u32, list.table.corner_room() as u32);
    let wrong = [(vertex_room + 1, corners), (u32::MAX, corners), (vertices, corner_room + 1), (vertices, u32::MAX),
        (vertices, corners - 1), (vertices, corners - 2), (vertices, corners + 1), (vertices, 1), (u32::MAX, u32::MAX)];
    for (v, c) in wrong {
        list.counts(v, c);
        assert_eq!(list.check(), Checked { answer: 7, rule: 1, slot: 0 });
        assert_eq!(list.run_with_room(&command(FLIP, 1), 1).0.answer, 7);
        list.slots();
        some_rings_and_moves(list);
    }
    list.counts(vertices, corners);
}

/// R2: a corner's mark not 0 or 1; one or two of a face's three marks; a vertex's mark not 0 or 1.
fn marks(t: &Table) -> Vec<Puts> {
    let mut all = Vec::new();
    for c in 0..t.corners as usize {
        let (one, other) = (c, if c % 3 == 2 { c - 2 } else { c + 1 });
        all.extend([2, 256, u32::MAX].map(|mark| vec![(CORNER_MARK, one, mark)]));
        all.push(vec![(CORNER_MARK, one, 1)]);
        all.push(vec![(CORNER_MARK, one, 1), (CORNER_MARK, other, 1)]);
    }
    for v in 0..t.vertices as usize {
        all.extend([2, 0x8000_0000, u32::MAX].map(|mark| vec![(VERTEX_MARK, v, mark)]));
    }
    all
}

/// R3: a corner's vertex not used, or deleted; a vertex twice in a face.
fn wrong_vertices(t: &Table) -> Vec<Puts> {
    let mut all = Vec::new();
    for c in 0..t.corners as usize {
        all.extend([t.vertices, t.vertex_room() as u32, u32::MAX].map(|vertex| vec![(CORNER_VERTEX, c, vertex)]));
        let other = if c % 3 == 2 { c - 2 } else { c + 1 };
        all.push(vec![(CORNER_VERTEX, c, t.vertex(other as u32))]);
    }
    all.extend((0..t.vertices as usize).map(|v| vec![(VERTEX_MARK, v, 1)]));
    all
}

/// R4: an opposite that is not used, not live, the corner itself, one-sided, or with the edge the wrong way.
fn wrong_opposites(t: &Table) -> Vec<Puts> {
    let mut all = Vec::new();
    let put = |c: u32, o: u32| (CORNER_OPPOSITE, c as usize, o);
    for c in 0..t.corners {
        all.extend([t.corners, u32::MAX - 1, t.corner_room() as u32, c, next(c)].map(|opposite| vec![put(c, opposite)]));
        all.push(vec![put(c, previous(c)), put(previous(c), c)]); // both ways, but the edges do not run against each other
        if t.opposite(c) != ABSENT {
            all.push(vec![put(c, ABSENT)]); // one side alone is left
            let face = t.opposite(c) - t.opposite(c) % 3;
            all.push((face..face + 3).map(|gone| (CORNER_MARK, gone as usize, 1)).collect()); // a deleted face across
        }
    }
    all
}

/// R5: a vertex's corner absent, not used, another vertex's; pairs taken apart, so that a vertex has two fans.
fn wrong_fans(t: &Table) -> Vec<Puts> {
    let mut all = Vec::new();
    for v in 0..t.vertices as usize {
        let other = next(t.corner(v as u32));
        all.extend([ABSENT, t.corners, u32::MAX - 1, other].map(|corner| vec![(VERTEX_CORNER, v, corner)]));
    }
    for c in 0..t.corners {
        let o = t.opposite(c);
        if o != ABSENT && c < o {
            let around = |d: u32| [(CORNER_OPPOSITE, d as usize, ABSENT), (CORNER_OPPOSITE, t.opposite(d) as usize, ABSENT)];
            let mut puts: Puts = around(c).into();
            if t.opposite(next(c)) != ABSENT {
                puts.extend(around(next(c)));
            }
            all.push(puts);
        }
    }
    if all.len() == 4 * t.vertices as usize {
        // One face: a second vertex slot whose corner belongs to the first.
        all.push(vec![(VERTEX_CORNER, 2, 0)]);
    }
    all
}

/// R6: each number of each vertex.
fn wrong_numbers(t: &Table) -> Vec<Puts> {
    let places = 0..3 * t.vertices as usize;
    places.flat_map(|place| [NAN, INFINITY, MINUS_INFINITY].map(|bits| vec![(VERTEX_POINT, place, bits)])).collect()
}

/// Two damages at once: the lower rule is named, and of one rule the lower slot, in document 01's order within a rule.
fn two_damages(list: &mut Recorder) {
    built(list, meshes::t(), 6, 15);
    let expectations: [(&[(usize, usize, u32)], (u32, u32)); 13] = [
        (&[(CORNER_MARK, 7, 2), (CORNER_MARK, 4, 3)], (2, 4)),
        (&[(CORNER_MARK, 1, 1), (CORNER_MARK, 10, 2)], (2, 10)), // corner marks, then faces
        (&[(CORNER_MARK, 10, 1), (VERTEX_MARK, 0, 2)], (2, 9)), // faces, then vertices
        (&[(CORNER_MARK, 10, 1), (CORNER_MARK, 5, 1)], (2, 3)),
        (&[(VERTEX_MARK, 3, 2), (CORNER_VERTEX, 0, 9)], (2, 3)),
        (&[(CORNER_VERTEX, 1, 0), (CORNER_VERTEX, 10, 9)], (3, 10)), // wrong vertices, then faces
        (&[(CORNER_VERTEX, 1, 0), (CORNER_OPPOSITE, 0, 3)], (3, 0)),
        (&[(CORNER_OPPOSITE, 7, 7), (CORNER_OPPOSITE, 6, 6)], (4, 2)),
        (&[(CORNER_OPPOSITE, 0, 5), (VERTEX_CORNER, 0, 1)], (4, 0)),
        (&[(VERTEX_CORNER, 3, 0), (VERTEX_CORNER, 1, 0)], (5, 1)),
        (&[(VERTEX_CORNER, 3, 0), (VERTEX_POINT, 0, NAN)], (5, 3)),
        (&[(VERTEX_POINT, 8, NAN), (VERTEX_POINT, 3, INFINITY)], (6, 1)),
        (&[(VERTEX_POINT, 11, NAN), (CORNER_MARK, 11, 9)], (2, 11)),
    ];
    for (puts, (rule, slot)) in expectations {
        damaged(list, &puts.to_vec(), rule);
        let mut table = list.table.clone();
        puts.iter().for_each(|&(part, index, value)| table.parts[part][index] = value);
        assert_eq!(rules::check(&table), Checked { answer: 7, rule, slot });
    }
}

/// T after collapse 0 has deleted faces and a deleted vertex: nothing live may name them, and they may hold anything.
fn damaged_after_a_collapse(list: &mut Recorder) {
    built(list, meshes::t(), 6, 15);
    assert_eq!(list.run(&[command(COLLAPSE, 0)]), [0]);
    for gone in [0, 1, 2, 9, 10, 11] {
        for v in [0, 1, 3] {
            damaged(list, &vec![(VERTEX_CORNER, v, gone)], 5);
        }
        damaged(list, &vec![(CORNER_OPPOSITE, 5, gone)], 4);
    }
    for c in 3..9 {
        damaged(list, &vec![(CORNER_VERTEX, c, 2)], 3);
    }
    for c in [0, 10] {
        damaged(list, &vec![(CORNER_MARK, c, 0)], 2);
        damaged(list, &vec![(CORNER_MARK, c, 2)], 2);
    }
    damaged(list, &vec![(VERTEX_MARK, 2, 2)], 2);
    damaged(list, &vec![(VERTEX_MARK, 2, 0)], 5); // live again, its corner is deleted
    list.put(CORNER_VERTEX, 0, u32::MAX);
    list.put(CORNER_OPPOSITE, 11, 77);
    list.put(VERTEX_CORNER, 2, 78);
    list.put(VERTEX_POINT, 7, NAN);
    assert_eq!(list.check().answer, 0);
    list.run(&[command(SPLIT_FACE, 1), command(SPLIT_EDGE, 3), command(FLIP, 3), command(COLLAPSE, 0)]);
    check_and_slots(list);
}

// ---- tangled tables

/// Rings and moves that lead to corners that are not live, or for ever in a circle.
fn tangled_tables(list: &mut Recorder) {
    for case in 0..60 {
        let mut random = Random::of_case(SEED + 2, case);
        let mesh = if case % 3 == 0 { meshes::b() } else { meshes::t() };
        list.room(mesh.points_count() + 1, mesh.faces.len() + 4);
        list.build(&mesh);
        let mut table = list.table.clone();
        damage::damage(&mut random, &mut table);
        put_all(list, &table);
        list.check();
        some_rings_and_moves(list);
        list.slots();
    }
}

/// Makes the current table this one, slot by slot where they differ.
fn put_all(list: &mut Recorder, table: &Table) {
    for part in 0..6 {
        for slot in 0..table.parts[part].len() {
            let value = table.parts[part][slot];
            if list.table.parts[part][slot] != value {
                list.put(part, slot, value);
            }
        }
    }
    list.counts(table.vertices, table.corners);
}

// ---- random meshes

fn random_meshes(list: &mut Recorder) {
    for case in 0..RANDOM_MESHES {
        let mut random = Random::of_case(SEED, case);
        let mut mesh = small_mesh(&mut random);
        meshes::spoil_input(&mut random, &mut mesh, 10);
        let slack = random.below(9);
        list.room(mesh.points_count() + slack, mesh.faces.len() + 4 * slack);
        if list.build(&mesh).answer == 0 {
            scripted(list, &mut random);
        }
        list.slots();
    }
}

fn small_mesh(random: &mut Random) -> Mesh {
    loop {
        let mesh = meshes::any_mesh(random, 3);
        if mesh.faces.len() <= 48 && mesh.points_count() <= 11 {
            return mesh;
        }
    }
}

fn scripted(list: &mut Recorder, random: &mut Random) {
    let mut judge = Judge::of(list.table.clone());
    let mood = scripts::any_mood(random);
    let mut script = Vec::new();
    for _ in 0..random.within(4, 30) {
        let tried = scripts::any_command(random, &judge, mood);
        judge.step(tried);
        script.push(tried);
    }
    list.run(&script);
    list.check();
    all_rings(list);
    for _ in 0..8 {
        let corner = random.below(list.table.corners as usize + 1) as u32;
        list.walk(random.below(5), corner);
    }
}
