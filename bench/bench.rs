//! This library and the Rust, side by side: the same patch, the same commands, one run, turn about. Prints, for each row, the median time
//! of each and the median of the ratios, taken pair by pair. From a run of edits the time of the check that it begins with is taken off, as
//! it was just before on the same table: the check is many times theirs, and the machine's speed changes from turn to turn.

#[path = "../tests/oracle/driver/library.rs"]
#[allow(dead_code)]
mod library;
#[path = "../tests/oracle/driver/table.rs"]
#[allow(dead_code)]
mod table;

use baby_shark::algo::edge_collapse::{is_topologically_safe, will_collapse_affect_boundary};
use baby_shark::helpers::aliases::Vec3;
use baby_shark::io::{Builder, IndexedBuilder};
use baby_shark::mesh::corner_table::CornerTable;
use baby_shark::Probe;
use library::{Lent, Memory};
use std::hint::black_box;
use std::time::Instant;
use table::{Table, BLANK};

type Rust = CornerTable<f32>;

const COMMANDS: usize = 1_000;
const KINDS: [(u32, &str); 4] = [(2, "flip edge"), (3, "split edge"), (4, "split face"), (1, "collapse edge, with its tests")];

/// A floor of `side` by `side` points.
struct Floor {
    points: Vec<u32>,
    faces: Vec<u32>,
    vertices: usize,
    corners: usize,
}

impl Floor {
    fn new(side: usize) -> Floor {
        let at = |x: usize, y: usize| (y * side + x) as u32;
        let mut points = Vec::new();
        let mut faces = Vec::new();
        for y in 0..side {
            for x in 0..side {
                points.extend([x as f32, y as f32, ((x * y) % 7) as f32 * 0.01].map(f32::to_bits));
                if x + 1 < side && y + 1 < side {
                    let [a, b, c, d] = [at(x, y), at(x + 1, y), at(x, y + 1), at(x + 1, y + 1)];
                    faces.extend([a, b, d, a, d, c]);
                }
            }
        }
        let (vertices, corners) = (points.len() / 3, faces.len());
        Floor { points, faces, vertices, corners }
    }

    /// The table that the Rust builds, with room for a thousand splits.
    fn table(&self) -> Table {
        let rust = self.rust();
        let mut table = Table::with_room(self.vertices + COMMANDS, self.corners + 6 * COMMANDS, BLANK);
        for c in 0..Probe::corner_count(&rust) {
            let (vertex, opposite, deleted) = Probe::corner_slot(&rust, c);
            [table.parts[0][c], table.parts[1][c], table.parts[2][c]] = [vertex, opposite, deleted as u32];
        }
        for v in 0..Probe::vertex_count(&rust) {
            let (corner, point, deleted) = Probe::vertex_slot(&rust, v);
            [table.parts[3][v], table.parts[4][v]] = [corner, deleted as u32];
            for k in 0..3 {
                table.parts[5][3 * v + k] = point[k].to_bits();
            }
        }
        (table.vertices, table.corners) = (self.vertices as u32, self.corners as u32);
        table
    }

    fn rust(&self) -> Rust {
        let mut builder = Rust::builder_indexed();
        for point in self.points.chunks_exact(3) {
            builder.add_vertex([0, 1, 2].map(|k| f32::from_bits(point[k]))).expect("a point");
        }
        for face in self.faces.chunks_exact(3) {
            builder.add_face(face[0] as usize, face[1] as usize, face[2] as usize).expect("a face");
        }
        builder.finish().expect("a table")
    }

    /// The same with room, so that no push has to move the table.
    fn roomy_rust(&self) -> Rust {
        let mut rust = self.rust();
        Probe::reserve(&mut rust, COMMANDS, 6 * COMMANDS);
        rust
    }
}

// ---- scripts

/// A small generator (xorshift), so that every run has the same commands.
struct Random(u64);

impl Random {
    fn below(&mut self, n: u32) -> u32 {
        self.0 ^= self.0 << 13;
        self.0 ^= self.0 >> 7;
        self.0 ^= self.0 << 17;
        (self.0 % n as u64) as u32
    }
}

/// Commands that are all accepted, one after the other: each is tried first. `kinds` in turn.
fn accepted(table: &Table, kinds: &[u32]) -> Vec<u32> {
    // collapses delete: of a small patch a quarter, so that it stays a floor and does not become a few crowded vertices
    let most = if kinds == [1] { COMMANDS.min(table.vertices as usize / 4) } else { COMMANDS };
    let mut lent = Lent::of(table);
    let mut random = Random(0x9e37_79b9_7f4a_7c15);
    let mut script = Vec::new();
    let mut answers = Memory::of(&[0]);
    for turn in 0..20 * COMMANDS {
        if script.len() == 5 * most {
            break;
        }
        let kind = kinds[turn % kinds.len()];
        let target = random.below(if kind == 4 { lent.corners / 3 } else { lent.corners });
        let mut command = Memory::of(&[kind, target, 1.5f32.to_bits(), 2.5f32.to_bits(), 0.5f32.to_bits()]);
        lent.run(&mut command, &mut answers);
        if answers.words()[0] == 0 {
            script.extend_from_slice(command.words());
        }
    }
    script
}

/// The Rust on the same commands, with the tests that it has for a collapse. It asks nothing else.
fn run_rust(rust: &mut Rust, script: &[u32]) {
    for command in script.chunks_exact(5) {
        let point = Vec3::from([2, 3, 4].map(|k| f32::from_bits(command[k])));
        match command[0] {
            1 => {
                let edge = Probe::edge(command[1]);
                if !will_collapse_affect_boundary(rust, edge) && is_topologically_safe(rust, edge) {
                    rust.collapse_edge(edge, &point);
                }
            }
            2 => rust.flip_edge(Probe::edge(command[1])),
            3 => rust.split_edge(Probe::edge(command[1]), &point),
            _ => rust.split_face(Probe::face(command[1]), point),
        }
    }
}

// ---- measuring

fn nanoseconds(work: impl FnOnce()) -> f64 {
    let start = Instant::now();
    work();
    start.elapsed().as_nanos() as f64
}

fn median(mut list: Vec<f64>) -> f64 {
    list.sort_by(f64::total_cmp);
    list[list.len() / 2]
}

/// One row: pairs of times, ours and the Rust's, each for `per` units of work.
fn row(name: &str, per: usize, pairs: Vec<(f64, f64)>) {
    let each = |list: Vec<f64>| median(list) / per as f64;
    let ratio = median(pairs.iter().map(|(ours, rust)| ours / rust).collect());
    let ours = each(pairs.iter().map(|pair| pair.0).collect());
    let rust = each(pairs.iter().map(|pair| pair.1).collect());
    println!("| {name} | {ours:.1} | {rust:.1} | {ratio:.2} |");
}

fn build(floor: &Floor, table: &Table, turns: usize) {
    let pairs = (0..turns).map(|_| {
        let mut lent = Lent::of(table);
        let (mut points, mut faces) = (Memory::of(&floor.points), Memory::of(&floor.faces));
        let ours = nanoseconds(|| {
            black_box(lent.build(&mut points, &mut faces));
        });
        let rust = nanoseconds(|| {
            black_box(floor.rust());
        });
        (ours, rust)
    });
    row("build (plain search), the patch", 1, pairs.collect());
}

fn check(table: &Table, turns: usize) {
    let mut lent = Lent::of(table);
    let times = (0..turns).map(|_| nanoseconds(|| assert_eq!(black_box(lent.check()).answer, 0)));
    println!("| check, the patch | {:.1} | | |", median(times.collect()));
}

/// One kind of ring at every vertex, beside what the Rust has for it.
fn ring(name: &str, kind: usize, table: &Table, turns: usize, mut rust_ring: impl FnMut(u32)) {
    let mut lent = Lent::of(table);
    let mut list = Memory::of(&[0; 64]);
    let pairs = (0..turns).map(|_| {
        let ours = nanoseconds(|| lent.rings(kind, &mut list, |listed| {
            black_box(listed);
        }));
        (ours, nanoseconds(|| (0..table.vertices).for_each(&mut rust_ring)))
    });
    row(name, table.vertices as usize, pairs.collect());
}

fn rings(floor: &Floor, table: &Table, turns: usize) {
    let rust = floor.rust();
    let mut entries = vec![0u32; 64];
    ring("ring of corners, the Rust's as its own list, a vertex", 0, table, turns, |v| {
        black_box(Probe::collected(&rust, Probe::vertex(v)));
    });
    ring("ring of vertices, the Rust's visits pushed to a list, a vertex", 1, table, turns, |v| {
        let mut list = Vec::new();
        rust.vertices_around_vertex(Probe::vertex(v), |w| list.push(Probe::vertex_number(w)));
        black_box(&list);
    });
    ring("ring of vertices, the Rust's visits written to memory at hand, a vertex", 1, table, turns, |v| {
        let mut written = 0;
        rust.vertices_around_vertex(Probe::vertex(v), |w| {
            entries[written] = Probe::vertex_number(w);
            written += 1;
        });
        black_box(&entries);
    });
}

/// A script's edits: the run without the check that it begins with, whose time is taken on the same table just before.
fn edits(name: &str, floor: &Floor, table: &Table, script: &[u32], whole: bool, turns: usize) {
    let base = floor.roomy_rust();
    let commands = script.len() / 5;
    let times = (0..turns).map(|_| {
        let mut lent = Lent::of(table);
        let mut rust = base.clone();
        Probe::reserve(&mut rust, COMMANDS, 6 * COMMANDS);
        let (mut words, mut answers) = (Memory::of(script), Memory::of(&vec![9; commands]));
        let (mut none, mut unused) = (Memory::of(&[]), Memory::of(&[]));
        // once before it counts, so that this check finds the table as warm as the run's own
        lent.run(&mut none, &mut unused);
        let before = nanoseconds(|| {
            black_box(lent.run(&mut none, &mut unused));
        });
        let run = nanoseconds(|| {
            black_box(lent.run(&mut words, &mut answers));
        });
        // the check has just been over all of ours
        (0..Probe::corner_count(&rust)).for_each(|c| {
            black_box(Probe::corner_slot(&rust, c));
        });
        (0..Probe::vertex_count(&rust)).for_each(|v| {
            black_box(Probe::vertex_slot(&rust, v));
        });
        let theirs = nanoseconds(|| run_rust(&mut rust, script));
        assert!(answers.words().iter().all(|&answer| answer == 0), "every command is accepted");
        assert_eq!(Probe::corner_count(&rust), lent.corners as usize, "both did the same");
        (if whole { run } else { run - before }, theirs)
    });
    row(&format!("{name} ({commands} commands), a command"), commands, times.collect());
}

fn measure(side: usize, turns: usize, with_build: bool) {
    let floor = Floor::new(side);
    let table = floor.table();
    println!("\n{} points, {} faces\n\n| what | ours, ns | the Rust, ns | ratio |", floor.vertices, floor.corners / 3);
    println!("|---|---|---|---|");
    if with_build {
        build(&floor, &table, turns.min(40));
    }
    check(&table, turns);
    rings(&floor, &table, turns);
    for (kind, name) in KINDS {
        edits(name, &floor, &table, &accepted(&table, &[kind]), false, turns);
    }
    let mixed = accepted(&table, &[1, 2, 3, 4]);
    edits("mixed, without the check", &floor, &table, &mixed, false, turns);
    edits("mixed, with the check", &floor, &table, &mixed, true, turns);
}

fn main() {
    measure(32, 301, true);
    measure(176, 201, false);
}
