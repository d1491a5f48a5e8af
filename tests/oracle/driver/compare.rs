//! The comparison: our library and the Rust (with document 01 around it) on the same random input, slot by slot.
//!
//!     compare SEED CASES [FIRST]
//!
//! Case n of a seed is always the same, so the first difference can be tried alone: compare SEED 1 n.
//! Case 999999 is slow and stands alone: 194,400 corners in the largest room.
#![allow(dead_code)]

mod damage;
mod judge;
mod library;
mod meshes;
mod random;
mod rules;
mod scripts;
mod table;

use judge::Judge;
use library::{Lent, Memory};
use meshes::Mesh;
use random::Random;
use table::*;

/// What was compared.
#[derive(Default)]
struct Tally {
    meshes: usize,
    largest: usize,
    commands: usize,
    done: usize,
    rings: usize,
    moves: usize,
    checks: usize,
    damaged: usize,
    third_faces: usize,
    rules: [usize; 7],
    answers: [usize; 17],
}

/// A difference ends the case; the text says where it lies.
type Same = Result<(), String>;

fn main() {
    let numbers: Vec<u64> = std::env::args().skip(1).map(|word| word.parse().expect("a number")).collect();
    let [seed, cases] = numbers[..2] else { panic!("compare SEED CASES [FIRST]") };
    let first = numbers.get(2).copied().unwrap_or(0);
    println!("seed {seed}, {cases} cases");
    let mut tally = Tally::default();
    for case in first..first + cases {
        if let Err(difference) = Case::new(seed, case, &mut tally).all() {
            println!("DIFFERENT: seed {seed}, case {case}: {}", difference.lines().next().unwrap());
            tell_smallest(seed, case);
            std::process::exit(1);
        }
    }
    tally.print();
}

/// The first difference may be a large one: tells the shortest that the next thousand cases have.
fn tell_smallest(seed: u64, first: u64) {
    let mut tally = Tally::default();
    let mut tried = |case| Case::new(seed, case, &mut tally).all().err().map(|text| (text.contains(LARGE), text.len(), case, text));
    let found = (first..first + 1000).filter_map(&mut tried);
    let (_, _, case, difference) = found.min().expect("the first one at least");
    println!("the smallest of the cases from there on is case {case}: {difference}");
    println!("try it alone: compare {seed} 1 {case}");
}

impl Tally {
    fn print(&self) {
        println!("{} meshes (the largest of {} faces), {} commands ({} done), {} rings, {} moves, {} checks, {} damaged tables",
            self.meshes, self.largest, self.commands, self.done, self.rings, self.moves, self.checks, self.damaged);
        let counted: Vec<String> = self.answers.iter().enumerate().map(|(k, n)| format!("{k}:{n}")).collect();
        println!("answers {}", counted.join(" "));
        println!("broken rules {:?} (0 is none); {} collapses that only a third face forbids", self.rules, self.third_faces);
        println!("no difference");
    }
}

const HUGE: u64 = 999_999;

/// Stands for a table that is too large to be told with every command.
const LARGE: &str = "a large table";

struct Case<'a> {
    random: Random,
    number: u64,
    tally: &'a mut Tally,
}

// ---- one case

impl Case<'_> {
    fn new(seed: u64, number: u64, tally: &mut Tally) -> Case<'_> {
        Case { random: Random::of_case(seed, number), number, tally }
    }

    fn all(&mut self) -> Same {
        let mesh = self.mesh();
        let (vertex_room, corner_room) = self.rooms(&mesh);
        let mut table = self.patterned(vertex_room, corner_room);
        if self.random.once_in(50) {
            damage::make_uneven(&mut self.random, &mut table);
        }
        let built = self.build(&mut table, &mesh)?;
        if built.answer == 0 {
            self.on_table(table)?;
        }
        if self.random.once_in(2) {
            let tangled = damage::tangle(&mut self.random);
            self.on_damaged(tangled)?;
        }
        if self.random.once_in(8) {
            let mut garbage = self.patterned(self.number as usize % 7, self.number as usize % 11);
            damage::damage(&mut self.random, &mut garbage);
            self.on_damaged(garbage)?;
        }
        Ok(())
    }

    /// Most meshes are small; some are a full patch, a few lie beyond.
    fn mesh(&mut self) -> Mesh {
        let random = &mut self.random;
        if self.number == HUGE {
            return meshes::huge(random);
        }
        let mut mesh = match self.number % 1000 {
            7 | 507 => meshes::full_patch(random),
            250 if random.once_in(2) => meshes::beyond_a_patch(random),
            n if n % 200 == 53 => meshes::crowded(random),
            n if n % 100 == 3 => meshes::any_mesh(random, 12),
            _ => meshes::any_mesh(random, 4),
        };
        meshes::spoil_input(random, &mut mesh, 12);
        mesh
    }

    /// Room to grow, or little, or too little.
    fn rooms(&mut self, mesh: &Mesh) -> (usize, usize) {
        if self.number == HUGE {
            return (MOST_VERTICES, MOST_CORNERS);
        }
        let random = &mut self.random;
        let (vertices, corners) = (mesh.points_count(), mesh.faces.len());
        match random.below(10) {
            0 => (vertices + random.below(3), corners + random.below(13)),
            1 => ((vertices + 1).saturating_sub(random.below(4)), (corners + 3).saturating_sub(random.below(12))),
            2 => (vertices + random.below(12), corners + random.below(60)),
            _ => (vertices + corners / 3 + random.within(20, 60), corners + random.within(100, 400)),
        }
    }

    /// A table whose every word is some pattern: what a call leaves alone can then be seen.
    fn patterned(&mut self, vertex_room: usize, corner_room: usize) -> Table {
        let fills = std::array::from_fn(|_| self.random.word());
        let mut table = Table::with_room(vertex_room, corner_room, fills);
        table.vertices = self.random.word();
        table.corners = self.random.word();
        table
    }

    fn build(&mut self, table: &mut Table, mesh: &Mesh) -> Result<Built, String> {
        let mut lent = Lent::of(table);
        let (mut points, mut faces) = (Memory::of(&mesh.points), Memory::of(&mesh.faces));
        let found = lent.build(&mut points, &mut faces);
        let wanted = judge::build(table, &mesh.points, &mesh.faces);
        self.count(wanted.answer);
        self.tally.meshes += 1;
        self.tally.largest = self.tally.largest.max(mesh.faces.len() / 3);
        let what = || format!("build of {} points, faces {}", mesh.points_count(), short(&mesh.faces));
        equal(&found, &wanted, what)?;
        same_table(&lent, table, what)?;
        same_memory("the points", &points, &mesh.points)?;
        same_memory("the faces", &faces, &mesh.faces)?;
        Ok(wanted)
    }

    fn on_table(&mut self, table: Table) -> Same {
        self.check(&table)?;
        let mut judge = Judge::of(table);
        let small = judge.table.corners < 600;
        self.script(&mut judge, if small { 140 } else { 60 })?;
        self.check(&judge.table)?;
        self.rings(&judge)?;
        self.walks(&judge)?;
        if self.random.once_in(3) {
            damage::soil(&mut self.random, &mut judge.table);
            let soiled = judge.table.clone();
            self.check(&soiled)?;
            self.script(&mut Judge::of(soiled), 30)?;
        }
        let copies = if small { self.random.below(3) } else { 1 };
        for _ in 0..copies {
            let mut damaged = judge.table.clone();
            damage::damage(&mut self.random, &mut damaged);
            self.on_damaged(damaged)?;
        }
        if self.random.once_in(16) {
            let mut uneven = judge.table.clone();
            damage::make_uneven(&mut self.random, &mut uneven);
            self.on_damaged(uneven)?;
        }
        Ok(())
    }

    fn on_damaged(&mut self, table: Table) -> Same {
        self.tally.damaged += 1;
        self.check(&table)?;
        let judge = Judge::of(table);
        self.rings(&judge)?;
        self.walks(&judge)?;
        self.wrong_runs(&judge.table)
    }

    // ---- scripts

    /// The script is run command by command, each from the table before it, and once as a whole.
    fn script(&mut self, judge: &mut Judge, most: usize) -> Same {
        let before = judge.table.clone();
        let mut lent = Lent::of(&before);
        let mood = scripts::any_mood(&mut self.random);
        let (mut script, mut answers) = (Vec::new(), Vec::new());
        for _ in 0..self.random.within(1, most) {
            let command = scripts::any_command(&mut self.random, judge, mood);
            answers.push(self.one_command(judge, &mut lent, command)?);
            script.extend(command);
        }
        self.whole_script(judge, &before, &script, &answers)
    }

    fn one_command(&mut self, judge: &mut Judge, lent: &mut Lent, command: judge::Command) -> Result<u32, String> {
        let mut script = Memory::of(&command);
        let mut found = Memory::of(&[0x1111_1111, 0x2222_2222]);
        let ran = lent.run(&mut script, &mut found);
        let before = if judge.table.corners <= 60 { Some(judge.table.clone()) } else { None };
        self.tally.third_faces += (command[0] == judge::COLLAPSE && judge.only_third_face(command)) as usize;
        let answer = judge.step(command);
        self.tally.commands += 1;
        self.tally.done += (answer == 0) as usize;
        self.count(answer);
        let Table { vertices, corners, .. } = judge.table;
        let what = || format!("command {command:?} on {}", before.as_ref().map_or(LARGE.into(), described));
        equal(&ran, &Ran { answer: 0, rule: 0, slot: 0, vertices, corners }, what)?;
        equal(&found.words(), &&[answer, 0x2222_2222][..], what)?;
        same_table(lent, &judge.table, what)?;
        same_memory("the script", &script, &command)?;
        same_guards("the answers", &found)?;
        Ok(answer)
    }

    fn whole_script(&mut self, judge: &Judge, before: &Table, script: &[u32], answers: &[u32]) -> Same {
        let mut lent = Lent::of(before);
        let mut wanted = answers.to_vec();
        wanted.extend((0..self.random.below(3)).map(|k| 0x3333_0000 + k as u32));
        let mut room = wanted.clone();
        room[..answers.len()].fill(0x4444_4444);
        let (mut lent_script, mut found) = (Memory::of(script), Memory::of(&room));
        let ran = lent.run(&mut lent_script, &mut found);
        let Table { vertices, corners, .. } = judge.table;
        let what = || format!("the whole script {} on {}", short(script), described(before));
        equal(&ran, &Ran { answer: 0, rule: 0, slot: 0, vertices, corners }, what)?;
        same_memory("the answers of the whole script", &found, &wanted)?;
        same_memory("the script", &lent_script, script)?;
        same_table(&lent, &judge.table, what)
    }

    /// Scripts and answers of any length, on a table that is likely damaged: 1, 8, 7, or a run.
    fn wrong_runs(&mut self, table: &Table) -> Same {
        let mut judge = Judge::of(table.clone());
        let commands = self.random.below(4);
        let mut script: Vec<u32> = (0..5 * commands).map(|_| self.random.below(6) as u32).collect();
        if self.random.once_in(3) {
            script.extend((0..self.random.below(5)).map(|_| 1));
        }
        let room = (commands + self.random.below(3)).saturating_sub(self.random.below(2));
        let mut wanted = vec![0x5555_0001; room];
        let (mut lent, mut lent_script, mut found) = (Lent::of(table), Memory::of(&script), Memory::of(&wanted));
        let ran = lent.run(&mut lent_script, &mut found);
        let expected = judge.run(&script, &mut wanted);
        self.count(expected.answer);
        let what = || format!("run of {} with {room} answers on {}", short(&script), described(table));
        equal(&ran, &expected, what)?;
        same_memory("the answers", &found, &wanted)?;
        same_table(&lent, &judge.table, what)
    }

    // ---- what only reads

    fn check(&mut self, table: &Table) -> Same {
        let mut lent = Lent::of(table);
        let wanted = rules::check(table);
        self.tally.checks += 1;
        self.tally.rules[wanted.rule as usize] += 1;
        self.count(wanted.answer);
        let what = || format!("check of {}", described(table));
        equal(&lent.check(), &wanted, what)?;
        same_table(&lent, table, what)
    }

    /// Every kind around every vertex (of a huge table: some), and around vertices that are none.
    fn rings(&mut self, judge: &Judge) -> Same {
        let mut lent = Lent::of(&judge.table);
        let used = judge.table.used_vertices();
        for vertex in 0..used as u32 {
            if used < 10_000 || self.random.once_in(used / 50) {
                self.five_rings(judge, &mut lent, vertex)?;
            }
        }
        for vertex in [used as u32, u32::MAX] {
            self.five_rings(judge, &mut lent, vertex)?;
        }
        same_table(&lent, &judge.table, || "a table after its rings".into())
    }

    fn five_rings(&mut self, judge: &Judge, lent: &mut Lent, vertex: u32) -> Same {
        let mut wide = vec![0; judge.table.used_corners() + 2];
        for kind in 0..5 {
            let needed = judge.ring(kind, vertex, &mut wide).written as usize;
            let length = match self.random.below(6) {
                0 => needed.saturating_sub(1),
                1 => self.random.below(needed + 1),
                2 => needed + 3,
                _ => needed,
            };
            self.ring(judge, lent, kind, vertex, length)?;
        }
        Ok(())
    }

    fn ring(&mut self, judge: &Judge, lent: &mut Lent, kind: usize, vertex: u32, length: usize) -> Same {
        let mut wanted = vec![0x6666_6666; length];
        let mut found = Memory::of(&wanted);
        let listed = lent.ring(kind, vertex, &mut found);
        let expected = judge.ring(kind, vertex, &mut wanted);
        self.tally.rings += 1;
        self.count(expected.answer);
        let what = || format!("ring of {} of vertex {vertex}, list room {length}, on {}", RING_NAMES[kind], described(&judge.table));
        equal(&listed, &expected, what)?;
        equal(&found.words(), &&wanted[..], what)?;
        same_guards("the list", &found)
    }

    fn walks(&mut self, judge: &Judge) -> Same {
        let mut lent = Lent::of(&judge.table);
        let used = judge.table.used_corners() as u32;
        for corner in [used, used + 1, judge.table.corners, u32::MAX - 1, u32::MAX] {
            self.five_moves(judge, &mut lent, corner)?;
        }
        for _ in 0..used.min(60) {
            let corner = self.random.below(used as usize) as u32;
            self.five_moves(judge, &mut lent, corner)?;
        }
        same_table(&lent, &judge.table, || "a table after its walks".into())
    }

    fn five_moves(&mut self, judge: &Judge, lent: &mut Lent, corner: u32) -> Same {
        for kind in 0..5 {
            let (mut found, mut wanted) = (corner, corner);
            let moved = lent.walk(kind, &mut found);
            let expected = judge.walk(kind, &mut wanted);
            self.tally.moves += 1;
            self.count(expected.answer);
            let what = || format!("{} from corner {corner} on {}", MOVE_NAMES[kind], described(&judge.table));
            equal(&(moved, found), &(expected, wanted), what)?;
        }
        Ok(())
    }

    fn count(&mut self, answer: u32) {
        self.tally.answers[answer as usize] += 1;
    }
}

// ---- what is the same

fn equal<T: PartialEq + std::fmt::Debug>(found: &T, wanted: &T, what: impl Fn() -> String) -> Same {
    if found == wanted { Ok(()) } else { Err(format!("{}\n  the library: {found:?}\n  the Rust:    {wanted:?}", what())) }
}

fn same_table(lent: &Lent, table: &Table, what: impl Fn() -> String) -> Same {
    let counts = (lent.vertices, lent.corners) == (table.vertices, table.corners);
    for part in 0..6 {
        let (found, wanted) = (lent.parts[part].words(), &table.parts[part][..]);
        if found != wanted {
            let slot = (0..found.len()).find(|&k| found[k] != wanted[k]).unwrap();
            return Err(format!("{}\n  {}[{slot}] is {} in the library and {} in the Rust",
                what(), PART_NAMES[part], found[slot], wanted[slot]));
        }
        if !lent.parts[part].guards_stand() {
            return Err(format!("{}\n  the library wrote beside {}", what(), PART_NAMES[part]));
        }
    }
    if counts { Ok(()) } else { Err(format!("{}\n  the counts differ", what())) }
}

fn same_memory(name: &str, found: &Memory, wanted: &[u32]) -> Same {
    same_guards(name, found)?;
    if found.words() == wanted { Ok(()) } else { Err(format!("{name}: {} in place of {}", short(found.words()), short(wanted))) }
}

fn same_guards(name: &str, found: &Memory) -> Same {
    if found.guards_stand() { Ok(()) } else { Err(format!("the library wrote beside {name}")) }
}

fn short(words: &[u32]) -> String {
    if words.len() <= 300 { format!("{words:?}") } else { format!("{:?}.. ({} words)", &words[..300], words.len()) }
}

/// The used slots of a table.
fn described(t: &Table) -> String {
    let rooms = (t.vertex_room(), t.corner_room());
    let mut text = format!("a table of {} vertices (room {}), {} corners (room {})", t.vertices, rooms.0, t.corners, rooms.1);
    for part in 0..6 {
        let used = if part < 3 { t.corners as usize } else { t.vertices as usize * if part == VERTEX_POINT { 3 } else { 1 } };
        text += &format!("\n    {} {}", PART_NAMES[part], short(&t.parts[part][..used.min(t.parts[part].len())]));
    }
    text
}
