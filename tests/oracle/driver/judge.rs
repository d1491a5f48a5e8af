//! Document 01 a second time: the Rust's own code does every build, edit, collapse test, ring and move; what document 01 adds stands
//! around it. Each refusal is marked: "ours" where it is document 01's addition, "the Rust's" where the Rust itself says no.

use crate::rules;
use crate::table::*;
use baby_shark::algo::edge_collapse::{is_topologically_safe, will_collapse_affect_boundary};
use baby_shark::helpers::aliases::Vec3;
use baby_shark::io::{Builder, IndexedBuilder};
use baby_shark::mesh::corner_table::CornerTable;
use baby_shark::Probe;
use std::collections::HashSet;

type Rust = CornerTable<f32>;

pub const COLLAPSE: u32 = 1;
pub const FLIP: u32 = 2;
pub const SPLIT_EDGE: u32 = 3;
pub const SPLIT_FACE: u32 = 4;

pub type Command = [u32; 5];

// ---- building

pub fn build(table: &mut Table, points: &[u32], faces: &[u32]) -> Built {
    if !table.lengths_agree() || points.len() % 3 != 0 {
        return Built { answer: 1, vertices: table.vertices, corners: table.corners, skipped: 0 }; // ours
    }
    table.blank();
    let built = made(table.vertex_room(), table.corner_room(), points, faces);
    if let Ok((rust, _)) = &built {
        take_slots(table, rust);
    }
    let (answer, skipped) = match built {
        Ok((_, skipped)) => (0, skipped),
        Err(answer) => (answer, 0),
    };
    Built { answer, vertices: table.vertices, corners: table.corners, skipped }
}

/// A build by the Rust alone, with no refusal of ours.
pub fn rust_alone(table: &mut Table, points: &[u32], faces: &[u32]) {
    let points = points.chunks_exact(3).map(|point| numbers(point).into());
    let rust = Rust::from_vertex_and_face_iters(points, faces.iter().map(|&v| v as usize));
    take_slots(table, &rust);
}

/// The Rust's table and how many faces it skipped, or the refusal.
fn made(vertex_room: usize, corner_room: usize, points: &[u32], faces: &[u32]) -> Result<(Rust, usize), u32> {
    let count = points.len() / 3;
    if count > vertex_room {
        return Err(5); // ours
    }
    if !points.iter().all(is_finite) {
        return Err(4); // ours
    }
    let mut builder = Rust::builder_indexed();
    for point in points.chunks_exact(3) {
        builder.add_vertex(numbers(point)).expect("the Rust takes every point");
    }
    let mut edges = HashSet::new();
    let (mut kept, mut skipped) = (0, 0);
    for face in faces.chunks_exact(3) {
        let [a, b, c] = [face[0], face[1], face[2]];
        if face.iter().all(|&v| (v as usize) < count) {
            if a == b || b == c || c == a {
                return Err(3); // ours
            }
            let sides = [(a, b), (b, c), (c, a)];
            if sides.iter().any(|side| edges.contains(side)) {
                skipped += 1; // the Rust's, which does not count
            } else if 3 * kept + 3 > corner_room {
                return Err(6); // ours
            } else {
                kept += 1;
                edges.extend(sides);
            }
        }
        builder.add_face(a as usize, b as usize, c as usize).map_err(|_| 2u32)?; // the Rust's
    }
    let rust = builder.finish().expect("the Rust finishes every build");
    assert_eq!(Probe::corner_count(&rust), 3 * kept, "the Rust skipped other faces");
    if Probe::vertex_count(&rust) > vertex_room {
        return Err(5); // ours
    }
    Ok((rust, skipped))
}

// ---- the Rust's slots

fn numbers(bits: &[u32]) -> [f32; 3] {
    std::array::from_fn(|k| f32::from_bits(bits[k]))
}

fn take_slots(table: &mut Table, rust: &Rust) {
    for slot in 0..Probe::corner_count(rust) {
        let (vertex, opposite, deleted) = Probe::corner_slot(rust, slot);
        table.parts[CORNER_VERTEX][slot] = vertex;
        table.parts[CORNER_OPPOSITE][slot] = opposite;
        table.parts[CORNER_MARK][slot] = deleted as u32;
    }
    for slot in 0..Probe::vertex_count(rust) {
        let (corner, point, deleted) = Probe::vertex_slot(rust, slot);
        table.parts[VERTEX_CORNER][slot] = corner;
        table.parts[VERTEX_MARK][slot] = deleted as u32;
        for k in 0..3 {
            table.parts[VERTEX_POINT][3 * slot + k] = point[k].to_bits();
        }
    }
    table.vertices = Probe::vertex_count(rust) as u32;
    table.corners = Probe::corner_count(rust) as u32;
}

/// The Rust's table with the used slots of ours, however damaged they are. Any mark but 0 is deleted.
fn fill_slots(table: &Table) -> Rust {
    let mut rust = Rust::new();
    if !table.lengths_agree() {
        return rust;
    }
    for c in 0..table.used_corners() as u32 {
        Probe::push_corner(&mut rust, table.vertex(c), table.opposite(c), !table.corner_is_live(c));
    }
    for v in 0..table.used_vertices() as u32 {
        Probe::push_vertex(&mut rust, table.corner(v), numbers(&table.point(v as usize)), !table.vertex_is_live(v));
    }
    rust
}

// ---- scripts, rings and walkers on a table

pub struct Judge {
    pub table: Table,
    rust: Rust,
}

impl Judge {
    pub fn of(table: Table) -> Judge {
        let rust = fill_slots(&table);
        Judge { table, rust }
    }

    pub fn run(&mut self, script: &[u32], answers: &mut [u32]) -> Ran {
        let Table { vertices, corners, .. } = self.table;
        let refused = |answer, rule, slot| Ran { answer, rule, slot, vertices, corners };
        if !self.table.lengths_agree() {
            return refused(1, 0, 0); // ours
        }
        if script.len() % 5 != 0 || answers.len() < script.len() / 5 {
            return refused(8, 0, 0); // ours
        }
        if let Some((rule, slot)) = rules::broken(&self.table) {
            return refused(7, rule, slot); // ours
        }
        for (command, answer) in script.chunks_exact(5).zip(answers) {
            *answer = self.step(command.try_into().unwrap());
        }
        Ran { answer: 0, rule: 0, slot: 0, vertices: self.table.vertices, corners: self.table.corners }
    }

    /// One command on a well-formed table.
    pub fn step(&mut self, command: Command) -> u32 {
        let answer = self.answer(command);
        if answer == 0 {
            self.edit(command);
            take_slots(&mut self.table, &self.rust);
        }
        answer
    }

    /// The Rust's edit without any refusal of ours: it may panic, or leave a table that is not well-formed.
    pub fn edit_unasked(&mut self, command: Command) {
        self.edit(command);
        take_slots(&mut self.table, &self.rust);
    }

    /// What a command answers on a well-formed table.
    pub fn answer(&self, command: Command) -> u32 {
        match command[0] {
            COLLAPSE => self.collapse_answer(command),
            FLIP => self.flip_answer(command),
            SPLIT_EDGE => self.split_edge_answer(command),
            SPLIT_FACE => self.split_face_answer(command),
            _ => 14, // ours
        }
    }

    /// The edit itself is all the Rust's.
    fn edit(&mut self, [kind, target, x, y, z]: Command) {
        let point = Vec3::from(numbers(&[x, y, z]));
        match kind {
            COLLAPSE => self.rust.collapse_edge(Probe::edge(target), &point),
            FLIP => self.rust.flip_edge(Probe::edge(target)),
            SPLIT_EDGE => self.rust.split_edge(Probe::edge(target), &point),
            _ => self.rust.split_face(Probe::face(target), point),
        }
    }

    fn target_answer(&self, corner: u32) -> u32 {
        if !self.table.corner_is_used(corner) {
            9 // ours; the Rust panics
        } else if !self.table.corner_is_live(corner) {
            10 // ours; the Rust is silent
        } else {
            0
        }
    }

    fn same_vertex_on_both_sides(&self, corner: u32) -> bool {
        self.table.vertex(corner) == self.table.vertex(self.table.opposite(corner))
    }

    fn collapse_answer(&self, command: Command) -> u32 {
        let corner = command[1];
        let target = self.target_answer(corner);
        if target != 0 {
            return target;
        }
        if !command[2..].iter().all(is_finite) {
            return 4; // ours
        }
        let edge = Probe::edge(corner);
        if will_collapse_affect_boundary(&self.rust, edge) {
            return 11; // the Rust's test; its edit does not ask
        }
        if self.same_vertex_on_both_sides(corner) {
            return 12; // ours
        }
        if self.has_third_face(corner) {
            return 13; // ours
        }
        if !is_topologically_safe(&self.rust, edge) {
            return 13; // the Rust's test; its edit does not ask
        }
        0
    }

    /// Does a live face beside the two at the edge hold both of its ends?
    fn has_third_face(&self, corner: u32) -> bool {
        let t = &self.table;
        let ends = [t.vertex(next(corner)), t.vertex(previous(corner))];
        let holds = |first: u32| ends.iter().all(|&end| (first..first + 3).any(|c| t.vertex(c) == end));
        (0..t.corners).step_by(3).filter(|&first| t.corner_is_live(first) && holds(first)).count() > 2
    }

    /// Is this a collapse that only a third face forbids? The Rust's two tests would let it through.
    pub fn only_third_face(&self, command: Command) -> bool {
        self.collapse_answer(command) == 13 && is_topologically_safe(&self.rust, Probe::edge(command[1]))
    }

    fn flip_answer(&self, command: Command) -> u32 {
        let corner = command[1];
        let target = self.target_answer(corner);
        if target != 0 {
            return target;
        }
        if self.rust.is_edge_on_boundary(Probe::edge(corner)) {
            return 11; // ours; the Rust asserts in debug builds
        }
        if self.same_vertex_on_both_sides(corner) {
            return 12; // ours
        }
        0
    }

    fn split_edge_answer(&self, command: Command) -> u32 {
        let corner = command[1];
        let target = self.target_answer(corner);
        if target != 0 {
            return target;
        }
        let border = self.rust.is_edge_on_boundary(Probe::edge(corner));
        self.room_answer(command, if border { 3 } else { 6 })
    }

    fn split_face_answer(&self, command: Command) -> u32 {
        let face = command[1];
        if face >= self.table.corners / 3 {
            return 9; // ours; the Rust panics
        }
        if !self.table.corner_is_live(3 * face) {
            return 10; // ours; the Rust is silent
        }
        self.room_answer(command, 6)
    }

    fn room_answer(&self, command: Command, corners: usize) -> u32 {
        if !command[2..].iter().all(is_finite) {
            4 // ours
        } else if self.table.vertices as usize + 1 > self.table.vertex_room() {
            5 // ours
        } else if self.table.corners as usize + corners > self.table.corner_room() {
            6 // ours
        } else {
            0
        }
    }

    // ---- rings

    pub fn ring(&self, kind: usize, vertex: u32, list: &mut [u32]) -> Listed {
        let refused = |answer| Listed { answer, visited: 0, written: 0 };
        if !self.table.lengths_agree() {
            return refused(1); // ours
        }
        if !self.table.vertex_is_used(vertex) {
            return refused(9); // ours; the Rust panics
        }
        if !self.table.vertex_is_live(vertex) {
            return refused(10); // ours; the Rust does not look
        }
        let Some(visited) = self.visits(self.table.corner(vertex)) else {
            return refused(15); // ours; the Rust may panic or run for ever, so it is not asked
        };
        let entries = self.rust_ring(kind, vertex);
        if entries.len() > list.len() {
            return refused(16); // ours
        }
        list[..entries.len()].copy_from_slice(&entries);
        Listed { answer: 0, visited: visited as u32, written: entries.len() as u32 }
    }

    /// The Rust's own list.
    pub fn rust_ring(&self, kind: usize, vertex: u32) -> Vec<u32> {
        let mut list = Vec::new();
        let vertex = Probe::vertex(vertex);
        match kind {
            0 => self.rust.corners_around_vertex(vertex, |c| list.push(Probe::corner_number(c))),
            1 => self.rust.vertices_around_vertex(vertex, |v| list.push(Probe::vertex_number(v))),
            2 => self.rust.faces_around_vertex(vertex, |f| list.push(Probe::face_number(f))),
            3 => self.rust.edges_around_vertex(vertex, |e| list.push(Probe::corner_number(e.id().corner()))),
            _ => self.rust.vertex_bounding_edges(vertex, |e| list.push(Probe::corner_number(e.corner()))),
        }
        list
    }

    /// How many corners the walk visits; none if it is tangled. It guards the Rust's loops, which have no end of their own.
    pub fn visits(&self, start: u32) -> Option<usize> {
        let t = &self.table;
        let mut visited = 0;
        let mut visit = |corner: u32| {
            visited += 1;
            let face = corner - corner % 3;
            let live = corner != ABSENT && (face..face + 3).all(|c| t.corner_is_live(c));
            if live && visited <= t.used_corners() { Some(visited) } else { None }
        };
        let mut count = visit(start)?;
        let mut corner = start;
        while let Some(over) = self.over(next(corner))? {
            corner = next(over);
            if corner == start {
                return Some(count);
            }
            count = visit(corner)?;
        }
        corner = start;
        while let Some(over) = self.over(previous(corner))? {
            corner = previous(over);
            count = visit(corner)?;
        }
        Some(count)
    }

    /// Would the Rust's release build list a ring, though its walk is tangled? It looks at no mark and counts no visits; it panics past
    /// the corners, and is not asked where it would run for ever.
    pub fn rust_lists_anyway(&self, start: u32) -> bool {
        let used = self.table.used_corners() as u32;
        let across = |corner: u32| if corner < used { Some(self.table.opposite(corner)) } else { None };
        for (turn, may_close) in [(next as fn(u32) -> u32, true), (previous, false)] {
            let mut corner = start;
            let mut steps = 0;
            loop {
                match across(corner).and_then(|_| across(turn(corner))) {
                    None => return false,
                    Some(ABSENT) => break,
                    Some(over) => corner = if over < used { turn(over) } else { return false },
                }
                if may_close && corner == start {
                    return true;
                }
                steps += 1;
                if steps > used {
                    return false;
                }
            }
        }
        true
    }

    /// The opposite of a live corner: `Some(None)` where it is absent, `None` where it is not live.
    fn over(&self, corner: u32) -> Option<Option<u32>> {
        match self.table.opposite(corner) {
            ABSENT => Some(None),
            opposite if self.table.corner_is_live(opposite) => Some(Some(opposite)),
            _ => None,
        }
    }

    // ---- walkers

    pub fn walk(&self, kind: usize, corner: &mut u32) -> Moved {
        let refused = |answer| Moved { answer, moved: 0 };
        if !self.table.lengths_agree() {
            return refused(1); // ours
        }
        if !self.table.corner_is_used(*corner) {
            return refused(9); // ours; the Rust panics
        }
        if !self.table.corner_is_live(*corner) {
            return refused(10); // ours; the Rust asserts in debug builds
        }
        match self.can_step(kind, *corner) {
            None => refused(15), // ours; the Rust panics, or asserts in debug builds
            Some(can) => Moved { answer: 0, moved: self.rust_walk(kind, corner, can) as u32 },
        }
    }

    /// Is there a corner to move to? None if a corner on the way is not live.
    fn can_step(&self, kind: usize, corner: u32) -> Option<bool> {
        let turn = [next, previous, |c| c, next, previous][kind];
        let turned = turn(corner);
        self.live(turned)?;
        if kind < 2 {
            return Some(true);
        }
        let Some(over) = self.over(turned)? else { return Some(false) };
        self.live(turn(over))?;
        Some(true)
    }

    fn live(&self, corner: u32) -> Option<()> {
        if self.table.corner_is_live(corner) { Some(()) } else { None }
    }

    fn rust_walk(&self, kind: usize, corner: &mut u32, can: bool) -> bool {
        let mut walker = self.rust.walker_from_corner(Probe::corner(*corner));
        let moved = match kind {
            0 => { walker.move_to_next(); true }
            1 => { walker.move_to_previous(); true }
            2 if !can && cfg!(debug_assertions) => false, // the Rust asserts there in debug builds
            2 => { walker.move_to_opposite(); can }
            3 => walker.swing_left_or_stay(),
            _ => walker.swing_right_or_stay(),
        };
        *corner = Probe::corner_number(walker.corner_id());
        moved
    }
}
