//! Where is answer 15 stricter than the Rust's release walk? Tries every table of one and of two faces, all marks 0 and any opposites,
//! and tells a ring that is refused though the Rust's own walk ends, with as few opposites as can be; then the same for a deleted mark.
#![allow(dead_code)]

mod judge;
mod rules;
mod table;

use judge::Judge;
use table::*;

/// One face without opposites.
const ALONE: usize = 4 * 4 * 4 - 1;

fn main() {
    for faces in 1..=2 {
        let (rings, tangled, stricter) = all_tables(faces);
        println!("{faces} faces: {rings} rings, {tangled} tangled, of which the Rust lists {stricter}");
    }
    let mut marked = table(1, ALONE);
    marked.parts[CORNER_MARK][1] = 1;
    tell(&Judge::of(marked));
}

/// Vertex 0 names corner 0; the other corners follow by renumbering, so one start will do.
fn all_tables(faces: usize) -> (usize, usize, usize) {
    let corners = 3 * faces;
    let (mut rings, mut tangled) = (0, 0);
    let mut stricter: Vec<Judge> = Vec::new();
    for code in 0..(corners + 1).pow(corners as u32) {
        let judge = Judge::of(table(faces, code));
        rings += 1;
        if judge.visits(0).is_none() {
            tangled += 1;
            if judge.rust_lists_anyway(0) {
                stricter.push(judge);
            }
        }
    }
    let present = |judge: &&Judge| judge.table.parts[CORNER_OPPOSITE].iter().filter(|&&opposite| opposite != ABSENT).count();
    stricter.iter().min_by_key(present).into_iter().for_each(tell);
    (rings, tangled, stricter.len())
}

/// The table whose opposites are the digits of the code; the highest digit is absent.
fn table(faces: usize, mut code: usize) -> Table {
    let corners = 3 * faces;
    let mut table = Table::with_room(1, corners, [0; 6]);
    for corner in 0..corners {
        let digit = code % (corners + 1);
        table.parts[CORNER_OPPOSITE][corner] = if digit == corners { ABSENT } else { digit as u32 };
        code /= corners + 1;
    }
    (table.vertices, table.corners) = (1, corners as u32);
    table
}

fn tell(judge: &Judge) {
    let answer = judge.ring(0, 0, &mut [0; 32]).answer;
    let t = &judge.table;
    let list = if judge.rust_lists_anyway(0) && !cfg!(debug_assertions) { judge.rust_ring(0, 0) } else { vec![] };
    let (opposites, marks) = (&t.parts[CORNER_OPPOSITE], &t.parts[CORNER_MARK]);
    println!("opposites {opposites:?}, marks {marks:?}: answer {answer}; the Rust lists corners {list:?}");
}
