//! Shows each intended difference from the Rust by its smallest input: what document 01 answers, and what the Rust alone does.
//! Built and run by hand: ORACLE_PROGRAMS=differences tests/oracle/build && target/oracle/release/differences
#![allow(dead_code)]

mod judge;
mod meshes;
mod random;
mod rules;
mod scripts;
mod table;

use judge::{Command, Judge, COLLAPSE, FLIP, SPLIT_EDGE, SPLIT_FACE};
use meshes::Mesh;
use random::Random;
use std::panic::{catch_unwind, AssertUnwindSafe};
use table::*;

fn main() {
    std::panic::set_hook(Box::new(|_| {}));
    builds();
    commands();
    reads();
    third_face();
}

fn table_of(mesh: &Mesh) -> Table {
    let mut table = Table::with_room(30, 90, BLANK);
    assert_eq!(judge::build(&mut table, &mesh.points, &mesh.faces).answer, 0);
    table
}

fn told(table: Option<Table>) -> String {
    match table.map(|table| rules::check(&table)) {
        None => "panics".into(),
        Some(Checked { answer: 0, .. }) => "done, well-formed".into(),
        Some(Checked { rule, slot, .. }) => format!("done, R{rule} broken at slot {slot}"),
    }
}

fn builds() {
    let mut nan = meshes::a();
    nan.points[0] = 0x7fc0_0000;
    for (name, mesh) in [("face 0 0 1", Mesh::plain(2, &[[0, 0, 1]])), ("A with a NaN", nan)] {
        let mut table = Table::with_room(9, 9, BLANK);
        let answer = judge::build(&mut table.clone(), &mesh.points, &mesh.faces).answer;
        judge::rust_alone(&mut table, &mesh.points, &mesh.faces);
        println!("build, {name}: {answer}; the Rust: {}", told(Some(table)));
    }
}

fn commands() {
    let pillow = Mesh::plain(3, &[[0, 1, 2], [0, 2, 1]]);
    let pyramids = Mesh::plain(5, &[[0, 2, 3], [1, 3, 2], [0, 3, 4], [1, 4, 3], [0, 4, 2], [1, 2, 4]]);
    let tried: [(&str, Mesh, &[Command], Command); 11] = [
        ("A, collapse 3", meshes::a(), &[], command(COLLAPSE, 3)),
        ("A, split face 1", meshes::a(), &[], command(SPLIT_FACE, 1)),
        ("T, collapse 0, again collapse 0", meshes::t(), &[command(COLLAPSE, 0)], command(COLLAPSE, 0)),
        ("A, split face 0 with a NaN", meshes::a(), &[], [SPLIT_FACE, 0, 0x7fc0_0000, 0, 0]),
        ("A, split edge 0 with infinity", meshes::a(), &[], [SPLIT_EDGE, 0, 0x7f80_0000, 0, 0]),
        ("A, collapse 0", meshes::a(), &[], command(COLLAPSE, 0)),
        ("B, collapse 1", meshes::b(), &[], command(COLLAPSE, 1)),
        ("A, flip 0", meshes::a(), &[], command(FLIP, 0)),
        ("pillow, flip 0", pillow.clone(), &[], command(FLIP, 0)),
        ("pillow, collapse 0", pillow, &[], command(COLLAPSE, 0)),
        ("double pyramid over a triangle, collapse 0", pyramids, &[], command(COLLAPSE, 0)),
    ];
    for (name, mesh, before, last) in tried {
        let mut judge = Judge::of(table_of(&mesh));
        before.iter().for_each(|&command| assert_eq!(judge.step(command), 0));
        tell(name, judge, last);
    }
}

fn command(kind: u32, target: u32) -> Command {
    [kind, target, 0, 0, 0]
}

fn tell(name: &str, mut judge: Judge, last: Command) {
    let answer = judge.answer(last);
    let before = judge.table.clone();
    let after = catch_unwind(AssertUnwindSafe(|| { judge.edit_unasked(last); judge.table })).ok();
    let silent = if after.as_ref() == Some(&before) { " (nothing changed)" } else { "" };
    println!("{name}: {answer}; the Rust: {}{silent}", told(after));
}

fn reads() {
    let mut judge = Judge::of(table_of(&meshes::t()));
    judge.step(command(COLLAPSE, 0));
    tell_ring("T, collapse 0, ring of vertex 2", &judge, 2);
    tell_ring("A, ring of vertex 3", &Judge::of(table_of(&meshes::a())), 3);
}

fn tell_ring(name: &str, judge: &Judge, vertex: u32) {
    let answer = judge.ring(0, vertex, &mut [0; 9]).answer;
    let endless = judge.table.vertex_is_used(vertex) && !judge.rust_lists_anyway(judge.table.corner(vertex));
    let found = catch_unwind(AssertUnwindSafe(|| if endless { None } else { Some(judge.rust_ring(0, vertex)) }));
    let text = match found {
        Err(_) => "panics".into(),
        Ok(None) => "has no end".into(),
        Ok(Some(list)) => format!("{list:?}"),
    };
    println!("{name}: {answer}; the Rust: {text}");
}

/// The fewest live faces, and then the shortest script, where only the third face forbids a collapse.
fn third_face() {
    let mut best: Option<(usize, usize, Mesh, Vec<Command>, u32)> = None;
    for case in 0..60_000 {
        let mut random = Random::of_case(1, case);
        let mesh = meshes::any_mesh(&mut random, 2);
        let mut table = Table::with_room(30, 90, BLANK);
        if mesh.faces.len() > 36 || judge::build(&mut table, &mesh.points, &mesh.faces).answer != 0 {
            continue;
        }
        let mut judge = Judge::of(table);
        let mut script = Vec::new();
        for _ in 0..5 {
            let faces = (0..judge.table.corners).step_by(3).filter(|&c| judge.table.corner_is_live(c)).count();
            let found = (0..judge.table.corners).find(|&corner| judge.only_third_face(command(COLLAPSE, corner)));
            if let Some(corner) = found {
                if best.as_ref().is_none_or(|best| (faces, script.len()) < (best.0, best.1)) {
                    best = Some((faces, script.len(), mesh.clone(), script.clone(), corner));
                }
            }
            let tried = scripts::any_command(&mut random, &judge, [1, 6, 1, 1]);
            if judge.step(tried) == 0 {
                script.push(tried);
            }
        }
    }
    let (faces, _, mesh, script, corner) = best.expect("one is found");
    let mut judge = Judge::of(table_of(&mesh));
    script.iter().for_each(|&command| { judge.step(command); });
    let commands: Vec<[u32; 2]> = script.iter().map(|command| [command[0], command[1]]).collect();
    println!("third face alone, {faces} live faces: build {:?}, then {commands:?}, collapse {corner}", mesh.faces);
    tell("  it", judge, command(COLLAPSE, corner));
}
