//! Writes the stored list: each method asks the judge, and puts down the call and what it must give (crates/vectors reads it).

use crate::judge::{self, Judge};
use crate::meshes::Mesh;
use crate::rules;
use crate::table::*;

const ROOMS: u32 = 1;
const COUNTS: u32 = 2;
const PUT: u32 = 3;
const BUILD: u32 = 4;
const CHECK: u32 = 5;
const RUN: u32 = 6;
const RING: u32 = 7;
const MOVE: u32 = 8;
const SLOTS: u32 = 9;

/// What lent memory holds before a call, part by part: values that no call would write there.
pub const FILLS: [u32; 6] = [0xf000_0001, 0xf000_0002, 0xf000_0003, 0xf000_0004, 0xf000_0005, 0x4b00_0007];
const ANSWER_FILL: u32 = 0xaaaa_0001;
const LIST_FILL: u32 = 0xbbbb_0002;

pub struct Recorder {
    pub table: Table,
    pub words: Vec<u32>,
    /// How often each answer was given.
    pub answers: [usize; 17],
}

impl Recorder {
    pub fn new() -> Recorder {
        Recorder { table: Table::with_room(0, 0, FILLS), words: Vec::new(), answers: [0; 17] }
    }

    fn record(&mut self, op: u32, words: &[u32]) {
        self.words.extend([op, words.len() as u32]);
        self.words.extend_from_slice(words);
    }

    fn count(&mut self, answer: u32) {
        self.answers[answer as usize] += 1;
    }

    pub fn lengths(&mut self, lengths: [usize; 6]) {
        self.table = Table::with_lengths(lengths, FILLS);
        let pairs: Vec<u32> = (0..6).flat_map(|part| [lengths[part] as u32, FILLS[part]]).collect();
        self.record(ROOMS, &pairs);
    }

    pub fn room(&mut self, vertices: usize, corners: usize) {
        self.lengths(lengths(vertices, corners));
    }

    pub fn counts(&mut self, vertices: u32, corners: u32) {
        (self.table.vertices, self.table.corners) = (vertices, corners);
        self.record(COUNTS, &[vertices, corners]);
    }

    pub fn put(&mut self, part: usize, index: usize, value: u32) {
        self.table.parts[part][index] = value;
        self.record(PUT, &[part as u32, index as u32, value]);
    }

    pub fn build(&mut self, mesh: &Mesh) -> Built {
        let built = judge::build(&mut self.table, &mesh.points, &mesh.faces);
        self.count(built.answer);
        let mut words = vec![built.answer, built.skipped as u32, built.vertices, built.corners, mesh.points.len() as u32];
        words.extend(&mesh.points);
        words.extend(&mesh.faces);
        self.record(BUILD, &words);
        built
    }

    pub fn check(&mut self) -> Checked {
        let checked = rules::check(&self.table);
        self.count(checked.answer);
        self.record(CHECK, &[checked.answer, checked.rule, checked.slot]);
        checked
    }

    /// Runs a script with room for `room` answers; gives them.
    pub fn run_with_room(&mut self, script: &[u32], room: usize) -> (Ran, Vec<u32>) {
        let mut judge = Judge::of(self.table.clone());
        let mut answers = vec![ANSWER_FILL; room];
        let ran = judge.run(script, &mut answers);
        self.table = judge.table;
        self.count(ran.answer);
        answers.iter().filter(|&&answer| answer != ANSWER_FILL).for_each(|&answer| self.answers[answer as usize] += 1);
        let mut words = vec![ran.answer, ran.rule, ran.slot, ran.vertices, ran.corners, script.len() as u32];
        words.extend(script);
        words.extend([room as u32, ANSWER_FILL]);
        words.extend(&answers);
        self.record(RUN, &words);
        (ran, answers)
    }

    /// Runs commands with room for one answer too many; gives the answers.
    pub fn run(&mut self, commands: &[judge::Command]) -> Vec<u32> {
        let (_, mut answers) = self.run_with_room(&commands.concat(), commands.len() + 1);
        answers.pop();
        answers
    }

    pub fn ring(&mut self, kind: usize, vertex: u32, room: usize) -> Listed {
        let mut list = vec![LIST_FILL; room];
        let listed = Judge::of(self.table.clone()).ring(kind, vertex, &mut list);
        self.count(listed.answer);
        let mut words = vec![kind as u32, vertex, listed.answer, listed.visited, listed.written, room as u32, LIST_FILL];
        words.extend(&list[..listed.written as usize]);
        self.record(RING, &words);
        listed
    }

    pub fn walk(&mut self, kind: usize, corner: u32) -> Moved {
        let mut after = corner;
        let moved = Judge::of(self.table.clone()).walk(kind, &mut after);
        self.count(moved.answer);
        self.record(MOVE, &[kind as u32, corner, moved.answer, moved.moved, after]);
        moved
    }

    /// The whole of all six parts: words, then one that fills the rest.
    pub fn slots(&mut self) {
        let mut words = Vec::new();
        for part in 0..6 {
            let one = |&word: &u32| if part == VERTEX_POINT { one_nan(word) } else { word };
            let all: Vec<u32> = self.table.parts[part].iter().map(one).collect();
            let rest = all.last().copied().unwrap_or(0);
            let told = all.iter().rposition(|&word| word != rest).map_or(0, |last| last + 1);
            words.extend([rest, told as u32]);
            words.extend(&all[..told]);
        }
        self.record(SLOTS, &words);
    }
}

/// The replay knows one NaN.
fn one_nan(bits: u32) -> u32 {
    if f32::from_bits(bits).is_nan() { 0x7fc0_0000 } else { bits }
}
