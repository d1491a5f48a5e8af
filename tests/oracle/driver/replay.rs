//! Replays the stored list with the static library:  replay FILE
//!
//! A second reader of the list's form, beside the Rattle program `vectors`: what it refuses is a fault of the list or of the library.
#![allow(dead_code)]

mod library;
mod table;

use library::{Lent, Memory};
use table::*;

const HEAD_BYTES: usize = 1024;

fn main() {
    let file = std::env::args().nth(1).expect("replay FILE");
    let bytes = std::fs::read(&file).expect("the file can be read");
    assert!(bytes[..HEAD_BYTES].is_ascii() && bytes[HEAD_BYTES - 1] == b'\n');
    let words: Vec<u32> = bytes[HEAD_BYTES..].chunks_exact(4).map(|four| u32::from_le_bytes(four.try_into().unwrap())).collect();
    let mut lent = Lent::of(&Table::with_room(0, 0, [0; 6]));
    let (mut at, mut records) = (0, 0);
    while at < words.len() {
        let (op, length) = (words[at], words[at + 1] as usize);
        let record = &words[at + 2..at + 2 + length];
        if !replay(&mut lent, op, record) {
            println!("DIFFERENT: record {records} at word {at}: op {op}, {record:?}");
            std::process::exit(1);
        }
        at += 2 + length;
        records += 1;
    }
    println!("{records} records replayed, no difference");
}

fn replay(lent: &mut Lent, op: u32, words: &[u32]) -> bool {
    match op {
        1 => rooms(lent, words),
        2 => { (lent.vertices, lent.corners) = (words[0], words[1]); words.len() == 2 }
        3 => { lent.parts[words[0] as usize].put(words[1] as usize, words[2]); words.len() == 3 }
        4 => build(lent, words),
        5 => lent.check() == Checked { answer: words[0], rule: words[1], slot: words[2] },
        6 => run(lent, words),
        7 => ring(lent, words),
        8 => walk(lent, words),
        9 => slots(lent, words),
        _ => false,
    }
}

fn rooms(lent: &mut Lent, words: &[u32]) -> bool {
    let table = Table::with_lengths(std::array::from_fn(|k| words[2 * k] as usize), std::array::from_fn(|k| words[2 * k + 1]));
    *lent = Lent::of(&table);
    words.len() == 12
}

fn build(lent: &mut Lent, words: &[u32]) -> bool {
    let (points, faces) = words[5..].split_at(words[4] as usize);
    let built = lent.build(&mut Memory::of(points), &mut Memory::of(faces));
    built == Built { answer: words[0], skipped: words[1] as usize, vertices: words[2], corners: words[3] }
}

fn run(lent: &mut Lent, words: &[u32]) -> bool {
    let (script, rest) = words[6..].split_at(words[5] as usize);
    let (room, fill, wanted) = (rest[0] as usize, rest[1], &rest[2..]);
    let mut answers = Memory::of(&vec![fill; room]);
    let ran = lent.run(&mut Memory::of(script), &mut answers);
    let expected = Ran { answer: words[0], rule: words[1], slot: words[2], vertices: words[3], corners: words[4] };
    ran == expected && answers.words() == wanted && answers.guards_stand()
}

fn ring(lent: &mut Lent, words: &[u32]) -> bool {
    let (room, fill, entries) = (words[5] as usize, words[6], &words[7..]);
    let mut wanted = entries.to_vec();
    wanted.resize(room, fill);
    let mut list = Memory::of(&vec![fill; room]);
    let listed = lent.ring(words[0] as usize, words[1], &mut list);
    let expected = Listed { answer: words[2], visited: words[3], written: words[4] };
    listed == expected && list.words() == wanted && list.guards_stand()
}

fn walk(lent: &mut Lent, words: &[u32]) -> bool {
    let mut corner = words[1];
    let moved = lent.walk(words[0] as usize, &mut corner);
    moved == Moved { answer: words[2], moved: words[3] } && corner == words[4]
}

fn slots(lent: &mut Lent, words: &[u32]) -> bool {
    let mut left = words;
    for (part, memory) in lent.parts.iter().enumerate() {
        let (rest, told) = (left[0], left[1] as usize);
        let mut wanted = left[2..2 + told].to_vec();
        wanted.resize(memory.len(), rest);
        let nan = |word: u32| if part == VERTEX_POINT && f32::from_bits(word).is_nan() { 0x7fc0_0000 } else { word };
        let found: Vec<u32> = memory.words().iter().map(|&word| nan(word)).collect();
        if found != wanted || !memory.guards_stand() {
            return false;
        }
        left = &left[2 + told..];
    }
    left.is_empty()
}
