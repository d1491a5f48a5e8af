//! Random commands, biased so that many are done and every refusal occurs.

use crate::judge::*;
use crate::meshes::{finite_bits, NOT_FINITE};
use crate::random::Random;

/// How often each kind is tried, 1 to 4: mixed, shrinking, growing, flipping, faces alone.
const MOODS: [[usize; 4]; 5] = [[3, 3, 2, 2], [8, 3, 1, 0], [1, 1, 4, 4], [1, 8, 1, 1], [4, 2, 0, 4]];

pub fn any_mood(random: &mut Random) -> [usize; 4] {
    random.pick(&MOODS)
}

/// A command for the table as it stands. Most of the time the first of a few that would be done.
pub fn any_command(random: &mut Random, judge: &Judge, mood: [usize; 4]) -> Command {
    let tries = if random.once_in(4) { 1 } else { 4 };
    let mut command = draw(random, judge, mood);
    for _ in 1..tries {
        if judge.answer(command) == 0 {
            break;
        }
        command = draw(random, judge, mood);
    }
    command
}

fn draw(random: &mut Random, judge: &Judge, mood: [usize; 4]) -> Command {
    let kind = any_kind(random, mood);
    let target = any_target(random, judge, kind);
    let mut command = [kind, target, finite_bits(random), finite_bits(random), finite_bits(random)];
    if random.once_in(40) || (kind == FLIP && random.once_in(4)) {
        command[2 + random.below(3)] = random.pick(&NOT_FINITE);
    }
    command
}

fn any_kind(random: &mut Random, mood: [usize; 4]) -> u32 {
    if random.once_in(100) {
        let word = random.word();
        return random.pick(&[0, 5, 6, u32::MAX, word]);
    }
    let mut left = random.below(mood.iter().sum());
    for (kind, often) in (1..).zip(mood) {
        if left < often {
            return kind;
        }
        left -= often;
    }
    unreachable!()
}

fn any_target(random: &mut Random, judge: &Judge, kind: u32) -> u32 {
    let limit = if kind == SPLIT_FACE { judge.table.corners / 3 } else { judge.table.corners };
    if limit == 0 || random.once_in(40) {
        let word = random.word();
        return random.pick(&[limit, limit + 1, u32::MAX, 0x5555_5555, 0x5555_5556, word]);
    }
    let is_live = |target: u32| judge.table.corner_is_live(if kind == SPLIT_FACE { 3 * target } else { target });
    let mut target = random.below(limit as usize) as u32;
    for _ in 0..8 {
        if is_live(target) || random.once_in(20) {
            break;
        }
        target = random.below(limit as usize) as u32;
    }
    target
}
