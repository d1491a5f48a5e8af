//! R1 to R6, straight from document 01, "Well-formed": simple and slow on purpose. Nothing of it comes from the Rust, which has no
//! such checker.

use crate::table::*;
use std::collections::BTreeSet;

pub fn check(table: &Table) -> Checked {
    if !table.lengths_agree() {
        return Checked { answer: 1, rule: 0, slot: 0 };
    }
    match broken(table) {
        None => Checked { answer: 0, rule: 0, slot: 0 },
        Some((rule, slot)) => Checked { answer: 7, rule, slot },
    }
}

/// The lowest broken rule, and the lowest slot that breaks it. Each rule is asked only where the ones before it hold.
pub fn broken(table: &Table) -> Option<(u32, u32)> {
    let rules = [counts, marks, vertices, opposites, fans, points];
    (1..).zip(rules).find_map(|(rule, broken_at)| broken_at(table).map(|slot| (rule, slot)))
}

fn counts(t: &Table) -> Option<u32> {
    let within = t.vertices as usize <= t.vertex_room() && t.corners as usize <= t.corner_room();
    if within && t.corners % 3 == 0 { None } else { Some(0) }
}

fn marks(t: &Table) -> Option<u32> {
    let corner = &t.parts[CORNER_MARK];
    let vertex = &t.parts[VERTEX_MARK];
    let wrong_corner = (0..t.corners).find(|&c| corner[c as usize] > 1);
    let wrong_face = || first_corners(t).find(|&c| !all_equal(&corner[c as usize..c as usize + 3]));
    let wrong_vertex = || (0..t.vertices).find(|&v| vertex[v as usize] > 1);
    wrong_corner.or_else(wrong_face).or_else(wrong_vertex)
}

fn vertices(t: &Table) -> Option<u32> {
    let wrong_corner = live_corners(t).find(|&c| !t.vertex_is_live(t.vertex(c)));
    let wrong_face = || first_corners(t).find(|&c| t.corner_is_live(c) && !three_differ(t, c));
    wrong_corner.or_else(wrong_face)
}

fn opposites(t: &Table) -> Option<u32> {
    live_corners(t).find(|&c| t.opposite(c) != ABSENT && !are_opposite(t, c, t.opposite(c)))
}

fn are_opposite(t: &Table, c: u32, o: u32) -> bool {
    let edge = |c: u32| (t.vertex(next(c)), t.vertex(previous(c)));
    let turned = |(from, to): (u32, u32)| (to, from);
    t.corner_is_live(o) && t.opposite(o) == c && edge(o) == turned(edge(c))
}

fn fans(t: &Table) -> Option<u32> {
    let own = |v: u32| t.corner_is_live(t.corner(v)) && t.vertex(t.corner(v)) == v;
    let wrong_vertex = live_vertices(t).find(|&v| !own(v));
    wrong_vertex.or_else(|| outside_its_fan(t))
}

fn outside_its_fan(t: &Table) -> Option<u32> {
    let fans: Vec<BTreeSet<u32>> =
        (0..t.vertices).map(|v| if t.vertex_is_live(v) { fan(t, t.corner(v)) } else { BTreeSet::new() }).collect();
    live_corners(t).find(|&c| !fans[t.vertex(c) as usize].contains(&c))
}

/// All corners reached from a corner by swings either way.
fn fan(t: &Table, corner: u32) -> BTreeSet<u32> {
    let mut found = BTreeSet::from([corner]);
    let mut todo = vec![corner];
    while let Some(c) = todo.pop() {
        for turn in [next as fn(u32) -> u32, previous] {
            let over = t.opposite(turn(c));
            if over != ABSENT && found.insert(turn(over)) {
                todo.push(turn(over));
            }
        }
    }
    found
}

fn points(t: &Table) -> Option<u32> {
    live_vertices(t).find(|&v| !t.point(v as usize).iter().all(is_finite))
}

fn live_corners(t: &Table) -> impl Iterator<Item = u32> + '_ {
    (0..t.corners).filter(|&c| t.corner_is_live(c))
}

fn live_vertices(t: &Table) -> impl Iterator<Item = u32> + '_ {
    (0..t.vertices).filter(|&v| t.vertex_is_live(v))
}

fn first_corners(t: &Table) -> impl Iterator<Item = u32> + '_ {
    (0..t.corners).step_by(3)
}

fn all_equal(marks: &[u32]) -> bool {
    marks[0] == marks[1] && marks[1] == marks[2]
}

fn three_differ(t: &Table, c: u32) -> bool {
    let [a, b, d] = [t.vertex(c), t.vertex(c + 1), t.vertex(c + 2)];
    a != b && b != d && d != a
}
