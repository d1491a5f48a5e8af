//! Damage to a table's slots: harmless, harmful, or both at once.

use crate::meshes::NOT_FINITE;
use crate::random::Random;
use crate::table::*;

/// Changes one to four slots or counts, or breaks one rule in two ways.
pub fn damage(random: &mut Random, table: &mut Table) {
    if random.once_in(8) && table.corners > 0 && table.used_vertices() > 0 {
        return break_twice(random, table);
    }
    let times = if random.once_in(2) { 1 } else { random.within(2, 4) };
    for _ in 0..times {
        damage_once(random, table);
    }
}

fn damage_once(random: &mut Random, table: &mut Table) {
    match random.below(14) {
        0 => table.vertices = near(random, table.vertices, table.vertex_room()),
        1 => table.corners = near(random, table.corners, table.corner_room()),
        2 => swap_opposites(random, table),
        3 => unpair(random, table),
        4 => move_vertex_corner(random, table),
        5 | 6 => delete_face(random, table),
        _ => {
            let part = random.below(6);
            damage_slot(random, table, part);
        }
    }
}

/// Two of the ways to break R2, or R3, or R5: the checker has an order for them.
fn break_twice(random: &mut Random, table: &mut Table) {
    let corner = random.below(table.used_corners().max(1));
    let vertex = random.below(table.used_vertices());
    let other = random.below(table.used_corners().max(1));
    match random.below(5) {
        0 => { set(table, CORNER_MARK, corner, 1); set(table, VERTEX_MARK, vertex, 2); }
        1 => { set(table, CORNER_MARK, corner, 2); set(table, VERTEX_MARK, vertex, 3); }
        2 => { set(table, CORNER_MARK, corner, 1); set(table, CORNER_MARK, other, 2); }
        3 => {
            let beside = table.parts[CORNER_VERTEX].get(next(corner as u32) as usize).copied().unwrap_or(0);
            set(table, CORNER_VERTEX, corner, beside);
            let unused = table.vertices;
            set(table, CORNER_VERTEX, other, unused);
        }
        _ => { unpair(random, table); set(table, VERTEX_CORNER, vertex, other as u32); }
    }
}

fn set(table: &mut Table, part: usize, slot: usize, value: u32) {
    if let Some(word) = table.parts[part].get_mut(slot) {
        *word = value;
    }
}

/// A few faces whose opposites are any corners: most walks are tangled, some just end.
pub fn tangle(random: &mut Random) -> Table {
    let corners = 3 * random.within(1, 3);
    let mut table = Table::with_room(corners, corners, BLANK);
    for c in 0..corners {
        let opposite = random.below(corners) as u32;
        table.parts[CORNER_OPPOSITE][c] = random.pick(&[opposite, opposite, ABSENT]);
        table.parts[CORNER_VERTEX][c] = random.below(corners) as u32;
        table.parts[VERTEX_CORNER][c] = c as u32;
    }
    (table.vertices, table.corners) = (corners as u32, corners as u32);
    table
}

fn near(random: &mut Random, count: u32, room: usize) -> u32 {
    let room = room as u32;
    let below = random.below(count as usize + 1) as u32;
    let more = |by: u32| count.saturating_add(by);
    random.pick(&[more(1), more(3), count.saturating_sub(1), count.saturating_sub(3), below, room, room + 1, u32::MAX])
}

fn damage_slot(random: &mut Random, table: &mut Table, part: usize) {
    let length = table.parts[part].len();
    let used = if part < 3 { table.used_corners() } else { table.used_vertices() * if part == VERTEX_POINT { 3 } else { 1 } };
    if length == 0 {
        return;
    }
    let slot = if used == 0 || random.once_in(20) { random.below(length) } else { random.below(used) };
    table.parts[part][slot] = any_value(random, table, part);
}

fn any_value(random: &mut Random, table: &Table, part: usize) -> u32 {
    let corner = random.below(table.corners.max(1) as usize) as u32;
    let vertex = random.below(table.vertices.max(1) as usize) as u32;
    let word = random.word();
    match part {
        CORNER_VERTEX => random.pick(&[vertex, vertex, vertex, table.vertices, u32::MAX, word]),
        CORNER_OPPOSITE => random.pick(&[corner, corner, corner, ABSENT, ABSENT, table.corners, u32::MAX - 1, u32::MAX - 2, word]),
        VERTEX_CORNER => random.pick(&[corner, corner, corner, ABSENT, table.corners, u32::MAX - 1, word]),
        VERTEX_POINT => random.pick(&NOT_FINITE),
        _ => random.pick(&[0, 1, 1, 2, u32::MAX, word]),
    }
}

/// Two corners exchange their opposites.
fn swap_opposites(random: &mut Random, table: &mut Table) {
    let used = table.used_corners();
    if used > 0 {
        let (one, other) = (random.below(used), random.below(used));
        table.parts[CORNER_OPPOSITE].swap(one, other);
    }
}

/// A pair of opposites comes apart: R4 still holds, R5 may not.
fn unpair(random: &mut Random, table: &mut Table) {
    let used = table.used_corners();
    if used == 0 {
        return;
    }
    let one = random.below(used);
    let other = table.parts[CORNER_OPPOSITE][one] as usize;
    table.parts[CORNER_OPPOSITE][one] = ABSENT;
    if other < used {
        table.parts[CORNER_OPPOSITE][other] = ABSENT;
    }
}

/// A vertex names another of its corners: harmless.
fn move_vertex_corner(random: &mut Random, table: &mut Table) {
    let used = table.used_corners();
    if used == 0 {
        return;
    }
    let corner = random.below(used) as u32;
    let vertex = table.vertex(corner);
    if table.vertex_is_used(vertex) && table.corner_is_live(corner) {
        table.parts[VERTEX_CORNER][vertex as usize] = corner;
    }
}

/// All three marks of a face.
fn delete_face(random: &mut Random, table: &mut Table) {
    let faces = table.used_corners() / 3;
    if faces > 0 {
        let first = 3 * random.below(faces);
        let mark = random.pick(&[1, 1, 0, 2]);
        table.parts[CORNER_MARK][first..first + 3].fill(mark);
    }
}

/// Garbage in slots that no rule speaks of: deleted ones and unused ones. The table stays as well-formed as it was.
pub fn soil(random: &mut Random, table: &mut Table) {
    for c in 0..table.corner_room() as u32 {
        if !table.corner_is_live(c) && random.once_in(2) {
            table.parts[CORNER_VERTEX][c as usize] = random.word();
            table.parts[CORNER_OPPOSITE][c as usize] = random.word();
            if !table.corner_is_used(c) {
                table.parts[CORNER_MARK][c as usize] = random.word();
            }
        }
    }
    for v in 0..table.vertex_room() as u32 {
        if !table.vertex_is_live(v) && random.once_in(2) {
            table.parts[VERTEX_CORNER][v as usize] = random.word();
            for k in 0..3 {
                table.parts[VERTEX_POINT][3 * v as usize + k] = random.pick(&NOT_FINITE);
            }
            if !table.vertex_is_used(v) {
                table.parts[VERTEX_MARK][v as usize] = random.word();
            }
        }
    }
}

/// One part gets a length of its own.
pub fn make_uneven(random: &mut Random, table: &mut Table) {
    let part = random.below(6);
    let length = table.parts[part].len();
    let changed = random.pick(&[length + 1, length.saturating_sub(1), 0, length + 3, length / 2]);
    table.parts[part].resize(changed, 0);
}
