//! Meshes: the small ones of document 01, and random ones of every shape.

use crate::random::Random;

type Face = [u32; 3];

#[derive(Clone, Debug)]
pub struct Mesh {
    /// The bits of the numbers.
    pub points: Vec<u32>,
    pub faces: Vec<u32>,
}

impl Mesh {
    /// Point k lies at (k, 0, 0).
    pub fn plain(points: u32, faces: &[Face]) -> Mesh {
        let numbers = (0..points).flat_map(|k| [(k as f32).to_bits(), 0, 0]).collect();
        Mesh { points: numbers, faces: faces.concat() }
    }

    pub fn points_count(&self) -> usize {
        self.points.len() / 3
    }
}

// ---- document 01, "Small meshes to compare"

pub fn a() -> Mesh { Mesh::plain(3, &[[0, 1, 2]]) }
pub fn b() -> Mesh { Mesh::plain(4, &[[0, 1, 2], [0, 2, 3]]) }
pub fn t() -> Mesh { Mesh::plain(4, &TETRAHEDRON) }
pub fn two_fans() -> Mesh { Mesh::plain(5, &[[0, 1, 2], [0, 3, 4]]) }
pub fn skipped() -> Mesh { Mesh::plain(4, &[[0, 1, 2], [0, 1, 3]]) }
pub fn empty() -> Mesh { Mesh::plain(0, &[]) }

const TETRAHEDRON: [Face; 4] = [[0, 1, 2], [0, 2, 3], [0, 3, 1], [1, 3, 2]];

// ---- shapes: how many vertices, and the faces over them

struct Shape {
    vertices: u32,
    faces: Vec<Face>,
}

/// A grid, or with `around` a torus; each cell has a diagonal either way.
fn grid(random: &mut Random, width: u32, height: u32, around: bool) -> Shape {
    let (columns, rows) = if around { (width, height) } else { (width + 1, height + 1) };
    let at = |x: u32, y: u32| (x % columns) + columns * (y % rows);
    let mut faces = Vec::new();
    for y in 0..height {
        for x in 0..width {
            let [p, q, r, s] = [at(x, y), at(x + 1, y), at(x + 1, y + 1), at(x, y + 1)];
            faces.extend(if random.once_in(2) { [[p, q, r], [p, r, s]] } else { [[p, q, s], [q, r, s]] });
        }
    }
    Shape { vertices: columns * rows, faces }
}

/// Two sheets back to back that share their border.
fn doubled_grid(random: &mut Random, width: u32, height: u32) -> Shape {
    let front = grid(random, width, height, false);
    let columns = width + 1;
    let on_border = |v: u32| v % columns == 0 || v % columns == width || v < columns || v / columns == height;
    let back = |v: u32| if on_border(v) { v } else { v + front.vertices };
    let mut faces = front.faces.clone();
    faces.extend(front.faces.iter().map(|&[p, q, r]| [back(p), back(r), back(q)]));
    Shape { vertices: 2 * front.vertices, faces }
}

fn tetrahedron() -> Shape {
    Shape { vertices: 4, faces: TETRAHEDRON.to_vec() }
}

/// Two faces back to back.
fn pillow() -> Shape {
    Shape { vertices: 3, faces: vec![[0, 1, 2], [0, 2, 1]] }
}

fn bipyramid(sides: u32) -> Shape {
    let side = |k: u32| 2 + k % sides;
    let faces = (0..sides).flat_map(|k| [[0, side(k), side(k + 1)], [1, side(k + 1), side(k)]]).collect();
    Shape { vertices: sides + 2, faces }
}

/// So many fans, each open or closed, all at vertex 0.
fn fans(random: &mut Random, count: usize) -> Shape {
    let mut shape = Shape { vertices: 1, faces: Vec::new() };
    for _ in 0..count {
        let sides = random.within(1, 6) as u32;
        let first = shape.vertices;
        let closed = sides > 2 && random.once_in(2);
        shape.vertices += if closed { sides } else { sides + 1 };
        let side = |k: u32| if closed { first + k % sides } else { first + k };
        shape.faces.extend((0..sides).map(|k| [0, side(k), side(k + 1)]));
    }
    shape
}

fn strip(length: u32) -> Shape {
    let faces = (0..length).map(|k| if k % 2 == 0 { [k, k + 1, k + 2] } else { [k + 1, k, k + 2] }).collect();
    Shape { vertices: length + 2, faces }
}

/// Any faces over a few vertices: skipped faces, shared vertices, edges of every kind.
fn any_faces(random: &mut Random) -> Shape {
    let vertices = random.within(3, 9);
    let mut faces = Vec::new();
    for _ in 0..random.within(1, 30) {
        let mut three: Vec<u32> = (0..vertices as u32).collect();
        random.shuffle(&mut three);
        faces.push([three[0], three[1], three[2]]);
    }
    Shape { vertices: vertices as u32, faces }
}

fn any_shape(random: &mut Random, side: u32) -> Shape {
    let mut size = |least: u32| random.within(least as usize, side.max(least) as usize) as u32;
    let (width, height) = (size(1), size(1));
    match random.below(10) {
        0 => grid(random, width, height, false),
        1 => grid(random, width.max(2), height.max(2), true),
        2 => grid(random, width.max(3), height.max(3), true),
        3 => doubled_grid(random, width, height),
        4 => tetrahedron(),
        5 => pillow(),
        6 => bipyramid(width + 1),
        7 => {
            let count = random.within(1, 4);
            fans(random, count)
        }
        8 => strip(width * 2),
        _ => any_faces(random),
    }
}

// ---- random meshes

/// Mostly small; `side` limits the sides of grids.
pub fn any_mesh(random: &mut Random, side: u32) -> Mesh {
    let mut shape = any_shape(random, side);
    while random.once_in(4) {
        let other = any_shape(random, side);
        join(random, &mut shape, other);
    }
    spoil_faces(random, &mut shape);
    finish(random, shape)
}

/// One vertex with very many faces, or with very many fans.
pub fn crowded(random: &mut Random) -> Mesh {
    let count = random.within(50, 300);
    let mut shape = if random.once_in(2) { bipyramid(count as u32) } else { fans(random, count) };
    spoil_faces(random, &mut shape);
    finish(random, shape)
}

/// A closed mesh of exactly 1,024 points and 2,048 faces: a full patch.
pub fn full_patch(random: &mut Random) -> Mesh {
    let shape = grid(random, 32, 32, true);
    finish(random, shape)
}

/// More than a patch holds, with a border or without.
pub fn beyond_a_patch(random: &mut Random) -> Mesh {
    let (width, height, around) = (random.within(40, 60) as u32, random.within(40, 60) as u32, random.once_in(2));
    let shape = grid(random, width, height, around);
    finish(random, shape)
}

/// Nearly all that the largest room holds.
pub fn huge(random: &mut Random) -> Mesh {
    let shape = grid(random, 180, 180, false);
    finish(random, shape)
}

/// Puts two shapes beside each other, sometimes with a vertex or two in common.
fn join(random: &mut Random, shape: &mut Shape, other: Shape) {
    let mut number: Vec<u32> = (0..other.vertices).map(|v| v + shape.vertices).collect();
    while random.once_in(2) {
        let common = random.below(number.len());
        number[common] = random.below(shape.vertices as usize) as u32;
    }
    shape.faces.extend(other.faces.iter().map(|face| face.map(|v| number[v as usize])));
    shape.vertices += other.vertices;
}

/// Drops, turns and repeats a few faces, merges vertices, adds vertices without a face.
fn spoil_faces(random: &mut Random, shape: &mut Shape) {
    while random.once_in(3) && !shape.faces.is_empty() {
        let k = random.below(shape.faces.len());
        let face = shape.faces[k];
        match random.below(5) {
            0 | 1 => { shape.faces.swap_remove(k); }
            2 => shape.faces[k].swap(0, 1),
            3 => shape.faces.push(face),
            _ => merge(random, shape),
        }
    }
    while random.once_in(4) {
        shape.vertices += 1;
    }
}

/// Two vertices become one, unless a face would then repeat it.
fn merge(random: &mut Random, shape: &mut Shape) {
    let gone = random.below(shape.vertices as usize) as u32;
    let kept = random.below(shape.vertices as usize) as u32;
    if !shape.faces.iter().any(|face| face.contains(&gone) && face.contains(&kept)) {
        for v in shape.faces.iter_mut().flatten().filter(|v| **v == gone) {
            *v = kept;
        }
    }
}

/// Numbers the vertices anew, shuffles and rotates the faces (or leaves their order), and gives every vertex a point.
fn finish(random: &mut Random, mut shape: Shape) -> Mesh {
    if random.once_in(2) {
        let mut number: Vec<u32> = (0..shape.vertices).collect();
        random.shuffle(&mut number);
        shape.faces.iter_mut().flatten().for_each(|v| *v = number[*v as usize]);
        random.shuffle(&mut shape.faces);
    }
    for face in &mut shape.faces {
        face.rotate_left(random.below(3));
    }
    let points = (0..3 * shape.vertices).map(|_| finite_bits(random)).collect();
    Mesh { points, faces: shape.faces.concat() }
}

// ---- numbers

pub const NOT_FINITE: [u32; 6] = [0x7f80_0000, 0xff80_0000, 0x7fc0_0000, 0xffc0_0000, 0x7f80_0001, 0x7fff_ffff];

pub fn finite_bits(random: &mut Random) -> u32 {
    match random.below(8) {
        0 => random.pick(&[0, 0x8000_0000, 1, 0x8000_0001, 0x7f7f_ffff, 0xff7f_ffff, 0x0080_0000]),
        1 => random.word() & 0xbf7f_ffff, // any sign and fraction, no exponent of all ones
        _ => (random.below(2001) as f32 / 8.0 - 100.0).to_bits(),
    }
}

/// Spoils the input of a build now and then: one in `times`.
pub fn spoil_input(random: &mut Random, mesh: &mut Mesh, times: usize) {
    if !random.once_in(times) {
        return;
    }
    let count = mesh.points_count() as u32;
    let place = |random: &mut Random, list: &[u32]| random.below(list.len().max(1));
    match random.below(6) {
        0 => mesh.faces.extend((0..random.within(1, 2)).map(|_| 77)), // ignored
        1 => mesh.points.extend((0..random.within(1, 2)).map(|_| 0)), // 1
        2 | 3 if !mesh.faces.is_empty() => {
            let at = place(random, &mesh.faces);
            let least = if random.once_in(2) { count } else { count + random.below(9) as u32 };
            mesh.faces[at] = random.pick(&[least, u32::MAX, least]); // 2
        }
        4 if mesh.faces.len() > 2 => {
            let face = 3 * random.below(mesh.faces.len() / 3);
            mesh.faces[face + random.below(3)] = mesh.faces[face]; // 3, often
        }
        _ if !mesh.points.is_empty() => {
            let (any, last) = (place(random, &mesh.points), mesh.points.len() - 1);
            let at = random.pick(&[0, any, any, last]);
            mesh.points[at] = random.pick(&NOT_FINITE); // 4
        }
        _ => {}
    }
}
