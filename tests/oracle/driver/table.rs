//! A table as it is lent: six parts and two counts; and the numbers that the calls hand back.

pub const ABSENT: u32 = u32::MAX;

/// The parts, numbered as in the stored list.
pub const CORNER_VERTEX: usize = 0;
pub const CORNER_OPPOSITE: usize = 1;
pub const CORNER_MARK: usize = 2;
pub const VERTEX_CORNER: usize = 3;
pub const VERTEX_MARK: usize = 4;
pub const VERTEX_POINT: usize = 5;

pub const PART_NAMES: [&str; 6] =
    ["corner_vertex", "corner_opposite", "corner_mark", "vertex_corner", "vertex_mark", "vertex_point"];

/// What a slot holds that no build has used.
pub const BLANK: [u32; 6] = [0, ABSENT, 0, ABSENT, 0, 0];

pub const MOST_VERTICES: usize = 65_535;
pub const MOST_CORNERS: usize = 196_605;

/// Points are held as the bits of their numbers, so that equal means equal bits.
#[derive(Clone, PartialEq, Debug)]
pub struct Table {
    pub parts: [Vec<u32>; 6],
    pub vertices: u32,
    pub corners: u32,
}

impl Table {
    pub fn with_lengths(lengths: [usize; 6], fills: [u32; 6]) -> Table {
        let parts = std::array::from_fn(|part| vec![fills[part]; lengths[part]]);
        Table { parts, vertices: 0, corners: 0 }
    }

    pub fn with_room(vertices: usize, corners: usize, fills: [u32; 6]) -> Table {
        Table::with_lengths(lengths(vertices, corners), fills)
    }

    pub fn vertex_room(&self) -> usize {
        self.parts[VERTEX_CORNER].len()
    }

    pub fn corner_room(&self) -> usize {
        self.parts[CORNER_VERTEX].len()
    }

    /// Answer 1 is for tables that are not this.
    pub fn lengths_agree(&self) -> bool {
        let found: [usize; 6] = std::array::from_fn(|part| self.parts[part].len());
        found == lengths(self.vertex_room(), self.corner_room())
            && self.vertex_room() <= MOST_VERTICES
            && self.corner_room() <= MOST_CORNERS
    }

    pub fn blank(&mut self) {
        for part in 0..6 {
            self.parts[part].fill(BLANK[part]);
        }
        self.vertices = 0;
        self.corners = 0;
    }

    pub fn used_vertices(&self) -> usize {
        self.vertex_room().min(self.vertices as usize)
    }

    pub fn used_corners(&self) -> usize {
        self.corner_room().min(self.corners as usize)
    }

    pub fn corner_is_used(&self, corner: u32) -> bool {
        (corner as usize) < self.used_corners()
    }

    pub fn corner_is_live(&self, corner: u32) -> bool {
        self.corner_is_used(corner) && self.parts[CORNER_MARK][corner as usize] == 0
    }

    pub fn vertex_is_used(&self, vertex: u32) -> bool {
        (vertex as usize) < self.used_vertices()
    }

    pub fn vertex_is_live(&self, vertex: u32) -> bool {
        self.vertex_is_used(vertex) && self.parts[VERTEX_MARK][vertex as usize] == 0
    }

    pub fn vertex(&self, corner: u32) -> u32 {
        self.parts[CORNER_VERTEX][corner as usize]
    }

    pub fn opposite(&self, corner: u32) -> u32 {
        self.parts[CORNER_OPPOSITE][corner as usize]
    }

    /// The corner that a vertex slot names.
    pub fn corner(&self, vertex: u32) -> u32 {
        self.parts[VERTEX_CORNER][vertex as usize]
    }

    pub fn point(&self, vertex: usize) -> [u32; 3] {
        std::array::from_fn(|k| self.parts[VERTEX_POINT][3 * vertex + k])
    }
}

pub fn lengths(vertices: usize, corners: usize) -> [usize; 6] {
    [corners, corners, corners, vertices, vertices, 3 * vertices]
}

pub fn next(corner: u32) -> u32 {
    if corner % 3 == 2 { corner - 2 } else { corner + 1 }
}

pub fn previous(corner: u32) -> u32 {
    if corner % 3 == 0 { corner + 2 } else { corner - 1 }
}

pub fn is_finite(bits: &u32) -> bool {
    f32::from_bits(*bits).is_finite()
}

#[repr(C)]
#[derive(Clone, Copy, PartialEq, Debug)]
pub struct Built {
    pub answer: u32,
    pub vertices: u32,
    pub corners: u32,
    pub skipped: usize,
}

#[repr(C)]
#[derive(Clone, Copy, PartialEq, Debug)]
pub struct Checked {
    pub answer: u32,
    pub rule: u32,
    pub slot: u32,
}

#[repr(C)]
#[derive(Clone, Copy, PartialEq, Debug)]
pub struct Ran {
    pub answer: u32,
    pub rule: u32,
    pub slot: u32,
    pub vertices: u32,
    pub corners: u32,
}

#[repr(C)]
#[derive(Clone, Copy, PartialEq, Debug)]
pub struct Listed {
    pub answer: u32,
    pub visited: u32,
    pub written: u32,
}

#[repr(C)]
#[derive(Clone, Copy, PartialEq, Debug)]
pub struct Moved {
    pub answer: u32,
    pub moved: u32,
}

pub const RING_NAMES: [&str; 5] = ["corners", "vertices", "faces", "edges", "bounding edges"];
pub const MOVE_NAMES: [&str; 5] = ["next", "previous", "opposite", "swing left", "swing right"];
