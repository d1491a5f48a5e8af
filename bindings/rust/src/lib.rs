//! A proved mesh editor over a corner table, for one patch of at most 65,535 vertices: build, check, edit, walk.
//!
//! ```
//! use strandomir::{Answer, Corner, Edit, Table, Vertex};
//!
//! let mut table = Table::with_room(64, 192)?;
//! let skipped = table.build(&[[0.0, 0.0, 0.0], [1.0, 0.0, 0.0], [1.0, 1.0, 0.0], [0.0, 1.0, 0.0]], &[[0, 1, 2], [0, 2, 3]])?;
//! assert_eq!(skipped, 0);
//!
//! let answers = table.run(&[Edit::FlipEdge(Corner(0)), Edit::FlipEdge(Corner(1))]);
//! assert_eq!(answers, [Answer::Border, Answer::Done]);
//! println!("{}", answers[0]); // the edge lies on the border, or ends there
//! assert_eq!(table.faces().count(), 2);
//! # Ok::<(), Answer>(())
//! ```
//!
//! A [`Table`] owns its buffers and is well-formed at all times, so its rings are never tangled and its scripts never refused as a whole. The
//! work is done by libstrandomir.a, where each function is proved to meet its contract; this crate only lends it memory.

#![deny(unsafe_code, missing_docs)]

mod answer;
#[allow(unsafe_code, missing_docs)]
mod raw;

pub use answer::{Answer, Broken};

/// The largest room for vertices.
pub const MAX_VERTICES: usize = 65_535;
/// The largest room for corners.
pub const MAX_CORNERS: usize = 196_605;

/// No corner, in the slots of [`Parts`].
pub const ABSENT: u32 = u32::MAX;

/// The number of a corner. An edge is named by the corner opposite to it.
#[derive(Clone, Copy, Debug, PartialEq, Eq, PartialOrd, Ord, Hash)]
pub struct Corner(pub u32);

/// The number of a face.
#[derive(Clone, Copy, Debug, PartialEq, Eq, PartialOrd, Ord, Hash)]
pub struct Face(pub u32);

/// The number of a vertex.
#[derive(Clone, Copy, Debug, PartialEq, Eq, PartialOrd, Ord, Hash)]
pub struct Vertex(pub u32);

impl Corner {
    /// The face that the corner is of.
    pub fn face(self) -> Face {
        Face(self.0 / 3)
    }

    /// The next corner of the face.
    pub fn next(self) -> Corner {
        Corner(if self.0 % 3 == 2 { self.0 - 2 } else { self.0 + 1 })
    }

    /// The previous corner of the face.
    pub fn previous(self) -> Corner {
        Corner(if self.0 % 3 == 0 { self.0 + 2 } else { self.0 - 1 })
    }
}

impl Face {
    /// The three corners of the face.
    pub fn corners(self) -> [Corner; 3] {
        [0, 1, 2].map(|k| Corner(3 * self.0 + k))
    }
}

/// One command of a script. An edge is named by its corner.
#[derive(Clone, Copy, Debug, PartialEq)]
pub enum Edit {
    /// Moves next's vertex to the point, and deletes previous's vertex and the edge's two faces.
    CollapseEdge(Corner, [f32; 3]),
    /// Turns the edge inside its two faces.
    FlipEdge(Corner),
    /// Moves next's vertex to the point; a new vertex takes its old place, and each face of the edge becomes two.
    SplitEdge(Corner, [f32; 3]),
    /// A new vertex at the point; the face becomes three.
    SplitFace(Face, [f32; 3]),
}

impl Edit {
    /// The five words of the command: kind, target, and the bits of the point.
    fn words(self) -> [u32; 5] {
        let (kind, target, point) = match self {
            Edit::CollapseEdge(corner, point) => (1, corner.0, point),
            Edit::FlipEdge(corner) => (2, corner.0, [0.0; 3]),
            Edit::SplitEdge(corner, point) => (3, corner.0, point),
            Edit::SplitFace(face, point) => (4, face.0, point),
        };
        let [x, y, z] = point.map(f32::to_bits);
        [kind, target, x, y, z]
    }
}

/// The contents of a table, slot by slot: to be saved, or looked at. Used slots come first, and the counts say how many there are.
#[derive(Clone, Debug, PartialEq)]
pub struct Parts {
    /// The vertex of each corner.
    pub corner_vertex: Vec<u32>,
    /// The opposite of each corner, or [`ABSENT`].
    pub corner_opposite: Vec<u32>,
    /// 1 where the corner is deleted, else 0.
    pub corner_mark: Vec<u32>,
    /// A corner of each vertex.
    pub vertex_corner: Vec<u32>,
    /// 1 where the vertex is deleted, else 0.
    pub vertex_mark: Vec<u32>,
    /// Three numbers to a vertex.
    pub vertex_point: Vec<f32>,
    /// How many vertex slots are used.
    pub vertices: u32,
    /// How many corner slots are used.
    pub corners: u32,
}

impl Parts {
    /// Whether these are a well-formed table.
    pub fn check(&self) -> Result<(), Broken> {
        let r = raw::check(self);
        match Answer::of(r.answer) {
            Answer::Done => Ok(()),
            answer => Err(Broken { answer, rule: r.rule, slot: r.slot }),
        }
    }
}

/// A well-formed corner table with room of its own, which does not grow.
#[derive(Clone, Debug, PartialEq)]
pub struct Table {
    parts: Parts,
}

/// A ring call of the C library.
type Ring = fn(&Parts, u32, &mut [u32]) -> raw::Listed;

/// A table: made, checked, edited.
impl Table {
    /// An empty table with room for so many vertices and corners (three to a face); refused above [`MAX_VERTICES`] or [`MAX_CORNERS`].
    pub fn with_room(vertices: usize, corners: usize) -> Result<Table, Answer> {
        if vertices > MAX_VERTICES || corners > MAX_CORNERS {
            return Err(Answer::PartsDisagree);
        }
        let parts = Parts {
            corner_vertex: vec![0; corners],
            corner_opposite: vec![ABSENT; corners],
            corner_mark: vec![0; corners],
            vertex_corner: vec![ABSENT; vertices],
            vertex_mark: vec![0; vertices],
            vertex_point: vec![0.0; 3 * vertices],
            vertices: 0,
            corners: 0,
        };
        Ok(Table { parts })
    }

    /// A table of these parts, if they are a well-formed one.
    pub fn from_parts(parts: Parts) -> Result<Table, Broken> {
        parts.check()?;
        Ok(Table { parts })
    }

    /// Every slot, as it is.
    pub fn parts(&self) -> &Parts {
        &self.parts
    }

    /// The buffers, to be changed by hand; [`Table::from_parts`] is the way back.
    pub fn into_parts(self) -> Parts {
        self.parts
    }

    /// Builds the table anew, and says how many faces were skipped, each for an edge that a face before it has in the same direction. A
    /// refused build leaves it empty.
    pub fn build(&mut self, points: &[[f32; 3]], faces: &[[u32; 3]]) -> Result<usize, Answer> {
        let r = raw::build(&mut self.parts, points.as_flattened(), faces.as_flattened());
        self.parts.vertices = r.vertices;
        self.parts.corners = r.corners;
        Answer::of(r.answer).or(r.skipped)
    }

    /// Checks the six rules. They hold: this is for those who want to see it.
    pub fn check(&self) -> Result<(), Broken> {
        self.parts.check()
    }

    /// Runs the edits in order, with an answer for each. A refused one changes nothing, and the run goes on.
    pub fn run(&mut self, edits: &[Edit]) -> Vec<Answer> {
        let script: Vec<u32> = edits.iter().flat_map(|edit| edit.words()).collect();
        let mut answers = vec![0; edits.len()];
        let r = raw::run(&mut self.parts, &script, &mut answers);
        self.parts.vertices = r.vertices;
        self.parts.corners = r.corners;
        assert_eq!(r.answer, 0, "a table is well-formed, and the script has its five words and its answer word to an edit");
        answers.into_iter().map(Answer::of).collect()
    }

    /// Runs one edit.
    pub fn edit(&mut self, edit: Edit) -> Result<(), Answer> {
        self.run(&[edit])[0].or(())
    }
}

/// Slots that are live: used and not deleted.
impl Table {
    /// The live vertices, ascending.
    pub fn vertices(&self) -> impl Iterator<Item = Vertex> + '_ {
        (0..self.parts.vertices).map(Vertex).filter(|v| self.parts.vertex_mark[v.0 as usize] == 0)
    }

    /// The live faces, ascending.
    pub fn faces(&self) -> impl Iterator<Item = Face> + '_ {
        (0..self.parts.corners / 3).map(Face).filter(|f| self.parts.corner_mark[3 * f.0 as usize] == 0)
    }

    /// The point of a vertex, if that is live.
    pub fn point(&self, vertex: Vertex) -> Option<[f32; 3]> {
        let v = self.live_vertex(vertex)?;
        Some([0, 1, 2].map(|k| self.parts.vertex_point[3 * v + k]))
    }

    /// A corner of a vertex, if that is live.
    pub fn corner(&self, vertex: Vertex) -> Option<Corner> {
        Some(Corner(self.parts.vertex_corner[self.live_vertex(vertex)?]))
    }

    /// The vertex of a corner, if that is live.
    pub fn vertex(&self, corner: Corner) -> Option<Vertex> {
        Some(Vertex(self.parts.corner_vertex[self.live_corner(corner)?]))
    }

    /// The opposite of a corner, if that is live and has one.
    pub fn opposite(&self, corner: Corner) -> Option<Corner> {
        match self.parts.corner_opposite[self.live_corner(corner)?] {
            ABSENT => None,
            opposite => Some(Corner(opposite)),
        }
    }

    fn live_vertex(&self, vertex: Vertex) -> Option<usize> {
        (vertex.0 < self.parts.vertices && self.parts.vertex_mark[vertex.0 as usize] == 0).then_some(vertex.0 as usize)
    }

    fn live_corner(&self, corner: Corner) -> Option<usize> {
        (corner.0 < self.parts.corners && self.parts.corner_mark[corner.0 as usize] == 0).then_some(corner.0 as usize)
    }
}

/// The rings of a vertex: swings to the left from its corner and, past a border, the right side. Refused for a vertex that is not live.
impl Table {
    /// The corners of the vertex.
    pub fn ring_corners(&self, vertex: Vertex) -> Result<Vec<Corner>, Answer> {
        self.ring(raw::ring_corners, vertex, Corner)
    }

    /// The vertices that share an edge with it.
    pub fn ring_vertices(&self, vertex: Vertex) -> Result<Vec<Vertex>, Answer> {
        self.ring(raw::ring_vertices, vertex, Vertex)
    }

    /// Its faces.
    pub fn ring_faces(&self, vertex: Vertex) -> Result<Vec<Face>, Answer> {
        self.ring(raw::ring_faces, vertex, Face)
    }

    /// The edges that end at it, each as its corner.
    pub fn ring_edges(&self, vertex: Vertex) -> Result<Vec<Corner>, Answer> {
        self.ring(raw::ring_edges, vertex, Corner)
    }

    /// The edges of its faces that do not, each as its corner.
    pub fn ring_bounding_edges(&self, vertex: Vertex) -> Result<Vec<Corner>, Answer> {
        self.ring(raw::ring_bounding_edges, vertex, Corner)
    }

    /// A short list first, since most rings are short; where it is too small, one that holds any ring: a border adds one entry.
    fn ring<T>(&self, call: Ring, vertex: Vertex, kind: fn(u32) -> T) -> Result<Vec<T>, Answer> {
        let mut list = vec![0; 32];
        let mut r = call(&self.parts, vertex.0, &mut list);
        if Answer::of(r.answer) == Answer::ListTooSmall {
            list.resize(self.parts.corners as usize + 1, 0);
            r = call(&self.parts, vertex.0, &mut list);
        }
        list.truncate(r.written as usize);
        Answer::of(r.answer).or(list.into_iter().map(kind).collect())
    }
}

/// A walker: it stands at one corner of a table, and is moved in place. Each move says whether it moved: it stays where there is no
/// opposite, and after a refusal (it stands at no live corner).
#[derive(Clone, Debug)]
pub struct Walker<'t> {
    table: &'t Table,
    corner: Corner,
}

impl Table {
    /// A walker that stands at a corner.
    pub fn walker(&self, corner: Corner) -> Walker<'_> {
        Walker { table: self, corner }
    }
}

impl Walker<'_> {
    /// Where it stands.
    pub fn corner(&self) -> Corner {
        self.corner
    }

    /// To the next corner of the face.
    pub fn move_to_next(&mut self) -> Result<bool, Answer> {
        self.go(raw::move_to_next)
    }

    /// To the previous corner of the face.
    pub fn move_to_previous(&mut self) -> Result<bool, Answer> {
        self.go(raw::move_to_previous)
    }

    /// Across the edge that the corner names.
    pub fn move_to_opposite(&mut self) -> Result<bool, Answer> {
        self.go(raw::move_to_opposite)
    }

    /// About the vertex: next, opposite, next.
    pub fn swing_left_or_stay(&mut self) -> Result<bool, Answer> {
        self.go(raw::swing_left_or_stay)
    }

    /// About the vertex: previous, opposite, previous.
    pub fn swing_right_or_stay(&mut self) -> Result<bool, Answer> {
        self.go(raw::swing_right_or_stay)
    }

    fn go(&mut self, call: fn(&mut u32, &Parts) -> raw::Moved) -> Result<bool, Answer> {
        let r = call(&mut self.corner.0, &self.table.parts);
        Answer::of(r.answer).or(r.moved == 1)
    }
}
