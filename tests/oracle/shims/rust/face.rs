//! Stands in for face.rs: the number of a face, its first corner and its three vertices.
//!
//! Being a child of the corner table it sees what is private there, so the probe stands here too: it makes the numbers of
//! corners, vertices and edges, fills a table's slots and reads them out.

use super::*;
use crate::helpers::aliases::Vec3;

#[derive(Debug, Clone, Copy, PartialEq, Eq, PartialOrd, Ord, Hash)]
pub struct FaceId(u32);

impl FaceId {
    #[inline]
    pub(super) fn new(index: u32) -> Self {
        Self(index)
    }

    #[inline]
    pub fn corner(&self) -> CornerId {
        CornerId::new(3 * self.0)
    }
}

impl<S: RealNumber> CornerTable<S> {
    pub fn face_vertices(&self, face: FaceId) -> (VertexId, VertexId, VertexId) {
        let first = face.corner();
        let second = first.next();
        (self[first].vertex(), self[second].vertex(), self[second.next()].vertex())
    }

    pub fn face_positions(&self, _: FaceId) -> Triangle3<S> { unimplemented!("not taken") }
    pub fn face_normal(&self, _: FaceId) -> Option<Vec3<S>> { unimplemented!("not taken") }
}

const ABSENT: u32 = u32::MAX;

fn present(number: u32) -> Option<CornerId> {
    if number == ABSENT { None } else { Some(CornerId::new(number)) }
}

fn number(corner: CornerId) -> u32 {
    if corner.is_valid() { corner.index() as u32 } else { ABSENT }
}

/// The probe has no say in what the Rust does: numbers go in and out as they stand.
impl crate::Probe {
    pub fn corner(number: u32) -> CornerId { CornerId::new(number) }
    pub fn vertex(number: u32) -> VertexId { VertexId::new(number) }
    pub fn face(number: u32) -> FaceId { FaceId::new(number) }
    pub fn edge(corner: u32) -> EdgeId { EdgeId::new(CornerId::new(corner)) }

    pub fn corner_number(corner: CornerId) -> u32 { number(corner) }
    pub fn vertex_number(vertex: VertexId) -> u32 { vertex.index() as u32 }
    pub fn face_number(face: FaceId) -> u32 { face.0 }

    pub fn corner_count(table: &CornerTable<f32>) -> usize { table.corners.len() }
    pub fn vertex_count(table: &CornerTable<f32>) -> usize { table.vertices.len() }

    /// The Rust's own list of the corners around a vertex.
    pub fn collected(table: &CornerTable<f32>, vertex: VertexId) -> Vec<CornerId> {
        traversal::collect_corners_around_vertex(table, vertex)
    }

    /// Room for so many more, so that no push has to move the table: what is measured is the edit.
    pub fn reserve(table: &mut CornerTable<f32>, vertices: usize, corners: usize) {
        table.vertices.reserve(vertices);
        table.corners.reserve(corners);
    }

    /// Puts a corner slot on the end: vertex, opposite, deleted mark.
    pub fn push_corner(table: &mut CornerTable<f32>, vertex: u32, opposite: u32, deleted: bool) {
        let mut corner = Corner::new(present(opposite), VertexId::new(vertex));
        corner.set_deleted(deleted);
        table.corners.push(corner);
    }

    /// Puts a vertex slot on the end: corner, point, deleted mark.
    pub fn push_vertex(table: &mut CornerTable<f32>, corner: u32, point: [f32; 3], deleted: bool) {
        let mut vertex = Vertex::new(CornerId::from_option(present(corner)), point.into());
        vertex.set_deleted(deleted);
        table.vertices.push(vertex);
    }

    pub fn corner_slot(table: &CornerTable<f32>, slot: usize) -> (u32, u32, bool) {
        let corner = &table.corners[slot];
        (Self::vertex_number(corner.vertex()), corner.opposite_corner().map_or(ABSENT, number), corner.is_deleted())
    }

    pub fn vertex_slot(table: &CornerTable<f32>, slot: usize) -> (u32, [f32; 3], bool) {
        let vertex = &table.vertices[slot];
        (number(vertex.corner()), (*vertex.position()).into(), vertex.is_deleted())
    }
}
