//! Stands in for the Rust's `io`: the traits of its builders. `add_vertices` and `add_faces` add one after the other.

use crate::geometry::traits::RealNumber;
use crate::helpers::aliases::Vec3;

#[derive(Debug, Clone, Copy, PartialEq, Eq)]
pub enum BuildError {
    InvalidVertex,
    TooBig,
}

pub trait IndexedBuilder<R: RealNumber, M> {
    fn add_vertex<T: Into<[R; 3]>>(&mut self, vertex: T) -> Result<usize, BuildError>;
    fn add_face(&mut self, v1: usize, v2: usize, v3: usize) -> Result<(), BuildError>;
    fn set_num_vertices(&mut self, count: usize);
    fn set_num_faces(&mut self, count: usize);
    fn finish(self) -> Result<M, BuildError>;

    fn add_vertices(&mut self, vertices: impl Iterator<Item = Vec3<R>>) -> Result<(), BuildError> {
        for vertex in vertices {
            self.add_vertex(vertex)?;
        }
        Ok(())
    }
}

pub trait SoupBuilder<R: RealNumber, M> {
    fn add_face<T: Into<[R; 3]>>(&mut self, v1: T, v2: T, v3: T) -> Result<(), BuildError>;
    fn set_num_faces(&mut self, count: usize);
    fn finish(self) -> Result<M, BuildError>;

    fn add_faces(&mut self, _: impl Iterator<Item = Vec3<R>>) -> Result<(), BuildError> {
        unimplemented!("not taken")
    }
}

pub trait Builder {
    type Scalar: RealNumber;
    type Mesh;

    fn builder_indexed() -> impl IndexedBuilder<Self::Scalar, Self::Mesh>;
    fn builder_soup() -> impl SoupBuilder<Self::Scalar, Self::Mesh>;
}
