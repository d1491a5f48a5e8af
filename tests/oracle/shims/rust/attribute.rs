//! Stands in for attribute.rs: only `unique_edges` makes one, and that is not taken.

use super::*;
use std::marker::PhantomData;
use std::ops::{Index, IndexMut};

pub struct EdgeAttribute<T>(PhantomData<T>);
pub struct VertexAttribute<T>(PhantomData<T>);

impl<T> Index<EdgeId> for EdgeAttribute<T> {
    type Output = T;
    fn index(&self, _: EdgeId) -> &T { unimplemented!("not taken") }
}

impl<T> IndexMut<EdgeId> for EdgeAttribute<T> {
    fn index_mut(&mut self, _: EdgeId) -> &mut T { unimplemented!("not taken") }
}

impl<S: RealNumber> CornerTable<S> {
    pub fn create_edge_attribute<T>(&self) -> EdgeAttribute<T> { unimplemented!("not taken") }
}
