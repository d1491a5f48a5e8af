//! Stands in for the crate `nalgebra`: a vector of three numbers that can be copied, compared and turned into an array.
//! Its arithmetic is for normals and lengths, which are not taken: it panics if it is ever called.

use std::ops::{AddAssign, DivAssign, Sub};

pub trait ClosedDivAssign: DivAssign + Sized {}
impl<T: DivAssign> ClosedDivAssign for T {}

pub trait ComplexField {}
pub trait RealField {}

#[derive(Debug, Clone, Copy, PartialEq)]
pub struct Vector3<S>([S; 3]);

impl<S> Vector3<S> {
    pub fn zeros() -> Self { unimplemented!("not taken") }
    pub fn norm(&self) -> S { unimplemented!("not taken") }
    pub fn norm_squared(&self) -> S { unimplemented!("not taken") }
    pub fn normalize(&self) -> Self { unimplemented!("not taken") }
    pub fn dot(&self, _: &Self) -> S { unimplemented!("not taken") }
}

impl<S> AddAssign for Vector3<S> {
    fn add_assign(&mut self, _: Self) { unimplemented!("not taken") }
}

impl<S> Sub for Vector3<S> {
    type Output = Self;
    fn sub(self, _: Self) -> Self { unimplemented!("not taken") }
}

impl<S> From<[S; 3]> for Vector3<S> {
    #[inline]
    fn from(numbers: [S; 3]) -> Self { Self(numbers) }
}

impl<S> From<Vector3<S>> for [S; 3] {
    #[inline]
    fn from(vector: Vector3<S>) -> Self { vector.0 }
}
