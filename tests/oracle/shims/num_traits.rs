//! Stands in for the crate `num_traits`: the names that the Rust's number traits ask for.
//! The part taken from the Rust computes with no number, so conversions are never called; they panic if they are.

pub trait AsPrimitive<T> {}
impl<T, S> AsPrimitive<T> for S {}

pub trait FromPrimitive: Sized {
    fn from_u8(_: u8) -> Option<Self> { unimplemented!("not taken") }
    fn from_u32(_: u32) -> Option<Self> { unimplemented!("not taken") }
    fn from_i32(_: i32) -> Option<Self> { unimplemented!("not taken") }
    fn from_isize(_: isize) -> Option<Self> { unimplemented!("not taken") }
    fn from_usize(_: usize) -> Option<Self> { unimplemented!("not taken") }
    fn from_f32(_: f32) -> Option<Self> { unimplemented!("not taken") }
    fn from_f64(_: f64) -> Option<Self> { unimplemented!("not taken") }
}
impl FromPrimitive for f32 {}
impl FromPrimitive for f64 {}

pub trait Bounded {}

pub trait One {
    fn one() -> Self;
}

pub trait Zero {
    fn zero() -> Self;
}

impl One for f32 { fn one() -> Self { 1.0 } }
impl One for f64 { fn one() -> Self { 1.0 } }
impl Zero for f32 { fn zero() -> Self { 0.0 } }
impl Zero for f64 { fn zero() -> Self { 0.0 } }
