//! Stands in for the crate `nalgebra_glm`: the bounds that the Rust puts on a number.

use num_traits::{One, Zero};
use std::fmt::Debug;
use std::ops::{Add, Mul};

pub trait Number: Copy + Debug + PartialOrd + Add<Output = Self> + Mul<Output = Self> + One + Zero + 'static {
    fn default_epsilon() -> Self { unimplemented!("not taken") }
}
impl Number for f32 {}
impl Number for f64 {}

pub trait RealNumber: Number {}
impl RealNumber for f32 {}
impl RealNumber for f64 {}
