//! Stands in for `algo::merge_points`, which only the soup builder calls: not taken.

use crate::geometry::traits::RealNumber;
use crate::helpers::aliases::Vec3;

pub struct Indexed<R: RealNumber> {
    pub points: Vec<Vec3<R>>,
    pub indices: Vec<usize>,
}

pub fn merge_points<R: RealNumber>(_: impl Iterator<Item = Vec3<R>>) -> Indexed<R> {
    unimplemented!("not taken")
}
