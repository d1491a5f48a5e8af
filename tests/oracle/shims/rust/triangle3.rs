//! Named by the geometrical half of the collapse test, which is not taken: it panics if it is ever called.

use crate::helpers::aliases::Vec3;

pub struct Triangle3<S>(std::marker::PhantomData<S>);

impl<S> Triangle3<S> {
    pub fn quality(_: &Vec3<S>, _: &Vec3<S>, _: &Vec3<S>) -> S { unimplemented!("not taken") }
    pub fn normal(_: &Vec3<S>, _: &Vec3<S>, _: &Vec3<S>) -> Option<Vec3<S>> { unimplemented!("not taken") }
}
