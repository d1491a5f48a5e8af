//! Named by the Rust's geometry traits; nothing of it is used.
pub struct Plane3<S>(std::marker::PhantomData<S>);
