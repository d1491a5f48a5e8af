//! Named by the Rust's geometry traits; nothing of it is used.
pub struct Box3<S>(std::marker::PhantomData<S>);
