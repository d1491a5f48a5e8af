//! The root of the copy: names the parts of the Rust that are at hand, and the shims beside them.
//! The Rust's own root names a dozen further modules that are not at hand, so it is not used.
#![allow(dead_code, unused_imports)]

pub mod algo {
    pub mod edge_collapse;
    pub mod merge_points;
}

pub mod geometry {
    pub mod primitives;
    pub mod traits;
}

pub mod helpers {
    pub mod aliases {
        pub type Vec3<S> = nalgebra::Vector3<S>;
    }
}

pub mod io;

pub mod mesh {
    pub mod corner_table;
    pub mod traits;
}

/// Makes the Rust's numbers and fills and reads its private slots; its functions stand in the shim face.rs, which may see them.
pub struct Probe;
