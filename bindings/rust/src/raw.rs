//! The C calls, as `include/strandomir.h` declares them, each behind a safe function over `Parts`. The one place with `unsafe`.
//!
//! SAFETY, for every call here: a slice goes as its own pointer and length, so each pointer is valid, aligned and not null for so many
//! elements. What is written comes from a `&mut` and so overlaps nothing else. The structs have C's layout, field by field as in the header.
//! The calls take any contents, keep no pointer, end, and neither unwind nor call back.

use crate::Parts;

#[repr(C)]
pub struct Built {
    pub answer: u32,
    pub vertices: u32,
    pub corners: u32,
    pub skipped: usize,
}

#[repr(C)]
pub struct Checked {
    pub answer: u32,
    pub rule: u32,
    pub slot: u32,
}

#[repr(C)]
pub struct Ran {
    pub answer: u32,
    pub rule: u32,
    pub slot: u32,
    pub vertices: u32,
    pub corners: u32,
}

#[repr(C)]
pub struct Listed {
    pub answer: u32,
    pub visited: u32,
    pub written: u32,
}

#[repr(C)]
pub struct Moved {
    pub answer: u32,
    pub moved: u32,
}

/// Declares a C call: the parts of the table stand between what comes before them and what comes after.
macro_rules! declare {
    ($name:ident, $lent:tt, ($($before:ident: $before_type:ty),*), ($($after:ident: $after_type:ty),*), $answer:ty) => {
        extern "C" {
            fn $name(
                $($before: $before_type,)*
                corner_vertex: *$lent u32, corner_vertex_length: usize,
                corner_opposite: *$lent u32, corner_opposite_length: usize,
                corner_mark: *$lent u32, corner_mark_length: usize,
                vertex_corner: *$lent u32, vertex_corner_length: usize,
                vertex_mark: *$lent u32, vertex_mark_length: usize,
                vertex_point: *$lent f32, vertex_point_length: usize,
                vertices: u32, corners: u32
                $(, $after: $after_type)*
            ) -> $answer;
        }
    };
}

/// Makes a declared call, with the parts lent by `as_ptr` or `as_mut_ptr`.
macro_rules! call {
    ($name:ident, $parts:ident, $lend:ident, ($($before:expr),*), ($($after:expr),*)) => {
        // SAFETY: as the module says.
        unsafe {
            $name(
                $($before,)*
                $parts.corner_vertex.$lend(), $parts.corner_vertex.len(),
                $parts.corner_opposite.$lend(), $parts.corner_opposite.len(),
                $parts.corner_mark.$lend(), $parts.corner_mark.len(),
                $parts.vertex_corner.$lend(), $parts.vertex_corner.len(),
                $parts.vertex_mark.$lend(), $parts.vertex_mark.len(),
                $parts.vertex_point.$lend(), $parts.vertex_point.len(),
                $parts.vertices, $parts.corners
                $(, $after)*
            )
        }
    };
}

declare!(strandomir_build, mut, (), (points: *const f32, points_length: usize, faces: *const u32, faces_length: usize), Built);
declare!(strandomir_check, const, (), (), Checked);
declare!(strandomir_run, mut, (), (script: *const u32, script_length: usize, answers: *mut u32, answers_length: usize), Ran);

pub fn build(parts: &mut Parts, points: &[f32], faces: &[u32]) -> Built {
    call!(strandomir_build, parts, as_mut_ptr, (), (points.as_ptr(), points.len(), faces.as_ptr(), faces.len()))
}

pub fn check(parts: &Parts) -> Checked {
    call!(strandomir_check, parts, as_ptr, (), ())
}

pub fn run(parts: &mut Parts, script: &[u32], answers: &mut [u32]) -> Ran {
    call!(strandomir_run, parts, as_mut_ptr, (), (script.as_ptr(), script.len(), answers.as_mut_ptr(), answers.len()))
}

macro_rules! rings {
    ($($ring:ident = $name:ident),*) => {
        $(
            declare!($name, const, (), (vertex: u32, list: *mut u32, list_length: usize), Listed);
            pub fn $ring(parts: &Parts, vertex: u32, list: &mut [u32]) -> Listed {
                call!($name, parts, as_ptr, (), (vertex, list.as_mut_ptr(), list.len()))
            }
        )*
    };
}

rings!(
    ring_corners = strandomir_ring_corners,
    ring_vertices = strandomir_ring_vertices,
    ring_faces = strandomir_ring_faces,
    ring_edges = strandomir_ring_edges,
    ring_bounding_edges = strandomir_ring_bounding_edges
);

macro_rules! moves {
    ($($go:ident = $name:ident),*) => {
        $(
            declare!($name, const, (corner: *mut u32), (), Moved);
            pub fn $go(corner: &mut u32, parts: &Parts) -> Moved {
                call!($name, parts, as_ptr, (corner), ())
            }
        )*
    };
}

moves!(
    move_to_next = strandomir_move_to_next,
    move_to_previous = strandomir_move_to_previous,
    move_to_opposite = strandomir_move_to_opposite,
    swing_left_or_stay = strandomir_swing_left_or_stay,
    swing_right_or_stay = strandomir_swing_right_or_stay
);
