//! The static library of this project, called on lent memory with guards before and after every part.

use crate::table::*;

const GUARD: usize = 4;
const GUARD_WORD: u32 = 0xa5c3_5a3c;

/// Memory that is lent, with words before and after it that nobody may touch.
pub struct Memory(Vec<u32>);

impl Memory {
    pub fn of(words: &[u32]) -> Memory {
        let mut all = vec![GUARD_WORD; GUARD];
        all.extend_from_slice(words);
        all.extend([GUARD_WORD; GUARD]);
        Memory(all)
    }

    pub fn len(&self) -> usize {
        self.0.len() - 2 * GUARD
    }

    pub fn words(&self) -> &[u32] {
        &self.0[GUARD..self.0.len() - GUARD]
    }

    pub fn put(&mut self, index: usize, word: u32) {
        assert!(index < self.len());
        self.0[GUARD + index] = word;
    }

    fn pointer(&mut self) -> *mut u32 {
        self.0[GUARD..].as_mut_ptr()
    }

    pub fn guards_stand(&self) -> bool {
        let end = self.0.len() - GUARD;
        self.0[..GUARD].iter().chain(&self.0[end..]).all(|&word| word == GUARD_WORD)
    }
}

/// A table in lent memory, and the counts that the calls hand back.
pub struct Lent {
    pub parts: [Memory; 6],
    pub vertices: u32,
    pub corners: u32,
}

macro_rules! with_table {
    ($call:ident, $lent:expr, [$($before:expr),*], [$($after:expr),*]) => {{
        let [a, b, c, d, e, f] = &mut $lent.parts;
        let lengths = [a.len(), b.len(), c.len(), d.len(), e.len(), f.len()];
        // SAFETY: each pointer leads to as many words as the length beside it says, and f32 is as large and as aligned as u32.
        unsafe {
            $call($($before,)* a.pointer(), lengths[0], b.pointer(), lengths[1], c.pointer(), lengths[2],
                d.pointer(), lengths[3], e.pointer(), lengths[4], f.pointer() as *mut f32, lengths[5],
                $lent.vertices, $lent.corners $(, $after)*)
        }
    }};
}

type RingCall = unsafe extern "C" fn(*mut u32, usize, *mut u32, usize, *mut u32, usize, *mut u32, usize, *mut u32, usize,
    *mut f32, usize, u32, u32, u32, *mut u32, usize) -> Listed;
const RINGS: [RingCall; 5] = [strandomir_ring_corners, strandomir_ring_vertices, strandomir_ring_faces, strandomir_ring_edges,
    strandomir_ring_bounding_edges];

impl Lent {
    pub fn of(table: &Table) -> Lent {
        let parts = std::array::from_fn(|part| Memory::of(&table.parts[part]));
        Lent { parts, vertices: table.vertices, corners: table.corners }
    }

    pub fn build(&mut self, points: &mut Memory, faces: &mut Memory) -> Built {
        let lengths = [points.len(), faces.len()];
        let (points, faces) = (points.pointer() as *const f32, faces.pointer());
        let built: Built = with_table!(strandomir_build, self, [], [points, lengths[0], faces, lengths[1]]);
        (self.vertices, self.corners) = (built.vertices, built.corners);
        built
    }

    pub fn check(&mut self) -> Checked {
        with_table!(strandomir_check, self, [], [])
    }

    pub fn run(&mut self, script: &mut Memory, answers: &mut Memory) -> Ran {
        let lengths = [script.len(), answers.len()];
        let (script, answers) = (script.pointer(), answers.pointer());
        let ran: Ran = with_table!(strandomir_run, self, [], [script, lengths[0], answers, lengths[1]]);
        (self.vertices, self.corners) = (ran.vertices, ran.corners);
        ran
    }

    pub fn ring(&mut self, kind: usize, vertex: u32, list: &mut Memory) -> Listed {
        let call = RINGS[kind];
        let length = list.len();
        let list = list.pointer();
        with_table!(call, self, [], [vertex, list, length])
    }

    /// The rings of all vertices, a call each. What is lent is made out once: a caller has it at hand.
    pub fn rings(&mut self, kind: usize, list: &mut Memory, mut each: impl FnMut(Listed)) {
        let call = RINGS[kind];
        let (length, list) = (list.len(), list.pointer());
        let [a, b, c, d, e, f] = self.parts.each_mut().map(|part| (part.pointer(), part.len()));
        for vertex in 0..self.vertices {
            // SAFETY: as in `with_table`.
            each(unsafe {
                call(a.0, a.1, b.0, b.1, c.0, c.1, d.0, d.1, e.0, e.1, f.0 as *mut f32, f.1, self.vertices, self.corners, vertex, list, length)
            });
        }
    }

    pub fn walk(&mut self, kind: usize, corner: &mut u32) -> Moved {
        let call = [strandomir_move_to_next, strandomir_move_to_previous, strandomir_move_to_opposite,
            strandomir_swing_left_or_stay, strandomir_swing_right_or_stay][kind];
        with_table!(call, self, [corner], [])
    }
}

/// Declares calls that take a table between other arguments.
macro_rules! calls {
    ($(fn $name:ident([$($before:ident: $b:ty),*], [$($after:ident: $a:ty),*]) -> $result:ty;)*) => {
        #[link(name = "strandomir", kind = "static")]
        extern "C" {
            $(fn $name($($before: $b,)* cv: *mut u32, cvn: usize, co: *mut u32, con: usize, cm: *mut u32, cmn: usize,
                vc: *mut u32, vcn: usize, vm: *mut u32, vmn: usize, vp: *mut f32, vpn: usize,
                vertices: u32, corners: u32 $(, $after: $a)*) -> $result;)*
        }
    };
}

calls! {
    fn strandomir_build([], [points: *const f32, pn: usize, faces: *const u32, fn_: usize]) -> Built;
    fn strandomir_check([], []) -> Checked;
    fn strandomir_run([], [script: *const u32, sn: usize, answers: *mut u32, an: usize]) -> Ran;
    fn strandomir_ring_corners([], [vertex: u32, list: *mut u32, ln: usize]) -> Listed;
    fn strandomir_ring_vertices([], [vertex: u32, list: *mut u32, ln: usize]) -> Listed;
    fn strandomir_ring_faces([], [vertex: u32, list: *mut u32, ln: usize]) -> Listed;
    fn strandomir_ring_edges([], [vertex: u32, list: *mut u32, ln: usize]) -> Listed;
    fn strandomir_ring_bounding_edges([], [vertex: u32, list: *mut u32, ln: usize]) -> Listed;
    fn strandomir_move_to_next([corner: *mut u32], []) -> Moved;
    fn strandomir_move_to_previous([corner: *mut u32], []) -> Moved;
    fn strandomir_move_to_opposite([corner: *mut u32], []) -> Moved;
    fn strandomir_swing_left_or_stay([corner: *mut u32], []) -> Moved;
    fn strandomir_swing_right_or_stay([corner: *mut u32], []) -> Moved;
}
