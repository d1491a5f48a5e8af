//! The worked examples of the rule book. Every value that is expected stands there, or follows from it by hand.

use strandomir::{Answer, Broken, Corner, Edit, Face, Table, Vertex, ABSENT, MAX_CORNERS, MAX_VERTICES};

const A: &[[u32; 3]] = &[[0, 1, 2]];
const B: &[[u32; 3]] = &[[0, 1, 2], [0, 2, 3]];
const T: &[[u32; 3]] = &[[0, 1, 2], [0, 2, 3], [0, 3, 1], [1, 3, 2]];
const AT: [f32; 3] = [7.0, 8.0, 9.0];

/// Point i of every mesh: no two are the same.
fn place(i: u32) -> [f32; 3] {
    let x = i as f32;
    [x, x * x, x + 0.5]
}

fn points(n: u32) -> Vec<[f32; 3]> {
    (0..n).map(place).collect()
}

fn mesh(n: u32, faces: &[[u32; 3]]) -> Table {
    let mut table = Table::with_room(8, 24).unwrap();
    assert_eq!(table.build(&points(n), faces), Ok(0));
    table
}

/// The used corners' vertices.
fn corners(table: &Table) -> &[u32] {
    &table.parts().corner_vertex[..table.parts().corners as usize]
}

/// The used vertices' corners.
fn vertices(table: &Table) -> &[u32] {
    &table.parts().vertex_corner[..table.parts().vertices as usize]
}

/// The pairs of opposites among the live corners.
fn pairs(table: &Table) -> Vec<(u32, u32)> {
    let live = table.faces().flat_map(Face::corners);
    let opposites = live.filter_map(|c| Some((c, table.opposite(c)?)));
    opposites.inspect(|&(c, o)| assert_eq!(table.opposite(o), Some(c))).filter(|(c, o)| c < o).map(|(c, o)| (c.0, o.0)).collect()
}

fn expect(table: &Table, of_corners: &[u32], of_pairs: &[(u32, u32)], of_vertices: &[u32]) {
    assert_eq!(corners(table), of_corners);
    assert_eq!(pairs(table), of_pairs);
    assert_eq!(vertices(table), of_vertices);
    assert_eq!(table.check(), Ok(()));
}

#[test]
fn builds() {
    expect(&mesh(3, A), &[0, 1, 2], &[], &[0, 1, 2]);
    expect(&mesh(4, B), &[0, 1, 2, 0, 2, 3], &[(1, 5)], &[3, 1, 4, 5]);
    let t = [(0, 10), (1, 5), (2, 7), (3, 9), (4, 8), (6, 11)];
    expect(&mesh(4, T), &[0, 1, 2, 0, 2, 3, 0, 3, 1, 1, 3, 2], &t, &[6, 9, 11, 10]);
    let two_fans = mesh(5, &[[0, 1, 2], [0, 3, 4]]);
    expect(&two_fans, &[5, 1, 2, 0, 3, 4], &[], &[3, 1, 2, 4, 5, 0]);
    assert_eq!(two_fans.point(Vertex(5)), Some(place(0)));
    expect(&mesh(0, &[]), &[], &[], &[]);
}

#[test]
fn a_face_is_skipped_and_its_vertex_deleted() {
    let mut table = Table::with_room(4, 6).unwrap();
    assert_eq!(table.build(&points(4), &[[0, 1, 2], [0, 1, 3]]), Ok(1));
    expect(&table, &[0, 1, 2], &[], &[0, 1, 2, ABSENT]);
    assert_eq!(table.vertices().collect::<Vec<_>>(), [Vertex(0), Vertex(1), Vertex(2)]);
    assert_eq!(table.point(Vertex(3)), None);
}

#[test]
fn refused_builds_leave_an_empty_table() {
    let mut table = mesh(4, B);
    assert_eq!(table.build(&points(3), &[[0, 1, 3]]), Err(Answer::IndexTooLarge));
    assert_eq!(table, Table::with_room(8, 24).unwrap());
    assert_eq!(table.build(&points(3), &[[0, 1, 1]]), Err(Answer::RepeatedVertex));
    assert_eq!(table.build(&points(9), A), Err(Answer::NoVertexRoom));
    assert_eq!(table.build(&[[0.0, f32::NAN, 0.0]], &[]), Err(Answer::NotFinite));
    assert_eq!(Table::with_room(4, 5).unwrap().build(&points(4), B), Err(Answer::NoCornerRoom));
    assert_eq!(table, Table::with_room(8, 24).unwrap());
}

#[test]
fn rooms_have_a_maximum() {
    assert!(Table::with_room(MAX_VERTICES, MAX_CORNERS).is_ok());
    assert_eq!(Table::with_room(MAX_VERTICES + 1, 0), Err(Answer::PartsDisagree));
    assert_eq!(Table::with_room(0, MAX_CORNERS + 1), Err(Answer::PartsDisagree));
}

#[test]
fn flips_and_splits() {
    let mut table = mesh(4, B);
    assert_eq!(table.edit(Edit::FlipEdge(Corner(1))), Ok(()));
    expect(&table, &[1, 2, 3, 1, 3, 0], &[(1, 5)], &[5, 0, 1, 2]);

    let mut table = mesh(3, A);
    assert_eq!(table.edit(Edit::SplitFace(Face(0), AT)), Ok(()));
    expect(&table, &[0, 1, 3, 1, 2, 3, 2, 0, 3], &[(0, 4), (1, 6), (3, 7)], &[0, 1, 4, 2]);
    assert_eq!(table.point(Vertex(3)), Some(AT));

    let mut table = mesh(4, B);
    assert_eq!(table.edit(Edit::SplitEdge(Corner(1), AT)), Ok(()));
    let inner = [(0, 7), (1, 5), (3, 9), (6, 10)];
    expect(&table, &[0, 1, 2, 0, 2, 3, 1, 4, 2, 4, 3, 2], &inner, &[3, 1, 2, 5, 7]);

    let mut table = mesh(3, A);
    assert_eq!(table.edit(Edit::SplitEdge(Corner(0), AT)), Ok(()));
    assert_eq!(corners(&table), [0, 1, 2, 0, 3, 1]);
    assert_eq!(pairs(&table), [(2, 4)]);
    assert_eq!(table.point(Vertex(1)), Some(AT));
    assert_eq!(table.point(Vertex(3)), Some(place(1)));
}

#[test]
fn a_collapse_and_what_is_live_after_it() {
    let mut table = mesh(4, T);
    assert_eq!(table.run(&[Edit::CollapseEdge(Corner(0), AT), Edit::CollapseEdge(Corner(3), AT)]), [Answer::Done, Answer::SameVertex]);
    expect(&table, &[0, 1, 1, 0, 1, 3, 0, 3, 1, 1, 3, 1], &[(3, 6), (4, 8), (5, 7)], &[6, 8, 11, 5]);
    assert_eq!(table.faces().collect::<Vec<_>>(), [Face(1), Face(2)]);
    assert_eq!(table.vertices().collect::<Vec<_>>(), [Vertex(0), Vertex(1), Vertex(3)]);
    assert_eq!(table.point(Vertex(1)), Some(AT));
    assert_eq!(table.vertex(Corner(0)), None);
    assert_eq!(table.ring_vertices(Vertex(2)), Err(Answer::TargetDeleted));
}

#[test]
fn refused_edits_change_nothing() {
    let mut table = mesh(4, B);
    let refused = table.run(&[
        Edit::FlipEdge(Corner(0)),
        Edit::CollapseEdge(Corner(1), AT),
        Edit::SplitFace(Face(2), AT),
        Edit::SplitEdge(Corner(1), [0.0, 0.0, f32::INFINITY]),
    ]);
    assert_eq!(refused, [Answer::Border, Answer::Border, Answer::NoSuchTarget, Answer::NotFinite]);
    assert_eq!(table, mesh(4, B));
    assert_eq!(table.run(&[]), []);
}

#[test]
fn a_collapse_that_is_not_safe() {
    // Face 0 split at vertex 4: 0 and 1 then have the neighbours 2, 3 and 4 in common, and corner 2 names their edge.
    let mut table = mesh(4, T);
    let answers = table.run(&[Edit::SplitFace(Face(0), AT), Edit::CollapseEdge(Corner(2), AT)]);
    assert_eq!(answers, [Answer::Done, Answer::UnsafeCollapse]);
}

#[test]
fn splits_in_little_room() {
    for (vertices, corners, want) in [(3, 9, Answer::NoVertexRoom), (4, 8, Answer::NoCornerRoom), (4, 9, Answer::Done)] {
        let mut table = Table::with_room(vertices, corners).unwrap();
        assert_eq!(table.build(&points(3), A), Ok(0));
        assert_eq!(table.run(&[Edit::SplitFace(Face(0), AT)]), [want]);
    }
}

#[test]
fn rings() {
    let b = mesh(4, B);
    assert_eq!(b.ring_corners(Vertex(0)).unwrap(), [3, 0].map(Corner));
    assert_eq!(b.ring_vertices(Vertex(0)).unwrap(), [3, 2, 1].map(Vertex));
    assert_eq!(b.ring_faces(Vertex(0)).unwrap(), [1, 0].map(Face));
    assert_eq!(b.ring_edges(Vertex(0)).unwrap(), [4, 5, 2].map(Corner));
    assert_eq!(b.ring_bounding_edges(Vertex(0)).unwrap(), [3, 0].map(Corner));
    assert_eq!(b.ring_corners(Vertex(4)), Err(Answer::NoSuchTarget));

    let t = mesh(4, T);
    assert_eq!(t.ring_corners(Vertex(0)).unwrap(), [6, 0, 3].map(Corner));
    assert_eq!(t.ring_vertices(Vertex(0)).unwrap(), [1, 2, 3].map(Vertex));
    assert_eq!(t.ring_faces(Vertex(0)).unwrap(), [2, 0, 1].map(Face));
    assert_eq!(t.ring_edges(Vertex(0)).unwrap(), [7, 1, 4].map(Corner));
    assert_eq!(t.ring_bounding_edges(Vertex(0)).unwrap(), [6, 0, 3].map(Corner));
}

#[test]
fn a_ring_longer_than_the_first_list() {
    // A fan of 40 faces about vertex 0: it has 41 neighbours.
    let faces: Vec<[u32; 3]> = (1..=40).map(|i| [0, i, i + 1]).collect();
    let mut table = Table::with_room(42, 120).unwrap();
    assert_eq!(table.build(&points(42), &faces), Ok(0));
    let mut around = table.ring_vertices(Vertex(0)).unwrap();
    around.sort();
    assert_eq!(around, (1..=41).map(Vertex).collect::<Vec<_>>());
}

#[test]
fn walks() {
    let table = mesh(4, B);
    let mut walker = table.walker(Corner(5));
    assert_eq!(walker.move_to_next(), Ok(true));
    assert_eq!(walker.corner(), Corner(3));
    assert_eq!(walker.move_to_opposite(), Ok(false));
    assert_eq!(walker.swing_left_or_stay(), Ok(false));
    assert_eq!(walker.corner(), Corner(3));
    assert_eq!(walker.swing_right_or_stay(), Ok(true));
    assert_eq!(walker.corner(), Corner(0));
    assert_eq!(walker.swing_left_or_stay(), Ok(true));
    assert_eq!(walker.move_to_previous(), Ok(true));
    assert_eq!(walker.corner(), Corner(5));
    assert_eq!(walker.move_to_opposite(), Ok(true));
    assert_eq!(walker.corner(), Corner(1));
    assert_eq!(table.walker(Corner(6)).move_to_next(), Err(Answer::NoSuchTarget));
}

#[test]
fn parts_are_checked_on_the_way_in() {
    let mut parts = mesh(4, B).into_parts();
    assert_eq!(Table::from_parts(parts.clone()), Ok(mesh(4, B)));
    parts.corner_opposite[5] = 0;
    let broken = Broken { answer: Answer::NotWellFormed, rule: 4, slot: 1 };
    assert_eq!(Table::from_parts(parts.clone()), Err(broken));
    assert_eq!(broken.to_string(), "the table is not well-formed: rule 4, slot 1");
    parts.corner_mark.pop();
    assert_eq!(parts.check(), Err(Broken { answer: Answer::PartsDisagree, rule: 0, slot: 0 }));
}

#[test]
fn corners_of_a_face() {
    assert_eq!(Face(4).corners(), [12, 13, 14].map(Corner));
    assert_eq!((Corner(2).next(), Corner(3).next()), (Corner(0), Corner(4)));
    assert_eq!((Corner(3).previous(), Corner(5).previous()), (Corner(5), Corner(4)));
    assert_eq!(Corner(14).face(), Face(4));
}
