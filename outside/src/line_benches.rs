//! Sheets with bad lines and the line that is to be named, each worked out by hand from document 02's
//! Wish 6: the first line whose check fails, counted from 0.

use crate::sheet::{Graph, Line};

/// What a graph's sheet gets as figure and as patch, the writer's lists included: number and line.
pub struct LineBench {
    pub name: &'static str,
    pub graph: Graph,
    pub figure: (u16, u16),
    pub patch: (u16, u16),
}

/// The first `count` pairs in ascending order of vertices below n, as cables.
fn first_cables(n: u16, count: usize) -> Vec<Line> {
    (0..n).flat_map(|a| (a + 1..n).map(move |b| (1, a, b))).take(count).collect()
}

pub fn line_benches() -> Vec<LineBench> {
    let small = |name, lines: &[Line], digit: u16, line: u16| LineBench {
        name,
        graph: Graph { kinds: vec![1; 4], lines: lines.to_vec() },
        figure: (10 + digit, line),
        patch: (20 + digit, line),
    };
    // The lines of a sheet of 512 vertices, or of 32 for a figure's 64 lines, one of them changed.
    let large = |name, count: usize, at: usize, line: Line, figure: (u16, u16), patch: (u16, u16)| {
        let n = if count <= 64 { 32 } else { 512 };
        let mut lines = first_cables(n, count);
        lines[at] = line;
        LineBench { name, graph: Graph { kinds: vec![1; n as usize], lines }, figure, patch }
    };
    vec![
        small("the only line, of type 3", &[(3, 0, 1)], 4, 0),
        small("the first of two, ends turned round", &[(1, 1, 0), (1, 0, 2)], 4, 0),
        small("the second, out of order", &[(1, 0, 2), (1, 0, 1)], 5, 1),
        small("the second, equal but for its type", &[(1, 0, 1), (2, 0, 1), (1, 2, 3)], 5, 1),
        small("the last of three, an end not below n", &[(0, 0, 1), (1, 0, 2), (2, 0, 4)], 4, 2),
        small("15, and a later line with 14", &[(1, 0, 2), (1, 0, 1), (3, 0, 3)], 5, 1),
        small("14, and a later line with 15", &[(1, 0, 1), (1, 2, 2), (1, 0, 2)], 4, 1),
        small("14 before 15 on one line", &[(1, 0, 1), (1, 1, 2), (3, 0, 3)], 4, 2),
        small("every line", &[(3, 2, 1), (3, 2, 1), (3, 2, 1)], 4, 0),
        large("the last of 64", 64, 63, (1, 0, 1), (15, 63), (25, 63)),
        large("the first of 64", 64, 0, (1, 0, 0), (14, 0), (24, 0)),
        large("line 255 of 2,048", 2_048, 255, (3, 0, 256), (12, 65_535), (24, 255)),
        large("line 256 of 2,048", 2_048, 256, (3, 0, 257), (12, 65_535), (24, 256)),
        large("the last of 2,048, type 3", 2_048, 2_047, (3, 4, 10), (12, 65_535), (24, 2_047)),
        large("the last of 2,048, out of order", 2_048, 2_047, (1, 0, 1), (12, 65_535), (25, 2_047)),
    ]
}
