//! The check of rows from document 02's words alone: every row is a place, and no two rows are equal.
//! A place is tested entry by entry and line by line, and a row is compared with every earlier one.

use crate::calls::{lineless, Checked};
use crate::check;
use crate::sheet::Graph;

fn is_place(figure: &Graph, patch: &Graph, row: &[u16]) -> bool {
    let inside = row.iter().all(|&v| (v as usize) < patch.n());
    let kinds = inside && (0..figure.n()).all(|u| figure.kinds[u] == patch.kinds[row[u] as usize]);
    let apart = (0..row.len()).all(|u| (0..u).all(|w| row[u] != row[w]));
    let joined = |v: u16, w: u16| patch.live().lines.iter().any(|&(_, a, b)| (a, b) == (v, w) || (a, b) == (w, v));
    kinds && apart && figure.lines.iter().all(|&(_, a, b)| joined(row[a as usize], row[b as usize]))
}

pub fn check_rows(figure: &[u8], patch: &[u8], rows: &[u16]) -> Checked {
    let figure = match check::figure(figure) {
        Ok(graph) => graph,
        Err(why) => return Checked::refused(why),
    };
    let patch = match check::patch(patch) {
        Ok(graph) => graph,
        Err(why) => return Checked::refused(why),
    };
    let n = figure.n();
    if rows.len() % n != 0 {
        return Checked::refused(lineless(42));
    }
    let all: Vec<&[u16]> = rows.chunks(n).collect();
    for (i, row) in all.iter().enumerate() {
        if !is_place(&figure, &patch, row) {
            return Checked::bad_row(43, i);
        }
        if all[..i].contains(row) {
            return Checked::bad_row(44, i);
        }
    }
    Checked::accepted()
}
