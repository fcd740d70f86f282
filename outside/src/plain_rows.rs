//! The check of rows written for speed: runs of neighbours, one stamp a patch vertex, and a set of the
//! rows met.

use crate::calls::{lineless, Checked};
use crate::check;
use crate::sheet::Graph;
use std::collections::HashSet;

struct Test<'a> {
    figure: &'a Graph,
    patch: &'a Graph,
    runs: Vec<Vec<usize>>,
    /// For each patch vertex, one more than the last row that has it.
    stamps: Vec<usize>,
}

impl Test<'_> {
    fn is_place(&mut self, row: &[u16], index: usize) -> bool {
        for (u, &v) in row.iter().enumerate() {
            let v = v as usize;
            if v >= self.patch.n() || self.patch.kinds[v] != self.figure.kinds[u] || self.stamps[v] == index + 1 {
                return false;
            }
            self.stamps[v] = index + 1;
        }
        self.figure.lines.iter().all(|&(_, a, b)| self.runs[row[a as usize] as usize].contains(&(row[b as usize] as usize)))
    }
}

pub fn check_rows(figure: &[u8], patch: &[u8], rows: &[u16]) -> Checked {
    let sheets = check::figure(figure).and_then(|f| check::patch(patch).map(|p| (f, p)));
    let (figure, patch) = match sheets {
        Ok(both) => both,
        Err(why) => return Checked::refused(why),
    };
    let n = figure.n();
    if rows.len() % n != 0 {
        return Checked::refused(lineless(42));
    }
    let mut test = Test { figure: &figure, patch: &patch, runs: patch.live().neighbours(), stamps: vec![0; patch.n()] };
    let mut met = HashSet::with_capacity(rows.len() / n);
    for (i, row) in rows.chunks(n).enumerate() {
        if !test.is_place(row, i) {
            return Checked::bad_row(43, i);
        }
        if !met.insert(row) {
            return Checked::bad_row(44, i);
        }
    }
    Checked::accepted()
}
