//! The numbers that come back for a sheet, the line that 14, 15, 24 and 25 are about, and the reader
//! and the writer, from document 01's sections "The sheet" and "Numbers that come back" and document
//! 02's Wish 6. Bits are read one by one; the offending line is the first of a list of all bad lines.

use crate::calls::{lineless, Read, Refusal, Written, NO_LINE};
use crate::sheet::{encode, Graph, Line};

/// The table of counts: the most vertices and the most lines; and the tens of the numbers.
#[derive(Clone, Copy)]
pub struct Limits {
    pub n: usize,
    pub m: usize,
    tens: u16,
}

pub const FIGURE: Limits = Limits { n: 32, m: 64, tens: 10 };
pub const PATCH: Limits = Limits { n: 512, m: 2_048, tens: 20 };

fn bit(bytes: &[u8], at: usize) -> usize {
    (bytes[at / 8] >> (7 - at % 8) & 1) as usize
}

fn field(bytes: &[u8], from: usize, width: usize) -> usize {
    (from..from + width).fold(0, |sum, at| 2 * sum + bit(bytes, at))
}

fn counts_fit(n: usize, m: usize, limits: Limits) -> bool {
    1 <= n && n <= limits.n && m <= limits.m
}

/// The second digit of the number a line gets, if any: 4 for itself, 5 for the line before it.
fn line_fault(line: Line, before: Option<Line>, n: usize) -> Option<u16> {
    let (t, a, b) = line;
    if t > 2 || a as usize >= n || b as usize >= n || a >= b {
        return Some(4);
    }
    match before {
        Some((_, c, d)) if (a, b) <= (c, d) => Some(5),
        _ => None,
    }
}

/// Every line that fails a check, in order: its number, counted from 0, and the second digit it gets.
pub fn bad_lines(graph: &Graph) -> Vec<(usize, u16)> {
    let before = |i: usize| if i == 0 { None } else { Some(graph.lines[i - 1]) };
    let fault = |i: usize| line_fault(graph.lines[i], before(i), graph.n()).map(|digit| (i, digit));
    (0..graph.lines.len()).filter_map(fault).collect()
}

/// The refusal of a graph's lines, if any: it is about the first bad one.
fn line_refusal(graph: &Graph, limits: Limits) -> Result<(), Refusal> {
    match bad_lines(graph).first() {
        Some(&(line, digit)) => Err(Refusal { number: limits.tens + digit, line: line as u16 }),
        None => Ok(()),
    }
}

/// What a sheet says whose length, counts and filling are right, be its lines good or bad.
pub fn unlined(bytes: &[u8], limits: Limits) -> Result<Graph, Refusal> {
    let refused = |digit: u16| Err(lineless(limits.tens + digit));
    if bytes.len() < 3 {
        return refused(1);
    }
    let n = field(bytes, 0, 10);
    let m = field(bytes, 10, 12);
    if !counts_fit(n, m, limits) {
        return refused(2);
    }
    let used = 22 + 6 * n + 20 * m;
    if bytes.len() != (used + 7) / 8 {
        return refused(1);
    }
    if (used..8 * bytes.len()).any(|at| bit(bytes, at) == 1) {
        return refused(3);
    }
    let kinds = (0..n).map(|i| field(bytes, 22 + 6 * i, 6) as u16).collect();
    let part = |from: usize, width: usize| field(bytes, from, width) as u16;
    let line = |from: usize| (part(from, 2), part(from + 2, 9), part(from + 11, 9));
    let lines = (0..m).map(|i| line(22 + 6 * n + 20 * i)).collect();
    Ok(Graph { kinds, lines })
}

/// What a sheet says, or its refusal.
fn sheet(bytes: &[u8], limits: Limits) -> Result<Graph, Refusal> {
    let graph = unlined(bytes, limits)?;
    line_refusal(&graph, limits)?;
    Ok(graph)
}

/// Whether every vertex is reached from vertex 0.
pub fn connected(graph: &Graph) -> bool {
    let neighbours = graph.neighbours();
    let mut reached = vec![false; graph.n()];
    let mut waiting = vec![0];
    reached[0] = true;
    while let Some(u) = waiting.pop() {
        for &w in &neighbours[u] {
            if !reached[w] {
                reached[w] = true;
                waiting.push(w);
            }
        }
    }
    reached.into_iter().all(|yes| yes)
}

/// The figure of a sheet, or 11 to 16.
pub fn figure(bytes: &[u8]) -> Result<Graph, Refusal> {
    let graph = sheet(bytes, FIGURE)?;
    if connected(&graph) {
        Ok(graph)
    } else {
        Err(lineless(16))
    }
}

/// The patch of a sheet, or 21 to 25.
pub fn patch(bytes: &[u8]) -> Result<Graph, Refusal> {
    sheet(bytes, PATCH)
}

pub fn read(bytes: &[u8], kinds: &mut [u16], lines: &mut [u16]) -> Read {
    let graph = match patch(bytes) {
        Ok(graph) => graph,
        Err(why) => return Read::refused(why),
    };
    let list = graph.line_list();
    if kinds.len() < graph.n() || lines.len() < list.len() {
        return Read::refused(lineless(33));
    }
    kinds[..graph.n()].copy_from_slice(&graph.kinds);
    lines[..list.len()].copy_from_slice(&list);
    Read { number: 0, line: NO_LINE, vertices: graph.n() as u16, lines: graph.lines.len() as u16 }
}

/// What two lists say, be the lines good or bad.
pub fn listed(kinds: &[u16], lines: &[u16]) -> Graph {
    Graph { kinds: kinds.to_vec(), lines: lines.chunks_exact(3).map(|l| (l[0], l[1], l[2])).collect() }
}

/// What the writer is to write, or its refusal.
fn written(kinds: &[u16], lines: &[u16]) -> Result<Graph, Refusal> {
    if lines.len() % 3 != 0 {
        return Err(lineless(34));
    }
    if !counts_fit(kinds.len(), lines.len() / 3, PATCH) {
        return Err(lineless(22));
    }
    if kinds.iter().any(|&kind| kind > 63) {
        return Err(lineless(35));
    }
    let graph = listed(kinds, lines);
    line_refusal(&graph, PATCH)?;
    Ok(graph)
}

pub fn write(kinds: &[u16], lines: &[u16], bytes: &mut [u8]) -> Written {
    let graph = match written(kinds, lines) {
        Ok(graph) => graph,
        Err(why) => return Written::refused(why),
    };
    let sheet = encode(&graph);
    if bytes.len() < sheet.len() {
        return Written::refused(lineless(33));
    }
    bytes[..sheet.len()].copy_from_slice(&sheet);
    Written { number: 0, line: NO_LINE, count: sheet.len() }
}
