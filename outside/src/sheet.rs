//! A graph as a sheet has it, and the sheet of a graph, put down bit by bit. Nothing is checked
//! here, so that a sheet can be made wrong on purpose.

use std::collections::BTreeSet;

/// A line: type, first end, second end.
pub type Line = (u16, u16, u16);

/// What a sheet says.
#[derive(Clone, Debug, PartialEq, Eq)]
pub struct Graph {
    pub kinds: Vec<u16>,
    pub lines: Vec<Line>,
}

impl Graph {
    pub fn n(&self) -> usize {
        self.kinds.len()
    }

    /// The neighbours of every vertex, ascending.
    pub fn neighbours(&self) -> Vec<Vec<usize>> {
        let mut all = vec![Vec::new(); self.n()];
        for &(_, a, b) in &self.lines {
            all[a as usize].push(b as usize);
            all[b as usize].push(a as usize);
        }
        for run in &mut all {
            run.sort_unstable();
        }
        all
    }

    /// The same vertices with the live lines alone: of a patch, a normalled line is dead while any
    /// cable meets an end of it whose kind is 32 to 59.
    pub fn live(&self) -> Graph {
        let cables = self.lines.iter().filter(|&&(t, _, _)| t == 1);
        let met: BTreeSet<u16> = cables.flat_map(|&(_, a, b)| [a, b]).collect();
        let cut: BTreeSet<u16> = met.into_iter().filter(|&v| (32..60).contains(&self.kinds[v as usize])).collect();
        let dead = |&(t, a, b): &Line| t == 2 && (cut.contains(&a) || cut.contains(&b));
        Graph { kinds: self.kinds.clone(), lines: self.lines.iter().copied().filter(|l| !dead(l)).collect() }
    }

    /// The line list of the reader and the writer: three numbers a line.
    pub fn line_list(&self) -> Vec<u16> {
        self.lines.iter().flat_map(|&(t, a, b)| [t, a, b]).collect()
    }
}

/// Bits, most significant first.
#[derive(Default)]
pub struct Bits {
    bits: Vec<bool>,
}

impl Bits {
    pub fn field(&mut self, value: usize, width: usize) {
        for place in (0..width).rev() {
            self.bits.push(value >> place & 1 == 1);
        }
    }

    /// The bytes, the last one filled with zero bits.
    pub fn bytes(&self) -> Vec<u8> {
        let byte = |part: &[bool]| part.iter().enumerate().fold(0, |sum, (i, &bit)| sum | (bit as u8) << (7 - i));
        self.bits.chunks(8).map(byte).collect()
    }
}

/// The sheet of a graph, with the given counts in place of its own.
pub fn encode_counted(graph: &Graph, n: usize, m: usize) -> Vec<u8> {
    let mut bits = Bits::default();
    bits.field(n, 10);
    bits.field(m, 12);
    for &kind in &graph.kinds {
        bits.field(kind as usize, 6);
    }
    for &(t, a, b) in &graph.lines {
        bits.field(t as usize, 2);
        bits.field(a as usize, 9);
        bits.field(b as usize, 9);
    }
    bits.bytes()
}

/// The sheet of a graph.
pub fn encode(graph: &Graph) -> Vec<u8> {
    encode_counted(graph, graph.n(), graph.lines.len())
}
