//! Damaged sheets and damaged lists: some by chance, some aimed at one check.

use crate::random::Random;
use crate::sheet::{encode, encode_counted, Graph};

/// One of `count` lines: often the first or the last, since a count of lines goes wrong there.
fn spot(random: &mut Random, count: usize) -> usize {
    match random.below(6) {
        0 => 0,
        1 => count - 1,
        _ => random.below(count),
    }
}

/// Damages what a sheet says in one or two places and encodes it; the length then fits the damage.
fn within(random: &mut Random, graph: &Graph) -> Vec<u8> {
    let mut g = graph.clone();
    for _ in 0..random.between(1, 2) {
        line(random, &mut g);
    }
    encode(&g)
}

/// Damages one line of a graph, or gives it one.
fn line(random: &mut Random, g: &mut Graph) {
    let m = g.lines.len();
    if m == 0 {
        g.lines.push((random.below(4) as u16, random.below(512) as u16, random.below(512) as u16));
        return;
    }
    let i = spot(random, m);
    match random.below(8) {
        0 => g.lines[i].0 = 3,
        1 => g.lines[i].1 = g.lines[i].2,
        2 => g.lines[i] = (g.lines[i].0, g.lines[i].2, g.lines[i].1),
        3 => g.lines[i].2 = random.between(g.n(), 512).min(511) as u16,
        4 => g.lines[i] = g.lines[random.below(m)],
        5 => g.lines.swap(i, random.below(m)),
        6 => drop(g.lines.remove(i)),
        _ => g.lines[i] = (g.lines[i].0, random.below(g.n()) as u16, random.below(g.n()) as u16),
    }
}

/// Changes the counts, with or without a length that fits them.
fn counts(random: &mut Random, graph: &Graph) -> Vec<u8> {
    let n = *random.pick(&[0, 1, 31, 32, 33, 511, 512, 513, 1_023, graph.n() + 1, graph.n() - 1]);
    let m = *random.pick(&[0, 63, 64, 65, 2_047, 2_048, 2_049, 4_095, graph.lines.len() + 1, graph.lines.len(), graph.lines.len()]);
    let mut bytes = encode_counted(graph, n, m);
    if random.chance(50) {
        bytes.resize((22 + 6 * n + 20 * m + 7) / 8, 0);
    }
    bytes
}

/// One damage to the bytes themselves.
fn bytewise(random: &mut Random, bytes: &mut Vec<u8>) {
    let length = bytes.len();
    match random.below(6) {
        0 => bytes.truncate(random.below(length + 1)),
        1 => bytes.push(random.below(256) as u8),
        2 => bytes.truncate(length.saturating_sub(1)),
        3 if length > 0 => bytes[length - 1] |= 1 << random.below(8),
        4 if length > 0 => bytes[random.below(length)] = random.next() as u8,
        _ if length > 0 => bytes[random.below(length)] ^= 1 << random.below(8),
        _ => bytes.push(0),
    }
}

/// A sheet of the graph with something wrong, or by luck nothing.
pub fn sheet(random: &mut Random, graph: &Graph) -> Vec<u8> {
    match random.below(10) {
        0..=3 => within(random, graph),
        4 => counts(random, graph),
        5 => {
            let length = random.below(40);
            random.bytes(length)
        }
        6 => random.bytes(3).into_iter().take(random.below(4)).collect(),
        more => {
            let mut bytes = encode(graph);
            for _ in 0..more - 6 {
                bytewise(random, &mut bytes);
            }
            bytes
        }
    }
}

/// A kind list and a line list with something wrong, or by luck nothing.
pub fn lists(random: &mut Random, graph: &Graph) -> (Vec<u16>, Vec<u16>) {
    let mut kinds = graph.kinds.clone();
    let mut lines = graph.line_list();
    for _ in 0..random.between(1, 2) {
        match random.below(9) {
            0 => drop(lines.pop()),
            1 => lines.push(random.below(600) as u16),
            2 if !kinds.is_empty() => {
                let i = random.below(kinds.len());
                kinds[i] = *random.pick(&[63, 64, 65, 255, 256, 65_535]);
            }
            3 => kinds.resize(*random.pick(&[0, 1, 511, 512, 513, 1_025]), 7),
            4 => lines.resize(3 * *random.pick(&[0, 1, 2_048, 2_049]), 1),
            5..=6 if !lines.is_empty() => {
                let i = 3 * spot(random, (lines.len() + 2) / 3) + random.below(3);
                let i = i.min(lines.len() - 1);
                lines[i] = *random.pick(&[0, 1, 2, 3, 4, 511, 512, 513, 1_024, 16_384, 65_535, kinds.len() as u16]);
            }
            7 if lines.len() >= 6 => {
                let (i, j) = (spot(random, lines.len() / 3), random.below(lines.len() / 3));
                for k in 0..3 {
                    lines[3 * i + k] = lines[3 * j + k];
                }
            }
            _ if lines.len() >= 3 => {
                let i = 3 * spot(random, lines.len() / 3);
                lines.swap(i + 1, i + 2);
            }
            _ => (),
        }
    }
    (kinds, lines)
}
