//! Random graphs: plain ones, connected ones, parts of a patch, and racks as a synth has them.

use crate::random::Random;
use crate::sheet::Graph;
use std::collections::BTreeSet;

type Pair = (usize, usize);

/// The graph of kinds and pairs, the lines in the sheet's order.
fn of(kinds: Vec<u16>, pairs: &BTreeSet<Pair>, mut line_type: impl FnMut(Pair) -> u16) -> Graph {
    let lines = pairs.iter().map(|&p| (line_type(p), p.0 as u16, p.1 as u16)).collect();
    Graph { kinds, lines }
}

fn pair(a: usize, b: usize) -> Pair {
    (a.min(b), a.max(b))
}

fn kinds(random: &mut Random, n: usize, pool: &[u16]) -> Vec<u16> {
    (0..n).map(|_| *random.pick(pool)).collect()
}

/// Some different kinds.
pub fn pool(random: &mut Random, size: usize) -> Vec<u16> {
    random.shuffled(64).into_iter().take(size).map(|kind| kind as u16).collect()
}

/// Up to m different pairs of n vertices, added to those given.
fn more_pairs(random: &mut Random, n: usize, m: usize, pairs: &mut BTreeSet<Pair>) {
    let most = m.min(n * (n - 1) / 2);
    while pairs.len() < most {
        let (a, b) = (random.below(n), random.below(n));
        if a != b {
            pairs.insert(pair(a, b));
        }
    }
}

/// n vertices and m lines, or as many as there can be.
pub fn plain(random: &mut Random, n: usize, m: usize, pool: &[u16]) -> Graph {
    let kinds = kinds(random, n, pool);
    let mut pairs = BTreeSet::new();
    more_pairs(random, n, m, &mut pairs);
    of(kinds, &pairs, |_| random.below(3) as u16)
}

/// A connected graph: a random tree and further lines up to m.
pub fn connected(random: &mut Random, n: usize, m: usize, pool: &[u16]) -> Graph {
    let kinds = kinds(random, n, pool);
    let mut pairs = BTreeSet::new();
    for b in 1..n {
        pairs.insert((random.below(b), b));
    }
    more_pairs(random, n, m, &mut pairs);
    of(kinds, &pairs, |_| random.below(3) as u16)
}

/// The same graph with its vertices renumbered.
pub fn renumbered(graph: &Graph, to: &[usize]) -> Graph {
    let mut kinds = vec![0; graph.n()];
    for (old, &new) in to.iter().enumerate() {
        kinds[new] = graph.kinds[old];
    }
    let mut lines: Vec<_> = graph.lines.iter().map(|&(t, a, b)| (t, pair(to[a as usize], to[b as usize]))).collect();
    lines.sort_by_key(|&(_, ends)| ends);
    Graph { kinds, lines: lines.into_iter().map(|(t, (a, b))| (t, a as u16, b as u16)).collect() }
}

/// The same graph under a random renumbering.
pub fn mixed(random: &mut Random, graph: &Graph) -> Graph {
    let to = random.shuffled(graph.n());
    renumbered(graph, &to)
}

/// A connected part of a patch's live lines of at most n vertices, grown from a vertex; of the lines that do not
/// join it together, each stays with the given chance, within a figure's 64.
pub fn part(random: &mut Random, patch: &Graph, n: usize, keep: usize) -> Graph {
    let patch = patch.live();
    let run = patch.neighbours();
    let mut taken = vec![random.below(patch.n())];
    let mut tree = BTreeSet::new();
    for _ in 0..20 * n {
        if taken.len() == n {
            break;
        }
        let from = random.below(taken.len());
        let near = &run[taken[from]];
        if near.is_empty() {
            break;
        }
        let v = *random.pick(near);
        if !taken.contains(&v) {
            tree.insert((from, taken.len()));
            taken.push(v);
        }
    }
    let joined: BTreeSet<Pair> = patch.lines.iter().map(|&(_, a, b)| (a as usize, b as usize)).collect();
    let mut pairs = tree;
    for b in 0..taken.len() {
        for a in 0..b {
            if pairs.len() < 64 && joined.contains(&pair(taken[a], taken[b])) && random.chance(keep) {
                pairs.insert((a, b));
            }
        }
    }
    let kinds = taken.iter().map(|&v| patch.kinds[v]).collect();
    of(kinds, &pairs, |_| random.below(3) as u16)
}

/// A rack: modules, their jacks by panel lines, cables from outputs to inputs, normalled lines. A
/// module's kind fixes its jacks, as in a shop.
pub fn rack(random: &mut Random, modules: usize, cables: usize, normals: usize) -> Graph {
    let mut kinds = Vec::new();
    let mut types = std::collections::BTreeMap::new();
    let mut outputs = Vec::new();
    let mut inputs = Vec::new();
    for _ in 0..modules {
        let kind = random.below(16);
        let module = kinds.len();
        kinds.push(kind as u16);
        for j in 0..1 + kind % 3 {
            outputs.push(kinds.len());
            types.insert((module, kinds.len()), 0);
            kinds.push((16 + (kind * 5 + j * 3) % 16) as u16);
        }
        for j in 0..1 + kind % 5 {
            inputs.push(kinds.len());
            types.insert((module, kinds.len()), 0);
            kinds.push((32 + (kind * 3 + j * 7) % 28) as u16);
        }
    }
    for i in 0..cables + normals {
        let ends = pair(*random.pick(&outputs), *random.pick(&inputs));
        types.entry(ends).or_insert(if i < cables { 1 } else { 2 });
    }
    let pairs = types.keys().copied().collect();
    of(kinds, &pairs, |p| types[&p])
}

/// Mixers of kind 0, all joined to each other, with the given number of lines each to jacks of other kinds,
/// and further lines between jacks.
pub fn mixers(random: &mut Random, count: usize, lines: usize, further: usize, pool: &[u16]) -> Graph {
    let jacks = 512 - count;
    let mut pairs = BTreeSet::new();
    more_pairs(random, jacks, further, &mut pairs);
    for mixer in jacks..512 {
        pairs.extend((jacks..mixer).map(|other| (other, mixer)));
        pairs.extend(random.shuffled(jacks).iter().take(lines).map(|&jack| (jack, mixer)));
    }
    let mut all = kinds(random, jacks, pool);
    all.resize(512, 0);
    let patch = of(all, &pairs, |_| random.below(3) as u16);
    mixed(random, &patch)
}

/// A graph whose vertices are joined where they are close on a grid: many near misses.
pub fn grid(random: &mut Random, width: usize, height: usize, pool: &[u16]) -> Graph {
    let kinds = kinds(random, width * height, pool);
    let mut pairs = BTreeSet::new();
    for y in 0..height {
        for x in 0..width {
            let v = y * width + x;
            if x + 1 < width {
                pairs.insert((v, v + 1));
            }
            if y + 1 < height {
                pairs.insert((v, v + width));
            }
        }
    }
    of(kinds, &pairs, |_| 1)
}

/// A patch made of copies of a figure's vertices, each figure line drawn between some of the copies of
/// its ends: full of near misses, so that every pass of the refinement and every failing set counts.
pub fn lifted(random: &mut Random, figure: &Graph, copies: usize, percent: usize) -> Graph {
    let mut kinds = Vec::new();
    let mut of_vertex = Vec::new();
    for &kind in &figure.kinds {
        let count = random.between(1, copies);
        of_vertex.push(kinds.len()..kinds.len() + count);
        kinds.extend(vec![kind; count]);
    }
    let mut pairs = BTreeSet::new();
    for &(_, a, b) in &figure.lines {
        for v in of_vertex[a as usize].clone() {
            for w in of_vertex[b as usize].clone() {
                if random.chance(percent) {
                    pairs.insert(pair(v, w));
                }
            }
        }
    }
    let patch = of(kinds, &pairs, |_| random.below(3) as u16);
    mixed(random, &patch)
}
