//! Speed: whole calls, sheets in memory to answer, memory zeroed; medians.
//! The group "row" is the check of rows, its time a row.
//! bench cases FILE: writes the cases for the peers. bench times: a line for each case and each
//! implementation of this build. bench rows: those of the row check alone. bench sizes: cost against lines and against tries.

#![allow(unknown_lints, unexpected_cfgs)]

use outside::calls::{Calls, Found, MEMORY};
use outside::evidence::graph;
use outside::graphs;
use outside::hold::hold;
use outside::plain::Plain;
use outside::random::Random;
use outside::sheet::{encode, Graph};
use std::fmt::Write;
use std::time::Instant;

#[cfg(library)]
#[path = "../library.rs"]
mod library;

#[cfg(library)]
fn implementations() -> Vec<Box<dyn Calls>> {
    vec![Box::new(library::Library), Box::new(Plain)]
}

#[cfg(not(library))]
fn implementations() -> Vec<Box<dyn Calls>> {
    vec![Box::new(Plain)]
}

const SEED: u64 = 7;
const LIST: usize = 1 << 20;

struct Case {
    group: &'static str,
    figure: Graph,
    patch: Graph,
}

/// Cases whose search is complete with tries in the given range, drawn until there are enough.
fn collect(to: &mut Vec<Case>, group: &'static str, count: usize, tries: (u32, u32), mut draw: impl FnMut() -> (Graph, Graph)) {
    let mut left = count;
    let (mut memory, mut list) = (vec![0; MEMORY], vec![0; LIST]);
    while left > 0 {
        let (figure, patch) = draw();
        let found = Plain.find(&encode(&figure), &encode(&patch), &mut memory, &mut list, tries.1);
        if found.number == 0 && found.tries >= tries.0 {
            to.push(Case { group, figure, patch });
            left -= 1;
        }
    }
}

fn tiny(to: &mut Vec<Case>, random: &mut Random) {
    let mut fixed = |figure, patch| to.push(Case { group: "tiny", figure, patch });
    fixed(graph(&[1, 2], &[(0, 1)]), graph(&[1, 2, 2], &[(0, 1), (0, 2)]));
    fixed(graph(&[2, 2], &[(0, 1)]), graph(&[2, 2], &[(0, 1)]));
    fixed(graph(&[3, 3, 3], &[(0, 1), (0, 2), (1, 2)]), graph(&[3, 3, 3, 3], &[(0, 1), (0, 3), (1, 2), (2, 3)]));
    fixed(graph(&[1, 2, 2, 4], &[(0, 1), (0, 2), (2, 3)]), graph(&[1, 2, 2, 4], &[(0, 1), (0, 2), (1, 3)]));
    collect(to, "tiny", 12, (1, 100), || {
        let n = random.between(4, 12);
        let patch = graphs::plain(random, n, 2 * n, &[1, 2, 3]);
        (graphs::part(random, &patch, 4, 80), patch)
    });
}

fn racks(to: &mut Vec<Case>, random: &mut Random) {
    collect(to, "rack", 16, (1, 2_000), || {
        let modules = random.between(12, 64);
        let patch = graphs::rack(random, modules, 2 * modules, modules / 2);
        let n = random.between(4, 14);
        (graphs::part(random, &patch, n, 100), patch)
    });
}

fn randoms(to: &mut Vec<Case>, random: &mut Random) {
    collect(to, "random", 16, (10, 20_000), || {
        let n = random.between(64, 512);
        let size = random.between(4, 16);
        let pool = graphs::pool(random, size);
        let m = random.between(2 * n, 4 * n);
        let patch = graphs::plain(random, n, m, &pool);
        let n = random.between(5, 16);
        (graphs::part(random, &patch, n, 70), patch)
    });
}

fn hard(to: &mut Vec<Case>, random: &mut Random) {
    collect(to, "hard", 12, (50_000, 2_000_000), || match random.below(3) {
        0 => {
            let n = random.between(24, 128);
            let m = random.between(3 * n, 6 * n);
            let patch = graphs::plain(random, n, m, &[1, 2]);
            let n = random.between(7, 14);
            (graphs::part(random, &patch, n, 90), patch)
        }
        1 => {
            let width = random.between(6, 20);
            let patch = graphs::grid(random, width, 12, &[1]);
            let n = random.between(7, 12);
            (graphs::part(random, &patch, n, 100), patch)
        }
        _ => {
            let n = random.between(200, 512);
            let patch = graphs::plain(random, n, 2_048, &[1, 2, 3]);
            let n = random.between(6, 10);
            let m = n + random.below(4);
            (graphs::connected(random, n, m, &[1, 2, 3]), patch)
        }
    });
}

/// Mixers with hundreds of lines, jacks with a few, and figures of jacks that are plugged into two or
/// three mixers at once: the line test is asked of a mixer and a jack.
fn mixers(to: &mut Vec<Case>, random: &mut Random) {
    let pool: Vec<u16> = (1..13).collect();
    collect(to, "mixer", 12, (100, 200_000), || {
        let (count, lines) = (random.between(2, 4), random.between(300, 450));
        let patch = graphs::mixers(random, count, lines, 256, &pool);
        let mut jack = || *random.pick(&pool);
        let (a, b) = (jack(), jack());
        let figure = match random.below(3) {
            0 => graph(&[0, 0, a], &[(0, 1), (0, 2), (1, 2)]),
            1 => graph(&[0, 0, a, b], &[(0, 1), (0, 2), (0, 3), (1, 2), (1, 3)]),
            _ => graph(&[0, 0, 0, a, b], &[(0, 1), (0, 2), (0, 3), (1, 2), (1, 3), (1, 4), (2, 3), (2, 4)]),
        };
        (figure, patch)
    });
}

fn cases() -> Vec<Case> {
    let mut all = Vec::new();
    let mut random = Random::new(SEED);
    tiny(&mut all, &mut random);
    racks(&mut all, &mut random);
    randoms(&mut all, &mut random);
    hard(&mut all, &mut random);
    mixers(&mut all, &mut random);
    all
}

/// One case as text: counts, kinds and lines of the figure, then kinds and live lines of the patch.
fn text(case: &Case, index: usize) -> String {
    let mut out = format!("{} {index}\n", case.group);
    for g in [&case.figure, &case.patch.live()] {
        writeln!(out, "{} {}", g.n(), g.lines.len()).unwrap();
        let kinds: Vec<String> = g.kinds.iter().map(|k| k.to_string()).collect();
        writeln!(out, "{}", kinds.join(" ")).unwrap();
        let ends: Vec<String> = g.lines.iter().map(|&(_, a, b)| format!("{a} {b}")).collect();
        writeln!(out, "{}", ends.join(" ")).unwrap();
    }
    out
}

/// What is lent, and what is asked.
struct Asked<'a> {
    figure: &'a [u8],
    patch: &'a [u8],
    allowance: u32,
    memory: Vec<u16>,
    list: Vec<u16>,
}

impl Asked<'_> {
    fn call(&mut self, calls: &dyn Calls) -> Found {
        hold(calls.find(hold(self.figure), hold(self.patch), &mut self.memory, &mut self.list, self.allowance))
    }

    /// The mean time of some calls, in nanoseconds.
    fn batch(&mut self, calls: &dyn Calls, turns: u32) -> f64 {
        let start = Instant::now();
        for _ in 0..turns {
            self.call(calls);
        }
        start.elapsed().as_nanos() as f64 / turns as f64
    }
}

/// The median time of one call in nanoseconds and its answer, for each implementation. They take
/// turns, so that what else the machine does falls on all alike.
fn measure(figure: &[u8], patch: &[u8], allowance: u32) -> Vec<(&'static str, f64, Found)> {
    let mut asked = Asked { figure, patch, allowance, memory: vec![0; MEMORY], list: vec![0; LIST] };
    let all = implementations();
    let answers: Vec<Found> = all.iter().map(|calls| asked.call(&**calls)).collect();
    let once = all.iter().map(|calls| asked.batch(&**calls, 1)).fold(1.0, f64::max);
    let turns = (100_000.0 / once).max(1.0).min(200.0) as u32;
    let batches = if once > 20e6 { 5 } else { 51 };
    let mut times = vec![Vec::new(); all.len()];
    for _ in 0..batches {
        for (calls, of) in all.iter().zip(&mut times) {
            of.push(asked.batch(&**calls, turns));
        }
    }
    all.iter().zip(times).zip(answers).map(|((calls, of), found)| (calls.name(), median(of), found)).collect()
}

/// Lists of 1,000 to 10,000 rows of the search's own, shuffled, and their time a row.
fn row_lists() {
    let mut random = Random::new(SEED);
    let (mut memory, mut list) = (vec![0; MEMORY], vec![0; LIST]);
    let mut index = 0;
    while index < 12 {
        let n = random.between(64, 512);
        let patch = graphs::plain(&mut random, n, 3 * n, &[1, 2, 3]);
        let n = random.between(3, 16);
        let figure = graphs::part(&mut random, &patch, n, 80);
        let (f, p) = (encode(&figure), encode(&patch));
        let found = Plain.find(&f, &p, &mut memory, &mut list[..10_000 * n], 200_000);
        if found.number > 2 || found.rows < 1_000 {
            continue;
        }
        let rows: Vec<u16> = random.shuffled(found.rows).iter().flat_map(|&i| list[i * n..(i + 1) * n].to_vec()).collect();
        for (name, ns) in measure_rows(&f, &p, &rows) {
            println!("row {index} {name} {:.1} {} 0", ns / found.rows as f64, found.rows);
        }
        index += 1;
    }
}

/// The median time of one check of the whole list, for each implementation, taking turns.
fn measure_rows(figure: &[u8], patch: &[u8], rows: &[u16]) -> Vec<(&'static str, f64)> {
    let all = implementations();
    let mut times = vec![Vec::new(); all.len()];
    for _ in 0..51 {
        for (calls, of) in all.iter().zip(&mut times) {
            let start = Instant::now();
            assert_eq!(hold(calls.check_rows(hold(figure), hold(patch), hold(rows))).number, 0);
            of.push(start.elapsed().as_nanos() as f64);
        }
    }
    all.iter().zip(times).map(|(calls, of)| (calls.name(), median(of))).collect()
}

fn median(mut of: Vec<f64>) -> f64 {
    of.sort_by(|a, b| a.partial_cmp(b).unwrap());
    of[of.len() / 2]
}

fn times() {
    for (index, case) in cases().iter().enumerate() {
        let (f, p) = (encode(&case.figure), encode(&case.patch));
        for (name, ns, found) in measure(&f, &p, u32::MAX) {
            println!("{} {index} {name} {ns:.0} {} {}", case.group, found.rows, found.tries);
        }
    }
    row_lists();
}

/// Cost against lines on easy calls, and against tries on one hard graph.
fn sizes() {
    let mut random = Random::new(SEED);
    let pool = graphs::pool(&mut random, 40);
    for m in (0..=2_048).step_by(128) {
        let patch = graphs::plain(&mut random, 512, m, &pool);
        let figure = graph(&[patch.kinds[0], patch.kinds[1], patch.kinds[2]], &[(0, 1), (1, 2)]);
        size("lines", m, &figure, &patch, u32::MAX);
    }
    let patch = graphs::plain(&mut random, 256, 2_048, &[1, 2]);
    let figure = graph(&[1, 2, 1, 2, 1, 2, 1], &[(0, 1), (0, 6), (1, 2), (2, 3), (3, 4), (4, 5), (5, 6)]);
    for power in 0..=20 {
        size("tries", 1 << power, &figure, &patch, 1 << power);
    }
}

fn size(what: &str, value: usize, figure: &Graph, patch: &Graph, allowance: u32) {
    let (f, p) = (encode(figure), encode(patch));
    for (name, ns, found) in measure(&f, &p, allowance) {
        println!("{what} {value} {name} {ns:.0} {} {}", found.rows, found.tries);
    }
}

fn main() {
    let arguments: Vec<String> = std::env::args().skip(1).collect();
    match arguments.first().map(|s| s.as_str()) {
        Some("cases") => {
            let all: String = cases().iter().enumerate().map(|(i, case)| text(case, i)).collect();
            std::fs::write(&arguments[1], all).unwrap();
        }
        Some("times") => times(),
        Some("rows") => row_lists(),
        Some("sizes") => sizes(),
        _ => panic!("bench cases FILE, bench times, bench rows or bench sizes"),
    }
}
