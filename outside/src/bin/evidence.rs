//! Runs the comparisons: evidence [plain|library] [seed [random [damaged [pairs]]]]. Prints the seed
//! and the counts of cases by answer number; the exit status is 1 on any disagreement.

#![allow(unknown_lints, unexpected_cfgs)]

use outside::calls::Calls;
use outside::evidence::Evidence;
use outside::plain::Plain;
use std::time::Instant;

#[cfg(library)]
#[path = "../library.rs"]
mod library;

#[cfg(library)]
fn asked(name: &str) -> Option<Box<dyn Calls + Sync>> {
    match name {
        "plain" => Some(Box::new(Plain)),
        "library" => Some(Box::new(library::Library)),
        _ => None,
    }
}

#[cfg(not(library))]
fn asked(name: &str) -> Option<Box<dyn Calls + Sync>> {
    match name {
        "plain" => Some(Box::new(Plain)),
        _ => None,
    }
}

fn report(evidence: &Evidence) {
    let mut part = "";
    for (&(of, number), count) in &evidence.counts {
        if of != part {
            let total: u64 = evidence.counts.iter().filter(|((p, _), _)| *p == of).map(|(_, c)| c).sum();
            print!("{}{of}: {total} cases; by number:", if part.is_empty() { "" } else { "\n" });
            part = of;
        }
        print!(" {number}: {count},");
    }
    println!();
    report_lines(evidence);
    for (what, count) in &evidence.notes {
        println!("{what}: {count}");
    }
    let largest: Vec<String> = evidence.largest.iter().map(|(what, value)| format!("{what} {value}")).collect();
    println!("most: {}", largest.join(", "));
}

/// Which answers named a line, by call and number, and how many named none.
fn report_lines(evidence: &Evidence) {
    for ((call, number), lines) in &evidence.offending {
        println!("lines named by the {call} with {number}: {lines}");
    }
    let cases: u64 = evidence.counts.values().sum();
    let named: u64 = evidence.offending.values().map(|lines| lines.count()).sum();
    println!("answers that named a line: {named}; that named none, 65,535: {}", cases - named);
}

/// One worker's share of every part.
fn share(calls: &(dyn Calls + Sync), seed: u64, shares: [u64; 3]) -> Evidence<'_> {
    let mut evidence = Evidence::new(calls, seed);
    evidence.random_cases(shares[0]);
    evidence.damaged_cases(shares[1]);
    evidence.two_calls(shares[2]);
    evidence.round_trips(shares[2]);
    evidence.row_lists(shares[2] / 2);
    evidence
}

fn main() {
    let arguments: Vec<String> = std::env::args().skip(1).collect();
    let name = arguments.first().map(|s| s.as_str()).unwrap_or("plain");
    let number = |i: usize, otherwise: u64| arguments.get(i).and_then(|s| s.parse().ok()).unwrap_or(otherwise);
    let calls = match asked(name) {
        Some(calls) => calls,
        None => {
            eprintln!("evidence: no implementation called {name} in this build");
            std::process::exit(2);
        }
    };
    let seed = number(1, 20_261_115);
    let halves = [number(2, 20_000), number(3, 20_000), number(4, 2_000)].map(|count| (count + 1) / 2);
    println!("evidence: {}, two workers, seeds {seed} and {}", calls.name(), seed + 1);
    let clock = Instant::now();
    let calls = &*calls;
    // Always two workers, so that a seed gives the same cases on every machine.
    let (mut evidence, other) = std::thread::scope(|scope| {
        let other = scope.spawn(|| share(calls, seed + 1, halves));
        let mut own = Evidence::new(calls, seed);
        own.benches();
        own.line_benches();
        own.lengths();
        own.join(share(calls, seed, halves));
        (own, other.join().unwrap())
    });
    evidence.join(other);
    report(&evidence);
    for (what, count) in &evidence.faults {
        println!("disagreements of {what}: {count}");
    }
    println!("{} disagreements, {:.1} s", evidence.faults.values().sum::<u64>(), clock.elapsed().as_secs_f64());
    std::process::exit(if evidence.faults.is_empty() { 0 } else { 1 });
}
