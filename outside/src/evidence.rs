//! The comparisons. Each part draws cases from a printed seed, asks one implementation and the
//! independent ones, and counts every disagreement; nothing is taken on trust from the one asked.

use crate::calls::{Calls, Checked, Found, Read, Written, MEMORY, NO_LINE};
use crate::line_benches::line_benches;
use crate::model::{self, Model};
use crate::offending::Offending;
use crate::random::Random;
use crate::sheet::{encode, Graph};
use crate::{check, damage, graphs, matcher};
use std::collections::BTreeMap;

/// Numbers on either side of what is lent, which no call may touch.
const GUARD: usize = 16;

/// The most tries a random case makes, so that the model stays quick.
const CAP: u32 = 2_000;

/// The most looks the matcher takes at one case before another is drawn.
const STEPS: u64 = 200_000;

/// A call of the search as a case has it.
pub struct Case<'a> {
    pub figure: &'a [u8],
    pub patch: &'a [u8],
    pub memory: usize,
    pub list: usize,
    pub allowance: u32,
}

pub struct Evidence<'a> {
    calls: &'a (dyn Calls + Sync),
    random: Random,
    /// Random numbers from which dirty lent memory is copied.
    dirt: Vec<u16>,
    pub faults: BTreeMap<&'static str, u64>,
    pub counts: BTreeMap<(&'static str, u16), u64>,
    /// The lines named, by call and number.
    pub offending: BTreeMap<(&'static str, u16), Offending>,
    pub notes: BTreeMap<&'static str, u64>,
    pub largest: BTreeMap<&'static str, u64>,
}

fn hex(bytes: &[u8]) -> String {
    bytes.iter().map(|b| format!("{b:02x}")).collect()
}

impl<'a> Evidence<'a> {
    pub fn new(calls: &'a (dyn Calls + Sync), seed: u64) -> Evidence<'a> {
        let mut random = Random::new(seed);
        let dirt = (0..1 << 18).map(|_| random.next() as u16).collect();
        Evidence {
            calls,
            random,
            dirt,
            faults: BTreeMap::new(),
            counts: BTreeMap::new(),
            offending: BTreeMap::new(),
            notes: BTreeMap::new(),
            largest: BTreeMap::new(),
        }
    }

    /// Dirty 16-bit numbers, as a caller may lend them.
    fn dirt(&mut self, length: usize) -> Vec<u16> {
        let mut made = Vec::with_capacity(length);
        while made.len() < length {
            let from = self.random.below(self.dirt.len() / 2);
            let end = self.dirt.len().min(from + length - made.len());
            made.extend_from_slice(&self.dirt[from..end]);
        }
        made
    }

    fn dirty_bytes(&mut self, length: usize) -> Vec<u8> {
        self.dirt(length).iter().map(|&number| number as u8).collect()
    }

    fn fault(&mut self, what: &'static str, about: &str) {
        let count = self.faults.entry(what).or_insert(0);
        *count += 1;
        if *count <= 5 {
            println!("DISAGREEMENT: {what}\n  {about}");
        }
    }

    fn note(&mut self, what: &'static str, by: u64) {
        *self.notes.entry(what).or_insert(0) += by;
    }

    fn count(&mut self, part: &'static str, number: u16) {
        *self.counts.entry((part, number)).or_insert(0) += 1;
    }

    /// Counts the line that an answer about this graph named, if it named one.
    fn count_line(&mut self, call: &'static str, number: u16, line: u16, graph: &Graph) {
        let bad = check::bad_lines(graph).len();
        self.offending.entry((call, number)).or_default().add(line as usize, graph.lines.len(), bad);
    }

    /// The same for an answer about two sheets: from 20 on it is about the second.
    fn count_line_of_two(&mut self, call: &'static str, number: u16, line: u16, figure: &[u8], patch: &[u8]) {
        if line != NO_LINE {
            let about = if number < 20 { check::unlined(figure, check::FIGURE) } else { check::unlined(patch, check::PATCH) };
            self.count_line(call, number, line, &about.unwrap());
        }
    }

    /// An answer of a call that is not compared with the model's, on sheets that are accepted.
    fn expect_no_line(&mut self, call: &'static str, line: u16) {
        if line != NO_LINE {
            self.fault("a line in an answer that is about none", &format!("{call}: {line}"));
        }
    }

    /// One call beside the model's: the answer, every list number, all the memory, and the guards.
    fn compare(&mut self, part: &'static str, case: &Case) -> (Found, Vec<u16>) {
        let memory = self.dirt(case.memory + 2 * GUARD);
        let list = self.dirt(case.list + 2 * GUARD);
        let run = |calls: &dyn Calls| {
            let (mut m, mut l) = (memory.clone(), list.clone());
            let lent = (GUARD..GUARD + case.memory, GUARD..GUARD + case.list);
            let found = calls.find(case.figure, case.patch, &mut m[lent.0], &mut l[lent.1], case.allowance);
            (found, m, l)
        };
        let got = run(self.calls);
        let expected = run(&Model);
        self.count(part, expected.0.number);
        self.count_line_of_two("search", expected.0.number, expected.0.line, case.figure, case.patch);
        if got != expected {
            let about = format!(
                "{part}: figure {} patch {} memory {} list {} allowance {}: got {:?}, expected {:?}; memory {}, list {}",
                hex(case.figure), hex(case.patch), case.memory, case.list, case.allowance,
                got.0, expected.0, got.1 == expected.1, got.2 == expected.2
            );
            self.fault("the search against the model", &about);
        }
        (got.0, got.2[GUARD..GUARD + case.list].to_vec())
    }

    /// Rows against all places of the matcher, in matching order.
    fn against_places(&mut self, mut places: Vec<Vec<u16>>, order: &[usize], found: Found, list: &[u16], room: usize) {
        places.sort_by_key(|row| order.iter().map(|&u| row[u]).collect::<Vec<u16>>());
        let n = order.len();
        let rows: Vec<Vec<u16>> = list.chunks(n).take(found.rows).map(|row| row.to_vec()).collect();
        let right = match found.number {
            0 => rows == places,
            1 => found.rows == room && places.len() > room && rows[..] == places[..room],
            2 => rows.len() <= places.len() && rows[..] == places[..rows.len()],
            _ => false,
        };
        self.note("places by the matcher", places.len() as u64);
        if !right {
            let about = format!("{found:?} room {room}: rows {rows:?} of places {places:?} in order {order:?}");
            self.fault("the rows against the matcher", &about);
        }
    }

    /// One random case: the matcher, the model and the implementation asked. False where the matcher
    /// took too long; the model is compared with all the same.
    fn random_case(&mut self, class: usize) -> bool {
        let (figure, patch) = draw(&mut self.random, class);
        let places = matcher::places(&figure, &patch, STEPS);
        let plan = model::plan(&figure, &patch);
        let base = model::answer(&plan, usize::MAX, CAP);
        let room = near(&mut self.random, base.1.len());
        let allowance = if base.0 == 0 && self.random.chance(30) { u32::MAX } else { (near(&mut self.random, base.2 as usize) as u32).min(CAP) };
        let list = room * figure.n() + self.random.below(figure.n());
        let memory = *self.random.pick(&[MEMORY, MEMORY, MEMORY + 1, MEMORY + 77]);
        let (f, p) = (encode(&figure), encode(&patch));
        let part = if places.is_some() { "random" } else { "random, model alone" };
        let (found, list) = self.compare(part, &Case { figure: &f, patch: &p, memory, list, allowance });
        self.most("patch vertices", patch.n() as u64);
        self.most("patch lines", patch.lines.len() as u64);
        self.most("figure vertices", figure.n() as u64);
        self.most("figure lines", figure.lines.len() as u64);
        match places {
            Some(places) => self.against_places(places, &plan.order, found, &list, room),
            None => return false,
        }
        true
    }

    /// What another worker found, added to this one's.
    pub fn join(&mut self, other: Evidence) {
        for (&key, count) in &other.counts {
            *self.counts.entry(key).or_insert(0) += count;
        }
        for (&key, lines) in &other.offending {
            self.offending.entry(key).or_default().join(lines);
        }
        for (&what, count) in &other.faults {
            *self.faults.entry(what).or_insert(0) += count;
        }
        for (&what, count) in &other.notes {
            self.note(what, *count);
        }
        for (&what, value) in &other.largest {
            self.most(what, *value);
        }
    }

    fn most(&mut self, what: &'static str, value: u64) {
        let held = self.largest.entry(what).or_insert(0);
        *held = value.max(*held);
    }

    /// `count` random cases that the matcher finishes.
    pub fn random_cases(&mut self, count: u64) {
        let mut done = 0;
        let mut class = 0;
        while done < count {
            class = (class + 1) % 20;
            if self.random_case(class) {
                done += 1;
            }
        }
    }

    /// Damaged sheets as figure, as patch, as both, and for the reader.
    fn damaged_case(&mut self) {
        let figure = small_figure(&mut self.random);
        let patch = small_patch(&mut self.random);
        let good = (encode(&figure), encode(&patch));
        let bad = (damage::sheet(&mut self.random, &figure), damage::sheet(&mut self.random, &patch));
        let memory = *self.random.pick(&[MEMORY, MEMORY, MEMORY, MEMORY - 1, 0]);
        let list = self.random.below(200);
        let allowance = self.random.below(500) as u32;
        match self.random.below(3) {
            0 => self.compare("damaged figure", &Case { figure: &bad.0, patch: &good.1, memory, list, allowance }),
            1 => self.compare("damaged patch", &Case { figure: &good.0, patch: &bad.1, memory, list, allowance }),
            _ => self.compare("damaged both", &Case { figure: &bad.0, patch: &bad.1, memory, list, allowance }),
        };
        let read = if self.random.chance(70) { &bad.1 } else { &bad.0 };
        self.reader_case(read);
        let (kinds, lines) = damage::lists(&mut self.random, &patch);
        self.writer_case(&kinds, &lines);
    }

    fn reader_case(&mut self, sheet: &[u8]) {
        let (n, m) = match check::patch(sheet) {
            Ok(graph) => (graph.n(), 3 * graph.lines.len()),
            Err(_) => (self.random.below(40), self.random.below(99)),
        };
        let kinds = near_length(&mut self.random, n);
        let lines = near_length(&mut self.random, m);
        let lent = (self.dirt(kinds + 2 * GUARD), self.dirt(lines + 2 * GUARD));
        let run = |calls: &dyn Calls| {
            let (mut k, mut l) = lent.clone();
            let read = calls.read(sheet, &mut k[GUARD..GUARD + kinds], &mut l[GUARD..GUARD + lines]);
            (read, k, l)
        };
        let (got, expected) = (run(self.calls), run(&Model));
        self.count("reader", expected.0.number);
        if expected.0.line != NO_LINE {
            self.count_line("reader", expected.0.number, expected.0.line, &check::unlined(sheet, check::PATCH).unwrap());
        }
        if got != expected {
            let about = format!("sheet {} lists {kinds} {lines}: got {:?}, expected {:?}", hex(sheet), got.0, expected.0);
            self.fault("the reader", &about);
        }
    }

    fn writer_case(&mut self, kinds: &[u16], lines: &[u16]) {
        let length = (22 + 6 * kinds.len() + 20 * (lines.len() / 3) + 7) / 8;
        let room = near_length(&mut self.random, length);
        let lent = self.dirty_bytes(room + 2 * GUARD);
        let run = |calls: &dyn Calls| {
            let mut bytes = lent.clone();
            let written = calls.write(kinds, lines, &mut bytes[GUARD..GUARD + room]);
            (written, bytes)
        };
        let (got, expected) = (run(self.calls), run(&Model));
        self.count("writer", expected.0.number);
        if expected.0.line != NO_LINE {
            self.count_line("writer", expected.0.number, expected.0.line, &check::listed(kinds, lines));
        }
        if got != expected {
            let about = format!("kinds {kinds:?} lines {lines:?} room {room}: got {:?}, expected {:?}", got.0, expected.0);
            self.fault("the writer", &about);
        }
    }

    /// `count` damaged sheets for the search, and as many for the reader and lists for the writer.
    pub fn damaged_cases(&mut self, count: u64) {
        for _ in 0..count {
            self.damaged_case();
        }
    }

    /// Reads what was written and writes what was read, through the implementation alone.
    fn round_trip(&mut self, graph: &Graph) {
        let (kinds, lines) = (graph.kinds.clone(), graph.line_list());
        let mut bytes = vec![0xa5; 5_507];
        let written = self.calls.write(&kinds, &lines, &mut bytes);
        let (mut k, mut l) = (vec![9; 512], vec![9; 3 * 2_048]);
        let read = self.calls.read(&bytes[..written.count], &mut k, &mut l);
        let (n, m) = (read.vertices as usize, 3 * read.lines as usize);
        let mut again = vec![0x5a; 5_507];
        let back = self.calls.write(&k[..n], &l[..m], &mut again);
        self.expect_no_line("writer", written.line);
        self.expect_no_line("reader", read.line);
        let whole = written.number == 0 && read.number == 0 && k[..n] == kinds[..] && l[..m] == lines[..];
        let same = back == written && again[..back.count] == bytes[..written.count] && bytes[..written.count] == encode(graph)[..];
        if !whole || !same {
            self.fault("a round trip", &format!("{graph:?}: {written:?} {read:?} {back:?}"));
        }
    }

    pub fn round_trips(&mut self, count: u64) {
        for class in 0..count {
            let (figure, patch) = draw(&mut self.random, class as usize % 20);
            self.round_trip(&figure);
            self.round_trip(&patch);
            self.note("round trips", 2);
        }
    }

    /// One list of rows beside the model's check. The list is only read, so that nothing is left to compare.
    fn compare_rows(&mut self, part: &'static str, figure: &[u8], patch: &[u8], rows: &[u16]) -> Checked {
        let got = self.calls.check_rows(figure, patch, rows);
        let expected = Model.check_rows(figure, patch, rows);
        self.count(part, expected.number);
        self.count_line_of_two("check of rows", expected.number, expected.line, figure, patch);
        if got != expected {
            let about = format!("{part}: figure {} patch {} rows {rows:?}: got {got:?}, expected {expected:?}", hex(figure), hex(patch));
            self.fault("the check of rows", &about);
        }
        got
    }

    /// The search's own list, then the same list shuffled, edited, with a row twice, and cut.
    fn row_list(&mut self, figure: &Graph, patch: &Graph, tries: u32) {
        let n = figure.n();
        let (f, p) = (encode(figure), encode(patch));
        let own = self.rows(&f, &p, tries as usize, n, tries).1;
        self.most("rows in a list", (own.len() / n) as u64);
        if self.compare_rows("rows, own", &f, &p, &own) != Checked::accepted() {
            self.fault("a list of the search is accepted", &format!("{} {}", hex(&f), hex(&p)));
        }
        let shuffled = self.shuffled_rows(&own, n);
        self.compare_rows("rows, shuffled", &f, &p, &shuffled);
        let twice = self.row_twice(&shuffled, n);
        self.compare_rows("rows, one twice", &f, &p, &twice);
        for _ in 0..3 {
            let edited = self.edited_rows(&twice, n, patch.n());
            self.compare_rows("rows, edited", &f, &p, &edited);
            let edited = self.edited_rows(&shuffled, n, patch.n());
            self.compare_rows("rows, edited", &f, &p, &edited);
        }
        let cut = &twice[..self.random.below(twice.len() + 1)];
        self.compare_rows("rows, cut", &f, &p, cut);
    }

    fn shuffled_rows(&mut self, rows: &[u16], n: usize) -> Vec<u16> {
        let order = self.random.shuffled(rows.len() / n);
        order.iter().flat_map(|&i| rows[i * n..(i + 1) * n].to_vec()).collect()
    }

    /// A row of the list once more, anywhere in it.
    fn row_twice(&mut self, rows: &[u16], n: usize) -> Vec<u16> {
        let count = rows.len() / n;
        let mut made = rows.to_vec();
        if count > 0 {
            let from = self.random.below(count) * n;
            let to = self.random.below(count + 1) * n;
            let row = rows[from..from + n].to_vec();
            made.splice(to..to, row);
        }
        made
    }

    /// One or two entries changed: to one past the last vertex, any number, an entry nearby, the same entry of
    /// another row, or any patch vertex.
    fn edited_rows(&mut self, rows: &[u16], n: usize, vertices: usize) -> Vec<u16> {
        let mut made = rows.to_vec();
        for _ in 0..self.random.between(1, 2) {
            if made.is_empty() {
                break;
            }
            let at = self.random.below(made.len());
            let near = (at + self.random.below(4)).min(made.len() - 1);
            let other = (at + n * self.random.below(made.len())) % made.len();
            made[at] = match self.random.below(10) {
                0 => vertices as u16,
                1 => self.random.next() as u16,
                2 | 3 => made[near],
                4..=7 => made[other],
                _ => self.random.below(vertices) as u16,
            };
        }
        made
    }

    /// Row lists for `count` pairs of sheets, one in a hundred with thousands of rows, and some broken sheets.
    pub fn row_lists(&mut self, count: u64) {
        for i in 0..count {
            if i % 100 == 99 {
                let n = self.random.between(2, 3);
                let patch = graphs::plain(&mut self.random, 300, 1_200, &[1, 2]);
                let figure = graphs::part(&mut self.random, &patch, n, 100);
                self.row_list(&figure, &patch, 6_000);
            } else {
                let (figure, patch) = draw(&mut self.random, i as usize % 20);
                self.row_list(&figure, &patch, 200);
                let (f, p) = (damage::sheet(&mut self.random, &figure), damage::sheet(&mut self.random, &patch));
                let length = self.random.below(4 * figure.n());
                let rows = self.dirt(length);
                let (f, p) = if self.random.chance(50) { (f, encode(&patch)) } else { (encode(&figure), p) };
                self.compare_rows("rows, broken sheets", &f, &p, &rows);
            }
        }
    }

    /// Demand 3 by pairs of calls, through the implementation alone.
    pub fn two_calls(&mut self, count: u64) {
        for class in 0..count {
            let (figure, patch) = draw(&mut self.random, class as usize % 20);
            let plan = model::plan(&figure, &patch);
            let most = model::answer(&plan, usize::MAX, CAP);
            let room = near(&mut self.random, most.1.len());
            let allowance = near(&mut self.random, most.2 as usize) as u32;
            let more = (room + self.random.below(4), allowance + self.random.below(50) as u32);
            let (f, p) = (encode(&figure), encode(&patch));
            let first = self.rows(&f, &p, room, figure.n(), allowance);
            let second = self.rows(&f, &p, more.0, figure.n(), more.1);
            let begins = first.1.len() <= second.1.len() && second.1[..first.1.len()] == first.1[..];
            let complete_stays = first.0.number != 0 || second == first;
            let reasons = [first.clone(), second.clone()].iter().zip([(room, allowance), more]).all(|(call, given)| match call.0.number {
                0 => call.0.rows <= given.0 && call.0.tries <= given.1,
                1 => call.0.rows == given.0 && call.0.tries <= given.1,
                2 => call.0.tries == given.1 && call.0.rows <= given.0,
                _ => false,
            });
            self.count("two calls, first", first.0.number);
            self.count("two calls, second", second.0.number);
            if !begins || !complete_stays || !reasons {
                let about = format!("{} {} {room} {allowance} {more:?}: {:?} {:?}", hex(&f), hex(&p), first.0, second.0);
                self.fault("two calls (demand 3)", &about);
            }
            self.partial_placements(&plan, &f, &p, figure.n());
        }
    }

    fn rows(&mut self, figure: &[u8], patch: &[u8], room: usize, n: usize, allowance: u32) -> (Found, Vec<u16>) {
        let (mut memory, mut list) = (self.dirt(MEMORY), self.dirt(room * n));
        let found = self.calls.find(figure, patch, &mut memory, &mut list, allowance);
        self.expect_no_line("search", found.line);
        list.truncate(found.rows * n);
        (found, list)
    }

    /// An allowance of the number of partial placements never ends in 2.
    fn partial_placements(&mut self, plan: &model::Plan, figure: &[u8], patch: &[u8], n: usize) {
        let number = match model::partials_grown(plan, 4_000) {
            Some(number) => number,
            None => return,
        };
        if let Some(counted) = model::partials(plan, 3_000) {
            self.note("partial placements counted by tuples", 1);
            if counted != number {
                self.fault("two counts of partial placements", &format!("{counted} {number} {} {}", hex(figure), hex(patch)));
            }
        }
        self.note("allowance of all partial placements", 1);
        for room in [0, 1, number as usize] {
            let found = self.rows(figure, patch, room, n, number as u32).0;
            if found.number > 1 || found.tries as u64 > number {
                self.fault("tries within partial placements", &format!("{found:?} of {number}: {} {}", hex(figure), hex(patch)));
            }
        }
    }

    /// The lengths of the memory around its least one, with good and with refused sheets, and room 0.
    pub fn lengths(&mut self) {
        let figure = encode(&graph(&[1, 2], &[(0, 1)]));
        let patch = encode(&graph(&[1, 2, 2], &[(0, 1), (0, 2)]));
        let loose = encode(&graph(&[1, 2], &[]));
        let bad = [0x00, 0x40, 0x00, 0x51];
        for memory in [0, 1, MEMORY - 1, MEMORY, MEMORY + 1] {
            for (f, p) in [(&figure[..], &patch[..]), (&loose, &patch), (&figure, &bad), (&bad, &bad), (&[], &[])] {
                for list in [0, 1, 2, 3, 4, 5] {
                    for allowance in [0, 1, 2, 3, u32::MAX] {
                        self.compare("lengths", &Case { figure: f, patch: p, memory, list, allowance });
                    }
                }
            }
        }
    }

    /// Document 01's benches, each with what that page says of it, and some of our own.
    pub fn benches(&mut self) {
        for bench in benches().into_iter().chain(cut_lines()) {
            let n = check::figure(&bench.figure).map(|g| g.n()).unwrap_or(1);
            let case = Case { figure: &bench.figure, patch: &bench.patch, memory: bench.memory, list: bench.room * n, allowance: bench.allowance };
            let (found, list) = self.compare("benches", &case);
            let rows = &list[..found.rows * n];
            if (found.number, found.line, found.tries) != (bench.number, 65_535, bench.tries) || rows != &bench.rows[..] {
                self.fault("a bench", &format!("{}: {found:?} {rows:?}", bench.name));
            }
        }
        let a = [0x00, 0x80, 0x04, 0x10, 0x90, 0x00, 0x04];
        let mut bytes = [0xff; 8];
        let written = self.calls.write(&[1, 2], &[1, 0, 1], &mut bytes);
        if written != (Written { number: 0, line: 65_535, count: 7 }) || bytes[..7] != a || bytes[7] != 0xff {
            self.fault("bench a", &format!("{written:?} {bytes:02x?}"));
        }
        let read = self.calls.read(&[0x00, 0x40, 0x00, 0x51], &mut [0; 9], &mut [0; 9]);
        if read != (Read { number: 23, line: 65_535, vertices: 0, lines: 0 }) {
            self.fault("bench b", &format!("{read:?}"));
        }
    }

    /// Sheets with bad lines, each with the line that every call must name; with a filling bit set, none.
    pub fn line_benches(&mut self) {
        for bench in line_benches() {
            let mut sheet = encode(&bench.graph);
            self.line_bench(bench.name, &sheet, bench.figure, bench.patch);
            let written = self.calls.write(&bench.graph.kinds, &bench.graph.line_list(), &mut [9; 5_507]);
            if (written.number, written.line) != bench.patch {
                self.fault("a bad line for the writer", &format!("{}: {written:?}", bench.name));
            }
            // Each of these sheets has filling bits.
            *sheet.last_mut().unwrap() |= 1;
            let figure = if bench.figure.0 == 12 { bench.figure } else { (13, 65_535) };
            self.line_bench(bench.name, &sheet, figure, (23, 65_535));
        }
    }

    /// A sheet's number and line as figure, with a good patch and with itself, and as patch.
    fn line_bench(&mut self, name: &str, sheet: &[u8], figure: (u16, u16), patch: (u16, u16)) {
        let good = &encode(&graph(&[1, 1], &[(0, 1)]))[..];
        for (f, p, expected) in [(sheet, good, figure), (sheet, sheet, figure), (good, sheet, patch)] {
            let found = self.compare("bad lines", &Case { figure: f, patch: p, memory: MEMORY, list: 9, allowance: 9 }).0;
            let checked = self.compare_rows("rows, bad lines", f, p, &[0, 1]);
            if (found.number, found.line) != expected || (checked.number, checked.line) != expected {
                self.fault("a bad line for the search and the check of rows", &format!("{name}: {found:?} {checked:?}, not {expected:?}"));
            }
        }
        let read = self.calls.read(sheet, &mut [9; 512], &mut [9; 3 * 2_048]);
        if (read.number, read.line) != patch {
            self.fault("a bad line for the reader", &format!("{name}: {read:?}, not {patch:?}"));
        }
    }
}

/// Vertices of the given kinds and cables between the given pairs.
pub fn graph(kinds: &[u16], pairs: &[(u16, u16)]) -> Graph {
    Graph { kinds: kinds.to_vec(), lines: pairs.iter().map(|&(a, b)| (1, a, b)).collect() }
}

struct Bench {
    name: &'static str,
    figure: Vec<u8>,
    patch: Vec<u8>,
    memory: usize,
    room: usize,
    allowance: u32,
    number: u16,
    tries: u32,
    rows: Vec<u16>,
}

/// Not of document 01: only the third pass empties a set (that of figure vertex 3), so no try is made;
/// after two passes there would be three.
fn third_pass() -> Bench {
    let figure = graph(&[0, 1, 2, 3, 4, 5], &[(0, 1), (0, 2), (1, 3), (1, 4), (2, 3), (2, 5)]);
    let patch = graph(
        &[0, 1, 1, 2, 2, 3, 3, 4, 5, 9, 9],
        &[(0, 1), (0, 2), (0, 3), (0, 4), (1, 5), (1, 7), (2, 6), (2, 9), (3, 6), (3, 8), (4, 5), (4, 10)],
    );
    Bench {
        name: "third pass",
        figure: encode(&figure),
        patch: encode(&patch),
        memory: MEMORY,
        room: 9,
        allowance: 99,
        number: 0,
        tries: 0,
        rows: Vec::new(),
    }
}

/// Not of document 01: document 02, Wish 2. A normalled line of a patch, kinds 16 and `input` at its
/// ends, and a second line at a given end to a vertex of a given kind: whether the place is there.
fn cut_line(name: &'static str, input: u16, second: (u16, u16, u16), found: bool) -> Bench {
    let patch = Graph { kinds: vec![16, input, 17], lines: vec![(2, 0, 1), second] };
    let (tries, rows) = if found { (2, vec![0, 1]) } else { (0, Vec::new()) };
    Bench {
        name,
        figure: encode(&graph(&[16, input], &[(0, 1)])),
        patch: encode(&patch),
        memory: MEMORY,
        room: 9,
        allowance: 99,
        number: 0,
        tries,
        rows,
    }
}

fn cut_lines() -> Vec<Bench> {
    vec![
        cut_line("a plug in the input", 32, (1, 1, 2), false),
        cut_line("a plug in the output", 32, (1, 0, 2), true),
        cut_line("a panel line is no plug", 32, (0, 1, 2), true),
        cut_line("a normalled line is no plug", 32, (2, 1, 2), true),
        cut_line("a plug at kind 31", 31, (1, 1, 2), true),
        cut_line("a plug at kind 59", 59, (1, 1, 2), false),
        cut_line("a plug at kind 60", 60, (1, 1, 2), true),
    ]
}

fn benches() -> Vec<Bench> {
    let ample = |name, figure: Graph, patch: Graph, number, tries, rows: &[u16]| Bench {
        name, figure: encode(&figure), patch: encode(&patch), memory: MEMORY, room: 100, allowance: 1_000_000, number, tries, rows: rows.to_vec(),
    };
    let c = || (graph(&[1, 2], &[(0, 1)]), graph(&[1, 2, 2], &[(0, 1), (0, 2)]));
    let of_c = |name, room, allowance, number, tries, rows: &[u16]| Bench { room, allowance, ..ample(name, c().0, c().1, number, tries, rows) };
    let alone = Bench { figure: vec![0x00, 0x40, 0x00, 0x50], ..ample("b", c().0, graph(&[5], &[]), 0, 1, &[0]) };
    let threes = || graph(&[5, 5, 5], &[]);
    let chain: Vec<(u16, u16)> = (0..32).map(|i| (i, i + 1)).collect();
    vec![
        Bench { figure: vec![0x00, 0x80, 0x04, 0x10, 0x90, 0x00, 0x04], ..of_c("a", 9, 9, 0, 3, &[0, 1, 0, 2]) },
        alone,
        Bench { figure: vec![0x00, 0x40, 0x00, 0x51], ..ample("b, 13", c().0, c().1, 13, 0, &[]) },
        Bench { patch: vec![0x00, 0x40, 0x00, 0x51], ..ample("b, 23", c().0, c().1, 23, 0, &[]) },
        of_c("c", 100, 1_000_000, 0, 3, &[0, 1, 0, 2]),
        of_c("d, 2", 100, 2, 2, 2, &[0, 1]),
        of_c("d, 3", 100, 3, 0, 3, &[0, 1, 0, 2]),
        of_c("e, 1", 1, 1_000_000, 1, 3, &[0, 1]),
        of_c("e, 2", 2, 1_000_000, 0, 3, &[0, 1, 0, 2]),
        ample("f", graph(&[2, 2], &[(0, 1)]), graph(&[2, 2], &[(0, 1)]), 0, 4, &[0, 1, 1, 0]),
        ample("g", graph(&[3, 3, 3], &[(0, 1), (0, 2), (1, 2)]), graph(&[3, 3, 3, 3], &[(0, 1), (0, 3), (1, 2), (2, 3)]), 0, 12, &[]),
        ample("h", graph(&[1, 2, 3, 2], &[(0, 1), (0, 2), (0, 3)]), graph(&[1, 2, 3, 3, 3], &[(0, 1), (0, 2), (0, 3), (0, 4)]), 0, 4, &[]),
        ample("i", graph(&[1, 2, 2, 4], &[(0, 1), (0, 2), (2, 3)]), graph(&[1, 2, 2, 4], &[(0, 1), (0, 2), (1, 3)]), 0, 6, &[0, 2, 1, 3]),
        third_pass(),
        ample("j", graph(&[5], &[]), threes(), 0, 3, &[0, 1, 2]),
        Bench { allowance: 0, ..ample("j, none", graph(&[6], &[]), threes(), 0, 0, &[]) },
        ample("k, 33", graph(&[1; 33], &chain), threes(), 12, 0, &[]),
        ample("k, unjoined", graph(&[1, 1], &[]), threes(), 16, 0, &[]),
        Bench { memory: MEMORY - 1, ..of_c("k, memory", 9, 9, 31, 0, &[]) },
    ]
}

/// A number at, around or well below or above another.
fn near(random: &mut Random, value: usize) -> usize {
    match random.below(8) {
        0 => 0,
        1 => value.saturating_sub(1),
        2 => value + 1,
        3 => random.below(value + 1),
        4 => value + random.below(9),
        5 => 2 * value + 3,
        _ => value,
    }
}

/// A length that mostly does, exactly or amply.
fn near_length(random: &mut Random, length: usize) -> usize {
    match random.below(8) {
        0 => length.saturating_sub(1),
        1 => random.below(length + 1),
        2 => length,
        _ => length + random.below(9),
    }
}

fn small_figure(random: &mut Random) -> Graph {
    let (n, more) = if random.chance(5) { (random.between(1, 32), 34) } else { (random.between(1, 12), 5) };
    let size = random.between(1, 4);
    let pool = graphs::pool(random, size);
    let m = n - 1 + random.below(more);
    graphs::connected(random, n, m, &pool)
}

fn small_patch(random: &mut Random) -> Graph {
    let n = if random.chance(5) { random.between(1, 512) } else { random.between(1, 30) };
    let most = if random.chance(5) { 2_049 } else { 2 * n + 1 };
    let m = random.below(most);
    let size = random.between(1, 5);
    let pool = graphs::pool(random, size);
    graphs::plain(random, n, m, &pool)
}

/// A figure and a patch of one of twenty classes, from tiny to the limits of the table.
pub fn draw(random: &mut Random, class: usize) -> (Graph, Graph) {
    match class {
        0..=5 => tiny(random),
        6..=9 => lifted(random),
        10..=14 => medium(random),
        15..=16 => racks(random),
        17 => large(random),
        18 => limits(random),
        _ => grids(random),
    }
}

fn tiny(random: &mut Random) -> (Graph, Graph) {
    let size = random.between(1, 3);
    let pool = graphs::pool(random, size);
    let n = random.between(1, 5);
    let m = n - 1 + random.below(3);
    let figure = graphs::connected(random, n, m, &pool);
    let n = random.between(1, 10);
    let m = random.below(21);
    (figure, graphs::plain(random, n, m, &pool))
}

fn lifted(random: &mut Random) -> (Graph, Graph) {
    let n = random.between(3, 9);
    let size = if random.chance(60) { 60 } else { random.between(2, n) };
    let pool = graphs::pool(random, size);
    let m = n - 1 + random.below(4);
    let figure = graphs::connected(random, n, m, &pool);
    let copies = random.between(2, 5);
    let percent = random.between(25, 70);
    let patch = graphs::lifted(random, &figure, copies, percent);
    (figure, patch)
}

fn medium(random: &mut Random) -> (Graph, Graph) {
    let size = random.between(2, 7);
    let pool = graphs::pool(random, size);
    let n = random.between(8, 60);
    let m = random.between(n / 2, 3 * n);
    let patch = graphs::plain(random, n, m, &pool);
    let n = random.between(2, 9);
    let figure = if random.chance(60) {
        graphs::part(random, &patch, n, 60)
    } else {
        let m = n - 1 + random.below(3);
        graphs::connected(random, n, m, &pool)
    };
    (sometimes_mixed(random, figure, 40), patch)
}

fn racks(random: &mut Random) -> (Graph, Graph) {
    let modules = random.between(3, 64);
    let cables = random.below(2 * modules);
    let normals = random.below(modules);
    let patch = graphs::rack(random, modules, cables, normals);
    let n = random.between(2, 14);
    let figure = graphs::part(random, &patch, n, 90);
    (sometimes_mixed(random, figure, 20), patch)
}

fn large(random: &mut Random) -> (Graph, Graph) {
    let size = random.between(14, 64);
    let pool = graphs::pool(random, size);
    let n = random.between(150, 512);
    let m = random.between(n, 2_048);
    let patch = graphs::plain(random, n, m, &pool);
    let n = random.between(3, 32);
    let mut figure = graphs::part(random, &patch, n, 70);
    if random.chance(20) {
        let u = random.below(figure.n());
        figure.kinds[u] = *random.pick(&pool);
    }
    (sometimes_mixed(random, figure, 10), patch)
}

fn limits(random: &mut Random) -> (Graph, Graph) {
    let size = random.between(40, 64);
    let pool = graphs::pool(random, size);
    let n = *random.pick(&[100, 256, 512, 512]);
    let patch = graphs::plain(random, n, 2_048, &pool);
    let n = random.between(31, 32);
    (graphs::part(random, &patch, n, 100), patch)
}

fn grids(random: &mut Random) -> (Graph, Graph) {
    let size = random.between(1, 3);
    let pool = graphs::pool(random, size);
    let (width, height) = (random.between(2, 12), random.between(2, 8));
    let patch = graphs::grid(random, width, height, &pool);
    let n = random.between(2, 8);
    (graphs::part(random, &patch, n, 80), patch)
}

fn sometimes_mixed(random: &mut Random, figure: Graph, percent: usize) -> Graph {
    if random.chance(percent) {
        graphs::mixed(random, &figure)
    } else {
        figure
    }
}
