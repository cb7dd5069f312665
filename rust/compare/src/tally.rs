//! What was seen.

use crate::exact;
use crate::matrix::PAIRS;
use crate::resends;
use crate::rough::{self, KINDS, NARROWED};
use std::fmt;

/// The numbers of refusals, and 0 for an answer.
pub const NUMBERS: usize = 28;

/// Whether a check can find the number in a bundle that it is lent scratch enough for, or 0.
fn of_check(number: usize) -> bool {
    matches!(number, 0..=17 | 25..=27)
}

/// Scratches that have to be met, the first of them refused, the others filled.
const SCRATCHES: [&str; 4] =
    ["of 2,047 bytes", "of 2,048 bytes", "of 2,049 to 16,383 bytes", "of 16,384 bytes or more"];

/// What ancestry answers, in the order of the values. Each has to be met.
const ANCESTRIES: [&str; 3] = ["neither", "the same class", "a proper heir"];

/// How many methods in one bucket are many.
const MANY: usize = 16;

/// Where lists can be off by one.
const PLACES: [&str; 4] = ["the first begins", "one in the middle begins", "the last begins", "the last ends"];

/// Counts of bundles, calls and numbers, and of differences.
#[derive(Default)]
pub struct Tally {
    pub bundles: usize,
    pub calls: usize,
    pub differences: usize,
    /// For each number how many bundles the check gave it for.
    pub checks: [usize; NUMBERS],
    /// For each entry point, how often it gave each number.
    pub by_call: Vec<(&'static str, [usize; NUMBERS])>,
    /// How many calls were lent a scratch of each kind.
    pub scratches: [usize; SCRATCHES.len()],
    /// How many times ancestry gave each answer.
    pub ancestries: [usize; ANCESTRIES.len()],
    /// How many lookups that found a method were of each kind.
    pub lookups: [usize; exact::KINDS.len()],
    /// How many ambiguous sends had three or more rivals.
    pub three_rivals: usize,
    /// How many ambiguous sends had a beaten method with a higher number than the second rival that is named.
    pub beaten_above: usize,
    /// How many bundles that open have many methods in one bucket.
    pub full_buckets: usize,
    /// How many bundles with twins had others of their bucket before both, and how many had others between them.
    pub beside_twins: [usize; 2],
    /// How many bundles were refused by 4, and by 7, because a list was off by one, for each place.
    pub off_by_one: [[usize; 4]; 2],
    /// How many rough answers were of each kind.
    pub rough: [usize; KINDS.len()],
    /// How many pairs of rough answers there were, of which the second is for classes under those of the first.
    pub narrowed: [usize; NARROWED.len()],
    /// How many runs were of each kind that resends make.
    pub resends: [usize; resends::KINDS.len()],
    /// How many runs ended with a value, spent, and deep.
    pub ends: [usize; 3],
    /// The most steps that a run made.
    pub most_steps: u64,
}

impl Tally {
    pub fn count(&mut self, name: &'static str, number: u8) {
        self.calls += 1;
        let at = match self.by_call.iter().position(|(known, _)| *known == name) {
            Some(at) => at,
            None => {
                self.by_call.push((name, [0; NUMBERS]));
                self.by_call.len() - 1
            }
        };
        self.by_call[at].1[number as usize % NUMBERS] += 1;
    }

    /// Counts a call that takes a scratch by the scratch's length, where the call was refused for that or filled it.
    pub fn count_scratch(&mut self, number: u8, length: usize) {
        let filled = !matches!(number, 1..=9 | 19);
        let kinds = [
            number == 19 && length == plain::SCRATCH - 1,
            filled && length == plain::SCRATCH,
            filled && length > plain::SCRATCH && length < PAIRS,
            filled && length >= PAIRS,
        ];
        add(&mut self.scratches, kinds);
    }

    /// Counts an answer of ancestry.
    pub fn count_ancestry(&mut self, answer: u64) {
        self.ancestries[answer as usize % ANCESTRIES.len()] += 1;
    }

    /// Counts a lookup that found a method by its kinds.
    pub fn count_lookup(&mut self, kinds: exact::Kinds) {
        add(&mut self.lookups, kinds);
    }

    /// Counts how a run ended that nothing stopped.
    pub fn count_run(&mut self, values: [u64; 8]) {
        self.ends[values[0] as usize % 3] += 1;
        self.most_steps = self.most_steps.max(values[7]);
    }

    /// Counts a run by its kinds.
    pub fn count_resends(&mut self, kinds: resends::Kinds) {
        add(&mut self.resends, kinds);
    }

    /// Counts a rough answer by its kinds.
    pub fn count_rough(&mut self, kinds: rough::Kinds) {
        add(&mut self.rough, kinds);
    }

    /// Counts two rough answers of which the second is for classes under those of the first.
    pub fn count_narrowed(&mut self, wide: u64, narrow: u64) {
        for (count, (before, after, _)) in self.narrowed.iter_mut().zip(NARROWED) {
            *count += ((before, after) == (wide, narrow)) as usize;
        }
    }

    /// Counts an ambiguous send by the methods that apply to it, both lists rising. Where there are but two rivals, and no beaten
    /// method above them, a wrong choice of two could pass.
    pub fn count_rivals(&mut self, beaten: &[usize], rivals: &[usize]) {
        let second = rivals[rivals.len() - 2];
        self.three_rivals += (rivals.len() > 2) as usize;
        self.beaten_above += beaten.iter().any(|&method| method > second) as usize;
    }

    /// Counts a bundle that opens by the methods in its fullest bucket.
    pub fn count_buckets(&mut self, fullest: usize) {
        self.full_buckets += (fullest >= MANY) as usize;
    }

    /// Counts a bundle with twins by the others of their bucket before both and between them. Where there are none, a search that
    /// compares a method with the first or the last of its bucket alone could pass.
    pub fn count_twins(&mut self, beside: [usize; 2]) {
        for (count, others) in self.beside_twins.iter_mut().zip(beside) {
            *count += (others > 0) as usize;
        }
    }

    /// Counts a bundle that was refused by 4 or 7 by the place where a list is off by one, if any is.
    pub fn count_misplaced(&mut self, number: u8, place: Option<usize>) {
        if let Some(place) = place {
            self.off_by_one[(number == 7) as usize][place] += 1;
        }
    }

    /// The numbers of a check that none gave, the others that no call gave, and the kinds of scratches, of answers of ancestry, lookup
    /// and rough calls, of ambiguous sends, of openings and of runs with resends that no call met.
    pub fn never_seen(&self) -> Vec<String> {
        let seen = |number: usize| match of_check(number) {
            true => self.checks[number] != 0,
            false => self.by_call.iter().any(|(_, counts)| counts[number] != 0),
        };
        let mut never: Vec<String> = (0..NUMBERS).filter(|&number| !seen(number)).map(|n| n.to_string()).collect();
        let [before, between] = self.beside_twins;
        let kinds = [
            (self.three_rivals, "three rivals"),
            (self.beaten_above, "a beaten method above a rival"),
            (self.full_buckets, "many methods in one bucket"),
            (before, "twins after others of their bucket"),
            (between, "twins with others of their bucket between them"),
        ];
        never.extend(kinds.into_iter().filter(|(count, _)| *count == 0).map(|(_, kind)| kind.to_string()));
        for (what, counts) in [
            ("a scratch", self.scratch_counts()),
            ("ancestry:", self.ancestry_counts()),
            ("lookup:", self.lookup_counts()),
            ("rough answer:", self.rough_counts()),
            ("rough answer:", self.narrowed_counts()),
            ("a run", self.resend_counts()),
        ] {
            let unmet = counts.into_iter().filter(|(count, _)| *count == 0);
            never.extend(unmet.map(|(_, kind)| format!("{what} {kind}")));
        }
        for (number, counts) in [4, 7].into_iter().zip(self.off_by_one) {
            let places = PLACES.into_iter().zip(counts).filter(|(_, count)| *count == 0);
            never.extend(places.map(|(place, _)| format!("{number} off by one where {place}")));
        }
        never
    }

    /// How many calls were lent a scratch of each kind, with the kind's name.
    fn scratch_counts(&self) -> Vec<(usize, &'static str)> {
        self.scratches.into_iter().zip(SCRATCHES).collect()
    }

    /// How many times ancestry gave each answer, with the answer's name.
    fn ancestry_counts(&self) -> Vec<(usize, &'static str)> {
        self.ancestries.into_iter().zip(ANCESTRIES).collect()
    }

    /// How many lookups that found a method were of each kind, with the kind's name.
    fn lookup_counts(&self) -> Vec<(usize, &'static str)> {
        self.lookups.into_iter().zip(exact::KINDS).collect()
    }

    /// How many rough answers were of each kind, with the kind's name.
    fn rough_counts(&self) -> Vec<(usize, &'static str)> {
        self.rough.into_iter().zip(KINDS).collect()
    }

    /// How many runs were of each kind that resends make, with the kind's name.
    fn resend_counts(&self) -> Vec<(usize, &'static str)> {
        self.resends.into_iter().zip(resends::KINDS).collect()
    }

    /// How many pairs of rough answers there were, with the pair's name.
    fn narrowed_counts(&self) -> Vec<(usize, &'static str)> {
        self.narrowed.into_iter().zip(NARROWED).map(|(count, (_, _, name))| (count, name)).collect()
    }
}

/// Adds 1 to the counts of the kinds that were met.
fn add<const N: usize>(counts: &mut [usize; N], met: [bool; N]) {
    for (count, met) in counts.iter_mut().zip(met) {
        *count += met as usize;
    }
}

/// Counts with what was counted.
fn listed(counts: &[(usize, &str)]) -> String {
    let counts: Vec<String> = counts.iter().map(|(count, what)| format!("{count} {what}")).collect();
    counts.join(", ")
}

impl fmt::Display for Tally {
    fn fmt(&self, f: &mut fmt::Formatter<'_>) -> fmt::Result {
        writeln!(f, "{} bundles, {} calls, {} differences", self.bundles, self.calls, self.differences)?;
        writeln!(f, "bundles by the number of their check (0 is accepted):")?;
        for (number, count) in self.checks.iter().enumerate().filter(|(number, _)| of_check(*number)) {
            writeln!(f, "  {number:2} {count:8}")?;
        }
        writeln!(f, "numbers by call:")?;
        for (name, counts) in &self.by_call {
            let seen: Vec<String> =
                (0..NUMBERS).filter(|&n| counts[n] != 0).map(|n| format!("{n}:{}", counts[n])).collect();
            writeln!(f, "  {name}: {}", seen.join(" "))?;
        }
        writeln!(f, "scratches: {}", listed(&self.scratch_counts()))?;
        writeln!(f, "ancestry: {}", listed(&self.ancestry_counts()))?;
        writeln!(f, "lookups that found a method: {}", listed(&self.lookup_counts()))?;
        let (three, above) = (self.three_rivals, self.beaten_above);
        writeln!(f, "ambiguous: {three} with three rivals or more, {above} with a beaten method above a named rival")?;
        let [before, between] = self.beside_twins;
        writeln!(f, "twins: {before} after others of their bucket, {between} with others between them")?;
        writeln!(f, "opened with {MANY} methods or more in one bucket: {}", self.full_buckets)?;
        for (number, counts) in [4, 7].into_iter().zip(self.off_by_one) {
            let places: Vec<String> =
                PLACES.into_iter().zip(counts).map(|(place, count)| format!("{count} where {place}")).collect();
            writeln!(f, "lists off by one, number {number}: {}", places.join(", "))?;
        }
        writeln!(f, "rough answers: {}", listed(&self.rough_counts()))?;
        writeln!(f, "rough answers for classes under those of others: {}", listed(&self.narrowed_counts()))?;
        let [value, spent, deep] = self.ends;
        writeln!(f, "runs: {value} value, {spent} spent, {deep} deep; at most {} steps", self.most_steps)?;
        writeln!(f, "runs: {}", listed(&self.resend_counts()))
    }
}
