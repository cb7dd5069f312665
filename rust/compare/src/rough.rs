//! Rough calls: which of them are made on a bundle, what they were about, and how the answers to two of them have to agree.

use crate::matrix::is_under;
use crate::sections::{classes, functions, methods};
use builder::Random;

/// How many places a function of a bundle that opens uses; of an absent function, none.
fn places(bundle: &[u8], function: u64) -> usize {
    functions(bundle).get(function as usize).map_or(0, |&arguments| arguments.into())
}

/// A bundle that opens, and which of its classes are under which.
pub struct Opened<'a> {
    bundle: &'a [u8],
    matrix: Vec<u8>,
}

impl<'a> Opened<'a> {
    /// None where the bundle does not open.
    pub fn of(bundle: &'a [u8]) -> Option<Opened<'a>> {
        let mut matrix = vec![0; plain::SCRATCH];
        let number = plain::ancestry(bundle, &mut matrix, 0, 0).number;
        (number == 0).then_some(Opened { bundle, matrix })
    }

    /// The classes under a class, itself included; none where it is absent.
    fn under(&self, upper: u64) -> impl Iterator<Item = u64> + '_ {
        (0..128).filter(move |&class| is_under(&self.matrix, class, upper))
    }

    fn concretes(&self, upper: u64) -> usize {
        let records = classes(self.bundle);
        self.under(upper).filter(|&class| records[class as usize][0] == 1).count()
    }

    /// How many lookups a call may need, times methods.
    fn work(&self, uppers: &[u64]) -> usize {
        let tuples: usize = uppers.iter().map(|&upper| self.concretes(upper)).product();
        tuples * (1 + methods(self.bundle).len())
    }

    /// The upper classes, with classes under them in their stead where the work would be more than that.
    pub fn within(&self, random: &mut Random, work: usize, function: u64, mut uppers: [u64; 3]) -> [u64; 3] {
        let used = &mut uppers[..places(self.bundle, function)];
        while self.work(used) > work {
            let widest = used.iter_mut().max_by_key(|upper| self.concretes(**upper)).expect("one tuple is little work");
            let heirs: Vec<u64> = self.under(*widest).filter(|class| class != widest).collect();
            *widest = random.of(&heirs);
        }
        uppers
    }

    /// The upper classes, with classes under some of them in their stead.
    pub fn narrower(&self, random: &mut Random, function: u64, mut uppers: [u64; 3]) -> [u64; 3] {
        for upper in &mut uppers[..places(self.bundle, function)] {
            let under: Vec<u64> = self.under(*upper).collect();
            if !under.is_empty() && random.once_in(2) {
                *upper = random.of(&under);
            }
        }
        uppers
    }
}

const ONE: u64 = 0;
const MAY_FAIL: u64 = 1;
const SEVERAL: u64 = 2;

/// Kinds of answered calls, each of which has to be met.
pub const KINDS: [&str; 8] = [
    "one method",
    "may fail",
    "several",
    "one method above 255",
    "one method without arguments",
    "may fail without arguments",
    "without arguments or any concrete class",
    "with an abstract upper class",
];

/// Of which of the kinds a call is; it can be of more than one.
pub type Kinds = [bool; KINDS.len()];

/// The kinds of an answered call, given the values of its answer.
pub fn kinds(bundle: &[u8], function: u64, uppers: [u64; 3], values: [u64; 8]) -> Kinds {
    let [answer, method, ..] = values;
    let records = classes(bundle);
    let used = &uppers[..places(bundle, function)];
    [
        answer == ONE,
        answer == MAY_FAIL,
        answer == SEVERAL,
        answer == ONE && method > 255,
        used.is_empty() && answer == ONE,
        used.is_empty() && answer == MAY_FAIL,
        used.is_empty() && records.iter().all(|class| class[0] == 0),
        used.iter().any(|&upper| records[upper as usize][0] == 0),
    ]
}

/// Pairs of answers, each of which has to be met, where the second is for classes under those of the first. There may be no
/// other pairs.
pub const NARROWED: [(u64, u64, &str); 6] = [
    (ONE, ONE, "one to one"),
    (SEVERAL, SEVERAL, "several to several"),
    (SEVERAL, ONE, "several to one"),
    (MAY_FAIL, MAY_FAIL, "may fail to may fail"),
    (MAY_FAIL, SEVERAL, "may fail to several"),
    (MAY_FAIL, ONE, "may fail to one"),
];

/// An answer to a rough call.
#[derive(Clone, Copy, Debug)]
pub struct Given {
    function: u64,
    uppers: [u64; 3],
    pub answer: u64,
    method: u64,
}

impl Given {
    /// Whether the other answer may be given for classes under the upper ones of this: one method has to stay that one.
    pub fn allows(&self, narrower: &Given) -> bool {
        let pair = (self.answer, narrower.answer);
        let known = NARROWED.iter().any(|&(wide, narrow, _)| (wide, narrow) == pair);
        known && (self.answer != ONE || narrower.method == self.method)
    }
}

/// Answers to rough calls on one bundle.
#[derive(Default)]
pub struct Answers {
    matrix: Vec<u8>,
    given: Vec<Given>,
}

impl Answers {
    /// Adds an answer. The matrix is that of the bundle.
    pub fn add(&mut self, matrix: &[u8], function: u64, uppers: [u64; 3], values: [u64; 8]) {
        if self.given.is_empty() {
            self.matrix = matrix.to_vec();
        }
        self.given.push(Given { function, uppers, answer: values[0], method: values[1] });
    }

    /// The pairs of which the second has classes under the upper classes of the first, and not all the same.
    pub fn narrowed(&self) -> impl Iterator<Item = (&Given, &Given)> {
        self.given.iter().flat_map(move |wide| {
            let under = |narrow: &&Given| {
                wide.function == narrow.function
                    && wide.uppers != narrow.uppers
                    // Unused places hold 0, and class 0 is under itself.
                    && narrow.uppers.iter().zip(wide.uppers).all(|(&class, upper)| is_under(&self.matrix, class, upper))
            };
            self.given.iter().filter(under).map(move |narrow| (wide, narrow))
        })
    }
}
