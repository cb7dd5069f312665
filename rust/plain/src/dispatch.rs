//! Ancestry, lookup, and where a resend goes.

use crate::bundle::{Bundle, Method};
use crate::Triple;

/// How one class stands to another.
#[derive(PartialEq, Eq)]
pub enum Ancestry {
    /// They are one class.
    Same,
    /// The one is under the other, which is another class.
    Heir,
    /// The one is not under the other.
    Neither,
}

/// Which class is under which.
pub struct Matrix {
    rows: Vec<[bool; 128]>,
}

impl Matrix {
    /// A class is under itself and under what its parents are under. Parents have lower numbers, so their rows are done.
    pub fn of(bundle: &Bundle) -> Matrix {
        let mut rows: Vec<[bool; 128]> = Vec::new();
        for (number, class) in bundle.classes.iter().enumerate() {
            let mut row = [false; 128];
            row[number] = true;
            for &parent in &class.parents {
                for (above, &parents_above) in row.iter_mut().zip(&rows[parent]) {
                    *above |= parents_above;
                }
            }
            rows.push(row);
        }
        Matrix { rows }
    }

    /// How class `a` stands to class `b`.
    pub fn ancestry(&self, a: usize, b: usize) -> Ancestry {
        if a == b {
            Ancestry::Same
        } else if self.rows[a][b] {
            Ancestry::Heir
        } else {
            Ancestry::Neither
        }
    }

    /// Whether class `a` is under class `b`: that class or an heir of it.
    pub fn under(&self, a: usize, b: usize) -> bool {
        self.ancestry(a, b) != Ancestry::Neither
    }

    /// Whether at each of the first `places` places the class is under the other.
    pub fn all_under(&self, places: usize, lower: Triple, upper: Triple) -> bool {
        (0..places).all(|place| self.under(lower[place], upper[place]))
    }

    /// The classes that `a` is under.
    pub fn row(&self, a: usize) -> [bool; 128] {
        self.rows[a]
    }

    /// Writes 16 bytes for each of 128 classes: in the row of class `a`, bit `b` mod 8, the least significant first, of byte
    /// `b` / 8 says whether it is under class `b`. The rows of absent classes are 0.
    pub fn write(&self, bytes: &mut [u8]) {
        bytes.fill(0);
        for (sixteen, row) in bytes.chunks_exact_mut(16).zip(&self.rows) {
            for (byte, eight) in sixteen.iter_mut().zip(row.chunks_exact(8)) {
                *byte = eight.iter().enumerate().fold(0, |bits, (at, &under)| bits | (under as u8) << at);
            }
        }
    }
}

/// Whether the method is for exactly these classes: at each used place its specialiser is the same class.
pub fn is_exact(bundle: &Bundle, matrix: &Matrix, method: &Method, tuple: Triple) -> bool {
    let places = bundle.functions[method.function];
    (0..places).all(|place| matrix.ancestry(tuple[place], method.specialisers[place]) == Ancestry::Same)
}

pub enum Found {
    One(usize),
    None,
    /// Of the methods to choose from, and that none of the rest equals or beats in being specific, the two highest, the higher
    /// one first.
    Rivals(usize, usize),
}

/// What a send finds: a choice from the methods that apply.
pub fn lookup(bundle: &Bundle, matrix: &Matrix, function: usize, tuple: Triple) -> Found {
    select(bundle, matrix, &applicable(bundle, matrix, function, tuple))
}

/// Where a resend of a method goes: a choice from the methods that it overrides, which are those that apply to its own
/// specialisers, itself left out. What arguments it was called with does not matter.
pub fn overridden(bundle: &Bundle, matrix: &Matrix, method: usize) -> Found {
    let Method { function, specialisers, .. } = bundle.methods[method];
    let mut others = applicable(bundle, matrix, function, specialisers);
    others.retain(|&other| other != method);
    select(bundle, matrix, &others)
}

/// The methods of the function that apply to the tuple, rising.
fn applicable(bundle: &Bundle, matrix: &Matrix, function: usize, tuple: Triple) -> Vec<usize> {
    let places = bundle.functions[function];
    let applies = |m: &Method| m.function == function && matrix.all_under(places, tuple, m.specialisers);
    (0..bundle.methods.len()).filter(|&m| applies(&bundle.methods[m])).collect()
}

/// Of methods of one function, the one that is at least as specific as all the rest.
fn select(bundle: &Bundle, matrix: &Matrix, methods: &[usize]) -> Found {
    let Some(&first) = methods.first() else {
        return Found::None;
    };
    let places = bundle.functions[bundle.methods[first].function];
    let at_least =
        |m: usize, n: usize| matrix.all_under(places, bundle.methods[m].specialisers, bundle.methods[n].specialisers);
    let leads = |&m: &usize| methods.iter().all(|&other| other == m || at_least(m, other));
    if let Some(method) = methods.iter().copied().find(leads) {
        return Found::One(method);
    }
    let unbeaten = |&m: &usize| methods.iter().all(|&other| other == m || !at_least(other, m));
    let mut rivals = methods.iter().copied().rev().filter(unbeaten);
    match (rivals.next(), rivals.next()) {
        (Some(first), Some(second)) => Found::Rivals(first, second),
        _ => unreachable!("without twins, fewer than two unbeaten methods would mean that one leads"),
    }
}
