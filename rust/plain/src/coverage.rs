//! The coverage rule.

use crate::bundle::{Bundle, Signature};
use crate::dispatch::{self, Found, Matrix};
use crate::{tuples, Triple};

/// Why a tuple breaks a signature: numbers 10 to 13.
pub enum Fault {
    NoMethod,
    Rivals(usize, usize),
    Declared(usize),
    Result(usize),
}

/// Whether each class is under the signature's own.
pub fn covers(bundle: &Bundle, matrix: &Matrix, signature: &Signature, tuple: Triple) -> bool {
    matrix.all_under(bundle.functions[signature.function], tuple, signature.arguments)
}

/// The rule for one signature and one tuple that it covers.
pub fn fault(bundle: &Bundle, matrix: &Matrix, signature: &Signature, tuple: Triple) -> Option<Fault> {
    let number = match dispatch::lookup(bundle, matrix, signature.function, tuple) {
        Found::None => return Some(Fault::NoMethod),
        Found::Rivals(first, second) => return Some(Fault::Rivals(first, second)),
        Found::One(number) => number,
    };
    let method = &bundle.methods[number];
    if !matrix.all_under(bundle.functions[signature.function], tuple, method.declared) {
        return Some(Fault::Declared(number));
    }
    if !matrix.under(method.result, signature.result) {
        return Some(Fault::Result(number));
    }
    None
}

/// The lowest broken signature with its first broken tuple.
pub fn first_broken(bundle: &Bundle, matrix: &Matrix) -> Option<(usize, Triple, Fault)> {
    bundle.signatures.iter().enumerate().find_map(|(number, signature)| {
        let covered = &signature.arguments[..bundle.functions[signature.function]];
        tuples::find(bundle, matrix, covered, |tuple| {
            fault(bundle, matrix, signature, tuple).map(|fault| (number, tuple, fault))
        })
    })
}
