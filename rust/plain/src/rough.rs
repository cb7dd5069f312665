//! What a send finds when of each argument no more is known than a class that it is under.

use crate::bundle::Bundle;
use crate::dispatch::{self, Found, Matrix};
use crate::tuples;
use std::collections::BTreeSet;

pub enum Rough {
    One(usize),
    MayFail,
    Several,
}

/// Looks up every tuple, up to the first that fails. There is an upper class for each used place, with a concrete class
/// under it, so that there is a tuple.
pub fn rough(bundle: &Bundle, matrix: &Matrix, function: usize, uppers: &[usize]) -> Rough {
    let mut found = BTreeSet::new();
    let failing =
        tuples::find(bundle, matrix, uppers, |tuple| match dispatch::lookup(bundle, matrix, function, tuple) {
            Found::One(method) => {
                found.insert(method);
                None
            }
            Found::None | Found::Rivals(..) => Some(tuple),
        });
    if failing.is_some() {
        return Rough::MayFail;
    }
    match Vec::from_iter(found)[..] {
        [method] => Rough::One(method),
        _ => Rough::Several,
    }
}
