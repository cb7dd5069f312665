//! Tuples of concrete classes, each under a class that is given for its place.

use crate::bundle::Bundle;
use crate::dispatch::Matrix;
use crate::Triple;

/// The concrete classes under a class, rising; where it is concrete, that class itself is one of them.
pub fn concrete_under<'a>(bundle: &'a Bundle, matrix: &'a Matrix, upper: usize) -> impl Iterator<Item = usize> + 'a {
    (0..bundle.classes.len()).filter(move |&class| bundle.classes[class].concrete && matrix.under(class, upper))
}

/// Goes through the tuples, classes in rising order, place 0 outermost, up to the first that something is said of. There is
/// a class in `uppers` for each used place; with none there is one tuple, the empty one.
pub fn find<T>(
    bundle: &Bundle,
    matrix: &Matrix,
    uppers: &[usize],
    mut said: impl FnMut(Triple) -> Option<T>,
) -> Option<T> {
    find_from(bundle, matrix, uppers, 0, [0; 3], &mut said)
}

/// Fills the places from `place` on.
fn find_from<T>(
    bundle: &Bundle,
    matrix: &Matrix,
    uppers: &[usize],
    place: usize,
    tuple: Triple,
    said: &mut impl FnMut(Triple) -> Option<T>,
) -> Option<T> {
    if place == uppers.len() {
        return said(tuple);
    }
    concrete_under(bundle, matrix, uppers[place]).find_map(|class| {
        let mut longer = tuple;
        longer[place] = class;
        find_from(bundle, matrix, uppers, place + 1, longer, said)
    })
}
