//! What an ambiguous send is between.

use crate::matrix::is_under;
use crate::sections::methods;

/// Of the methods that apply to a send of a bundle that opens, those that are beaten, and the rivals; both rising. The matrix is
/// that of the bundle, as a call leaves it in its scratch.
pub fn beaten_and_rivals(bundle: &[u8], matrix: &[u8], sent: [u64; 4]) -> (Vec<usize>, Vec<usize>) {
    let records = methods(bundle);
    // Unused places hold 0 everywhere, and class 0 is under itself.
    let all_under =
        |lower: &[u8], upper: &[u8]| lower.iter().zip(upper).all(|(&a, &b)| is_under(matrix, a.into(), b.into()));
    let [function, tuple @ ..] = sent.map(|number| number as u8);
    let applies = |&m: &usize| records[m][0] == function && all_under(&tuple, &records[m][1..4]);
    let applicable: Vec<usize> = (0..records.len()).filter(applies).collect();
    let beats = |other: usize, m: usize| other != m && all_under(&records[other][1..4], &records[m][1..4]);
    applicable.iter().partition(|&&m| applicable.iter().any(|&other| beats(other, m)))
}
