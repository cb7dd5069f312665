//! A short comparison, for `cargo test`.

use compare::calls::Comparer;
use compare::made_bundles;

#[test]
fn two_thousand_bundles() {
    let mut comparer = Comparer::default();
    made_bundles(2000, 1, &mut comparer);
    let tally = comparer.tally;
    assert_eq!(tally.differences, 0);
    // Made bundles alone, without the samples, show everything that has to be seen, and which rivals are named.
    assert_eq!(tally.never_seen().join(", "), "");
    let (three, above) = (tally.three_rivals, tally.beaten_above);
    assert!(three > 10 && above > 10, "{three} with three rivals, {above} with a beaten method above a named one");
}
