//! Which answers of a lookup the records of the methods allow.

use builder::{chart_4, three_rivals};
use compare::exact::agrees;

/// The number of an answer, and its first values.
fn answer(number: u8, named: &[u64]) -> (u8, [u64; 8]) {
    let mut values = [0; 8];
    values[..named.len()].copy_from_slice(named);
    (number, values)
}

/// Method 3 is for classes 2 and 4.
#[test]
fn an_exact_method_has_to_be_found() {
    let bundle = chart_4().bytes();
    let sent = [0, 2, 4, 0];
    assert!(agrees(&bundle, sent, answer(0, &[3, 1])));
    for wrong in [answer(0, &[3, 0]), answer(0, &[1, 1]), answer(0, &[1, 0]), answer(10, &sent), answer(18, &[])] {
        assert!(!agrees(&bundle, sent, wrong), "{wrong:?}");
    }
}

/// No method is for class 5, and some are for classes that it is under.
#[test]
fn elsewhere_nothing_is_exact() {
    let bundle = three_rivals().bytes();
    let sent = [0, 5, 0, 0];
    assert!(agrees(&bundle, sent, answer(11, &[0, 5, 0, 0, 3, 1])));
    assert!(agrees(&bundle, sent, answer(0, &[3, 0])));
    assert!(!agrees(&bundle, sent, answer(0, &[3, 1])));
    // Class 4 has method 3, but a number is not that class for being it in its lowest bits.
    assert!(agrees(&bundle, [0, 4, 0, 0], answer(0, &[3, 1])));
    assert!(agrees(&bundle, [0, 260, 0, 0], answer(18, &[])));
}
