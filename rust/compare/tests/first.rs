//! The tuple that a refused check names is the first that the witness call refuses: by class numbers, the leftmost argument
//! turning slowest.

use builder::{Parts, Random};
use compare::generate;
use curiumtoad::{raw, SCRATCH};

/// The number of the library's check, and its values: the signature, the function, the tuple.
fn checked(bundle: &[u8]) -> (u8, raw::Values) {
    let mut values = raw::Values::default();
    let number = raw::check(bundle, &mut [0; SCRATCH], &mut values);
    (number, values)
}

/// The tuples that the signature covers and for which its rule fails, by the library's witness call, in their order.
fn broken(parts: &Parts, bundle: &[u8], signature: u64) -> Vec<[u64; 3]> {
    let used = parts.functions[parts.signatures[signature as usize].function as usize] as usize;
    let classes = parts.classes.len() as u64;
    let ends = [0, 1, 2].map(|place| if place < used { classes } else { 1 });
    let mut tuples = Vec::new();
    for a in 0..ends[0] {
        for b in 0..ends[1] {
            for c in 0..ends[2] {
                let number = raw::witness(bundle, &mut [0; SCRATCH], signature, [a, b, c], &mut raw::Values::default());
                if (10..=13).contains(&number) {
                    tuples.push([a, b, c]);
                }
            }
        }
    }
    tuples
}

#[test]
fn the_first_of_several() {
    let mut random = Random::new(1);
    let mut several = 0;
    for number in 0..2000 {
        let parts = generate::parts(&mut random, number);
        let bundle = parts.bytes();
        let (number, values) = checked(&bundle);
        if !(10..=13).contains(&number) || parts.classes.len() > 12 {
            continue;
        }
        let tuples = broken(&parts, &bundle, values[0]);
        assert_eq!(tuples[0], [values[2], values[3], values[4]]);
        several += (tuples.len() > 1) as usize;
    }
    // Most of them would be named by another tuple if the order were another.
    assert!(several > 100, "{several} bundles with more than one broken tuple");
}
