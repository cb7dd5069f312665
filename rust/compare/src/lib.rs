//! Compares the verified library with the plain implementation: every entry point, every byte of scratch, row and text, over
//! bundles that are made from fixed seeds.

pub mod alike;
pub mod calls;
pub mod damage;
pub mod exact;
pub mod generate;
pub mod hierarchy;
pub mod json;
pub mod long;
pub mod matrix;
pub mod opening;
pub mod resends;
pub mod rivals;
pub mod rough;
pub mod sections;
pub mod tally;
pub mod vectors;

use builder::{Parts, Random};
use calls::{Call, Comparer};

/// Added to a seed for the calls, so that they do not follow the numbers that made the bundles.
const CALLS: u64 = 0x746f_6164;

/// Compares over `count` made bundles, which the seed determines.
pub fn made_bundles(count: usize, seed: u64, comparer: &mut Comparer) {
    let mut random = Random::new(seed);
    let mut calls = Random::new(seed.wrapping_add(CALLS));
    for number in 0..count {
        let (bytes, parts) = damage::bundle(&mut random, number);
        comparer.bundle(&bytes, &calls::choose(&mut calls, &bytes, &parts), &mut calls);
        if comparer.given_up() {
            return;
        }
    }
}

/// Compares over given bundles: each as it is, then with each byte at values near the boundaries of its field, then cut
/// at each length.
pub fn given_bundles(bundles: &[Vec<u8>], comparer: &mut Comparer) {
    let mut random = Random::new(CALLS);
    let none = Parts::default();
    let short = [
        Call::Open,
        Call::Check,
        Call::Body(0),
        Call::Rough(0, [0; 3]),
        Call::Run(0, [0; 3], 100),
        Call::Listing(plain::TEXT),
        Call::Chart(0, 1, plain::LINE),
    ];
    for bundle in bundles {
        comparer.bundle(bundle, &calls::every(bundle), &mut random);
        for at in 0..bundle.len() {
            let byte = bundle[at];
            let near = [byte.wrapping_sub(1), byte.wrapping_add(1), byte.wrapping_add(2), byte ^ 128];
            for value in near.into_iter().chain([0, 1, 2, 3, 4, 64, 127, 128, 254, 255]) {
                let mut changed = bundle.clone();
                changed[at] = value;
                comparer.bundle(&changed, &short, &mut random);
            }
        }
        for length in 0..bundle.len() {
            comparer.bundle(&bundle[..length], &short, &mut random);
        }
        let mut longer = bundle.clone();
        longer.push(0);
        comparer.bundle(&longer, &calls::choose(&mut random, &longer, &none), &mut random);
    }
}
