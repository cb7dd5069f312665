//! Long bundles, for opening: many methods of few functions, spread over the buckets in which twins are looked for, or gathered
//! in one.

use crate::{alike, generate};
use builder::{bucket, Method, Parts, Random, ARG};

/// A bundle that opens. It has no signatures, so that its check is little work.
pub fn parts(random: &mut Random) -> Parts {
    let mut parts = Parts::default();
    let classes = random.within(40, 128);
    alike::draw_classes(&mut parts, random, classes);
    for _ in 0..random.of(&[1, 1, 2, 6]) {
        parts.function(3);
    }
    let gathered = bucket(key(&parts, random));
    // One method in so many is of that bucket.
    let share = random.of(&[1, 2, 10, 1000]);
    let longest: usize = random.of(&[1, 6, 50]);
    // More may be drawn than there is room for, so that some bundles have as many as the limit allows.
    for _ in 0..random.within(60, 700) {
        let gather = random.once_in(share);
        let mut drawn = key(&parts, random);
        while gather && bucket(drawn) != gathered {
            drawn = key(&parts, random);
        }
        let [function, specialisers @ ..] = drawn;
        let body = vec![[ARG, 0]; random.within(longest.div_ceil(2), longest)];
        generate::add_method(&mut parts, Method { function, specialisers, declared: specialisers, result: 0, body });
    }
    parts
}

/// The key of a method.
fn key(parts: &Parts, random: &mut Random) -> [u8; 4] {
    let classes = parts.classes.len();
    [parts.functions.len(), classes, classes, classes].map(|count| random.below(count) as u8)
}
