//! Rough answers over more tuples than `plain` can try: three arguments, 128 concrete classes in a tree, and a method for each
//! triple of some classes. In a tree there is one way up from a class, so a tuple finds the method for the nearest of these
//! classes at each place.

use builder::{tree, Parts, Random, NEW};
use curiumtoad::{Answer, Reply, Rough};

/// How many classes at each place have methods of their own, so that there are as many methods as there may be.
const AXIS: usize = 8;

/// Class 0, from which all are reached, and others.
fn axis(random: &mut Random) -> Vec<u8> {
    let mut axis = vec![0];
    while axis.len() < AXIS {
        let class = random.within(1, 127) as u8;
        if !axis.contains(&class) {
            axis.push(class);
        }
    }
    axis
}

/// A method for each triple, the first place turning slowest.
fn grid(axes: &[Vec<u8>; 3]) -> Parts {
    let mut parts = tree();
    let function = parts.function(3);
    for &a in &axes[0] {
        for &b in &axes[1] {
            for &c in &axes[2] {
                parts.method(function, [a, b, c], 0, &[[NEW, 0]]);
            }
        }
    }
    parts
}

/// The classes that a class is under, from that class up.
fn way_up(parts: &Parts, class: u8) -> impl Iterator<Item = u8> + '_ {
    std::iter::successors(Some(class), |&class| parts.classes[class as usize].parents.first().copied())
}

/// What is found for these upper classes: one method where no class of an axis is below its upper class, else several.
fn expected(parts: &Parts, axes: &[Vec<u8>; 3], uppers: [u8; 3]) -> Rough {
    let mut method = 0;
    for (axis, upper) in axes.iter().zip(uppers) {
        if axis.iter().any(|&class| class != upper && way_up(parts, class).any(|above| above == upper)) {
            return Rough::Several;
        }
        let nearest = way_up(parts, upper).find_map(|above| axis.iter().position(|&class| class == above));
        method = AXIS * method + nearest.expect("class 0 is on each axis");
    }
    Rough::One(method as u64)
}

/// Classes near to the top more often, as most classes of a tree have none under them.
fn uppers(random: &mut Random) -> [u8; 3] {
    [0; 3].map(|_| {
        let below = random.of(&[3, 15, 63, 128, 128]);
        random.below(below) as u8
    })
}

fn by_library(bundle: &[u8], uppers: [u8; 3]) -> Rough {
    curiumtoad::rough(bundle, &mut [0; curiumtoad::SCRATCH], 0, uppers.map(u64::from))
}

fn by_fast(bundle: &[u8], uppers: [u8; 3]) -> Rough {
    let mut values = [9; 8];
    let number = fast::rough(bundle, &mut [0; fast::SCRATCH], 0, uppers.map(u64::from), &mut values);
    Rough::of(Reply { number, values })
}

#[test]
fn a_method_for_each_triple() {
    let mut random = Random::new(1);
    let mut met = [0; 2];
    for _ in 0..20 {
        let axes = [(); 3].map(|()| axis(&mut random));
        let parts = grid(&axes);
        let bundle = parts.bytes();
        for _ in 0..40 {
            let uppers = uppers(&mut random);
            let expected = expected(&parts, &axes, uppers);
            assert_eq!(by_library(&bundle, uppers), expected, "{axes:?} {uppers:?}");
            assert_eq!(by_fast(&bundle, uppers), expected, "{axes:?} {uppers:?}");
            met[(expected == Rough::Several) as usize] += 1;
        }
    }
    assert!(met.iter().all(|&count| count > 50), "{met:?}");
}

/// Without some of its methods a grid has tuples for which two others tie.
#[test]
fn a_method_for_most_triples() {
    let mut random = Random::new(2);
    let mut met = [0; 3];
    for _ in 0..40 {
        let mut parts = grid(&[(); 3].map(|()| axis(&mut random)));
        for _ in 0..random.of(&[1, 2, 40]) {
            parts.methods.remove(random.within(1, parts.methods.len() - 1));
        }
        let bundle = parts.bytes();
        for _ in 0..40 {
            let uppers = uppers(&mut random);
            let answer = by_library(&bundle, uppers);
            assert_eq!(answer, by_fast(&bundle, uppers), "{uppers:?} {}", builder::hex(&bundle));
            met[answer.reply().values[0] as usize] += 1;
        }
    }
    assert!(met.iter().all(|&count| count > 50), "{met:?}");
}
